use crate::{MOST_BYTES, Refusal, length, numbers};

/// The bytes of a buffer of queues; one of any other length is refused.
pub const QUEUES_BYTES: usize = 32_835;

/// The most bytes of a frame that waits in a queue: an output of so many is never too short.
pub const MOST_QUEUED: usize = 1_024;

/// The most frames that wait in a queue.
pub const MOST_WAITING: usize = 16;

// The mark, and for each queue a count, the lengths and the places.
const _: () = {
    assert!(QUEUES_BYTES == 1 + 2 * (1 + MOST_WAITING * (2 + MOST_QUEUED)));
    assert!(MOST_QUEUED <= MOST_BYTES);
    assert!(Queue::Chassis as u8 == 0 && Queue::FixedUnit as u8 == 1);
};

/// The machine whose jobs wait in a queue.
#[derive(Clone, Copy, Debug, PartialEq, Eq, Hash)]
pub enum Queue {
    Chassis = 0,
    FixedUnit = 1,
}

impl Queue {
    /// 0 or 1.
    pub fn number(self) -> u8 {
        self as u8
    }

    /// # Panics
    ///
    /// On a number that no serve gives: another library was linked.
    fn from_number(number: u32) -> Self {
        match number {
            0 => Queue::Chassis,
            1 => Queue::FixedUnit,
            _ => panic!("{number} is no queue of the library"),
        }
    }
}

/// A frame that a serve wrote at the output's start.
#[derive(Clone, Copy, Debug, PartialEq, Eq)]
pub struct Served {
    pub queue: Queue,
    /// The frame's.
    pub length: usize,
}

/// Adds a frame at the end of a queue, 0 or 1, of the buffer and gives the frame's length. Nothing looks
/// into the frame, which [`load`](crate::load) does once it was served. A buffer of [`QUEUES_BYTES`]
/// zeros is fresh.
///
/// # Errors
///
/// Refusals 1, 10 and 21 to 23.
pub fn put(queues: &mut [u8], queue: u8, frame: &[u8]) -> Result<usize, Refusal> {
    length(numbers::put(queues, queue, frame))
}

/// Takes the frame that is due and writes it at the output's start; the bytes after it stay as they
/// were. Due is the oldest frame of the queue that was not served last, if it holds one, else that of
/// the other; from fresh queue 0 is tried first. `None` where both are empty, and nothing changes.
///
/// # Errors
///
/// Refusals 9 and 10.
pub fn serve(queues: &mut [u8], out: &mut [u8]) -> Result<Option<Served>, Refusal> {
    match numbers::serve(queues, out) {
        0 => Ok(None),
        answer @ 1.. => Ok(Some(Served {
            queue: Queue::from_number(numbers::queue_of(answer)),
            length: numbers::length_of(answer),
        })),
        refused => Err(Refusal::from_number(refused.unsigned_abs())),
    }
}

/// Two queues of frames in a buffer of their own. Whatever the other queue does, a frame that was put
/// behind j others of its queue comes out no later than the (2j + 2)th accepted serve after it, and each
/// queue gives its frames in the order in which they came.
#[derive(Clone)]
pub struct Queues {
    bytes: Box<[u8]>,
}

impl Queues {
    /// Both empty, and nobody served.
    pub fn fresh() -> Self {
        Queues {
            bytes: vec![0; QUEUES_BYTES].into(),
        }
    }

    /// A buffer that was kept; one that holds no good queues is refused at each call (10).
    pub fn from_bytes(bytes: impl Into<Box<[u8]>>) -> Self {
        Queues {
            bytes: bytes.into(),
        }
    }

    pub fn as_bytes(&self) -> &[u8] {
        &self.bytes
    }

    /// [`put`] into this buffer.
    ///
    /// # Errors
    ///
    /// Refusals 1, 22 and 23; 10 where the bytes are a host's and no good queues.
    pub fn put(&mut self, queue: Queue, frame: &[u8]) -> Result<usize, Refusal> {
        put(&mut self.bytes, queue.number(), frame)
    }

    /// [`serve`] from this buffer.
    ///
    /// # Errors
    ///
    /// Refusal 9; 10 likewise.
    pub fn serve(&mut self, out: &mut [u8]) -> Result<Option<Served>, Refusal> {
        serve(&mut self.bytes, out)
    }
}

impl Default for Queues {
    fn default() -> Self {
        Queues::fresh()
    }
}
