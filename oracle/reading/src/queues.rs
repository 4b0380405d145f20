//! Document 02, request 12: two queues of frames in one buffer, and whose turn it is.

use std::collections::VecDeque;

/// The most bytes of a frame that waits.
pub const MAX_QUEUED: usize = 1_024;
/// The most frames of a queue.
pub const MAX_WAITING: usize = 16;
/// A count byte, 16 lengths of 2 bytes and 16 places of 1,024.
const QUEUE_BYTES: usize = 1 + 2 * MAX_WAITING + MAX_QUEUED * MAX_WAITING;
/// The mark, and both queues.
pub const QUEUES_BYTES: usize = 1 + 2 * QUEUE_BYTES;

/// What a buffer holds: who was served last, and the frames that wait, the oldest first.
#[derive(Clone, Debug, Default, PartialEq, Eq)]
pub struct Queues {
    pub last: Option<usize>,
    pub waiting: [VecDeque<Vec<u8>>; 2],
}

/// What a serve gives: queue and length.
#[derive(Clone, Copy, Debug, PartialEq, Eq)]
pub struct Served {
    pub queue: usize,
    pub length: usize,
}

impl Queues {
    /// `None` is refusal 10: another buffer length, a mark over 2, a count over 16, or a held frame's
    /// length outside 1 to 1,024.
    pub fn read(buffer: &[u8]) -> Option<Self> {
        if buffer.len() != QUEUES_BYTES {
            return None;
        }
        let (mark, rest) = buffer.split_first()?;
        let (first, second) = rest.split_at(QUEUE_BYTES);
        Some(Queues {
            last: match mark {
                0 => None,
                1 => Some(0),
                2 => Some(1),
                _ => return None,
            },
            waiting: [read_queue(first)?, read_queue(second)?],
        })
    }

    /// Free bytes keep their values: those beyond a frame's length, and lengths and places past a count.
    pub fn write(&self, buffer: &mut [u8]) {
        let (mark, rest) = buffer.split_at_mut(1);
        mark[0] = match self.last {
            None => 0,
            Some(queue) => queue as u8 + 1,
        };
        for (bytes, waiting) in rest.chunks_mut(QUEUE_BYTES).zip(&self.waiting) {
            write_queue(waiting, bytes);
        }
    }

    /// The queue that wasn't served last if it holds a frame, else the other; from fresh queue 0 is
    /// tried first. Its oldest frame is taken out, and it is the one that was served last.
    pub fn take_due(&mut self) -> Option<(usize, Vec<u8>)> {
        let tried = match self.last {
            Some(0) => [1, 0],
            Some(_) | None => [0, 1],
        };
        for queue in tried {
            if let Some(frame) = self.waiting[queue].pop_front() {
                self.last = Some(queue);
                return Some((queue, frame));
            }
        }
        None
    }
}

fn read_queue(bytes: &[u8]) -> Option<VecDeque<Vec<u8>>> {
    let count = usize::from(bytes[0]);
    if count > MAX_WAITING {
        return None;
    }
    let (lengths, places) = bytes[1..].split_at(2 * MAX_WAITING);
    let pairs = lengths.chunks(2).zip(places.chunks(MAX_QUEUED));
    let frame = |(length, place): (&[u8], &[u8])| {
        let length = usize::from(length[0]) * 256 + usize::from(length[1]);
        (1..=MAX_QUEUED)
            .contains(&length)
            .then(|| place[..length].to_vec())
    };
    pairs.take(count).map(frame).collect()
}

fn write_queue(waiting: &VecDeque<Vec<u8>>, bytes: &mut [u8]) {
    let (count, rest) = bytes.split_at_mut(1);
    let (lengths, places) = rest.split_at_mut(2 * MAX_WAITING);
    count[0] = waiting.len() as u8;
    let pairs = lengths.chunks_mut(2).zip(places.chunks_mut(MAX_QUEUED));
    for (frame, (length, place)) in waiting.iter().zip(pairs) {
        length.copy_from_slice(&(frame.len() as u16).to_be_bytes());
        place[..frame.len()].copy_from_slice(frame);
    }
}
