//! Puts and serves: lists of calls from fresh and from used buffers, with damaged buffers, frames and
//! outputs of every length in between.

use driver::rng::Rng;
use reading::queues::{MAX_QUEUED, MAX_WAITING, QUEUES_BYTES, Queues};

use crate::call::{Call, Kind};
use crate::compare;
use crate::counts::Counts;

/// Where a queue's count stands; its lengths are after it.
const COUNT: [usize; 2] = [1, 1 + (QUEUES_BYTES - 1) / 2];

/// A list of calls on one buffer. In most cases each goes on from what the one before left; at times it
/// is made on a damaged copy, or free bytes get other values.
pub fn run(rng: &mut Rng, counts: &mut Counts) -> Result<(), String> {
    let mut buffer = any_queues(rng);
    // Lists that fill the queues, lists that empty them, and lists that do neither.
    let puts = rng.pick(&[2, 4, 6]);
    for _ in 0..24 {
        if rng.one_in(8) {
            buffer = with_other_free_bytes(rng, &buffer);
        }
        let mut queues = buffer.clone();
        let damaged = rng.one_in(6);
        if damaged {
            damage(rng, &mut queues);
        }
        let call = match rng.below(8) < puts {
            true => put(rng, queues),
            false => serve(rng, queues),
        };
        let outcome = compare(rng, &call, counts)?;
        if !damaged {
            buffer = outcome.queues;
        }
    }
    Ok(())
}

/// In most cases 0 or 1, and a frame that is neither empty nor too long.
fn put(rng: &mut Rng, queues: Vec<u8>) -> Call {
    let queue = match rng.below(16) {
        0 => rng.draw() as u8,
        1 => rng.pick(&[2, 3, 255]),
        _ => rng.below(2) as u8,
    };
    let length = match rng.below(16) {
        0 => 0,
        1 => MAX_QUEUED + 1,
        2 => MAX_QUEUED + 1 + rng.below(20_000),
        3 => MAX_QUEUED - 1,
        4 | 5 => MAX_QUEUED,
        _ => any_length(rng),
    };
    Call {
        queues,
        queue,
        frame: many_bytes(rng, length),
        ..Call::new(Kind::Put)
    }
}

/// An output that is empty, shorter than the frame due, one byte short, just long enough, or longer.
fn serve(rng: &mut Rng, queues: Vec<u8>) -> Call {
    let mut held = Queues::read(&queues).unwrap_or_default();
    let due = held.take_due().map_or(0, |(_, frame)| frame.len());
    let room = match rng.below(8) {
        0 => rng.below(2) * rng.below(due + 1),
        1 => due.saturating_sub(1),
        2 | 3 => due,
        4 => due + 1,
        5 => MAX_QUEUED,
        6 => 2 * MAX_QUEUED,
        _ => due + rng.below(64),
    };
    Call {
        queues,
        out: many_bytes(rng, room),
        ..Call::new(Kind::Serve)
    }
}

/// Of a frame that may wait.
fn any_length(rng: &mut Rng) -> usize {
    match rng.below(8) {
        0 => 1,
        1 => MAX_QUEUED,
        2 => 255 + rng.below(3),
        3 => 1 + rng.below(MAX_QUEUED),
        _ => 1 + rng.below(64),
    }
}

/// Fresh; or good queues with any mark and counts, empty and full ones often; free bytes are any.
fn any_queues(rng: &mut Rng) -> Vec<u8> {
    if rng.one_in(4) {
        return vec![0; QUEUES_BYTES];
    }
    let mut queues = Queues {
        last: rng.pick(&[None, Some(0), Some(1)]),
        ..Queues::default()
    };
    for waiting in &mut queues.waiting {
        let count = match rng.below(6) {
            0 => 0,
            1 => MAX_WAITING,
            2 => MAX_WAITING - 1,
            _ => rng.below(MAX_WAITING + 1),
        };
        for _ in 0..count {
            let length = any_length(rng);
            waiting.push_back(many_bytes(rng, length));
        }
    }
    let mut buffer = many_bytes(rng, QUEUES_BYTES);
    queues.write(&mut buffer);
    buffer
}

/// The same queues among other bytes; a buffer that holds none stays as it is.
fn with_other_free_bytes(rng: &mut Rng, buffer: &[u8]) -> Vec<u8> {
    let Some(queues) = Queues::read(buffer) else {
        return buffer.to_vec();
    };
    let mut other = many_bytes(rng, QUEUES_BYTES);
    queues.write(&mut other);
    other
}

/// A mark over 2, a count over 16, a held frame's length of 0 or over 1,024, a count that takes free
/// lengths for held ones, another length of the buffer, or any bytes. At times the queues are still good.
fn damage(rng: &mut Rng, buffer: &mut Vec<u8>) {
    let count = COUNT[rng.below(2)];
    match rng.below(8) {
        0 => buffer[0] = rng.pick(&[0, 1, 2, 3, 4, 128, 255]),
        1 => buffer[count] = rng.pick(&[15, 16, 17, 18, 32, 255]),
        2 => buffer[count] = rng.below(MAX_WAITING + 2) as u8,
        3 | 4 => {
            let last = usize::from(buffer[count]).clamp(1, MAX_WAITING) - 1;
            let any = rng.below(MAX_WAITING);
            let index = rng.pick(&[0, last, any]);
            let length = rng.pick(&[0, 1, 1_024, 1_025, 1_280, 2_048, 65_535]);
            let at = count + 1 + 2 * index;
            buffer[at..at + 2].copy_from_slice(&u16::to_be_bytes(length));
        }
        5 => {
            let any = rng.below(QUEUES_BYTES);
            buffer.truncate(rng.pick(&[0, 1, QUEUES_BYTES - 1, any]));
        }
        6 => buffer.resize(QUEUES_BYTES + 1 + rng.below(2) * rng.below(2_000), 0),
        _ => *buffer = many_bytes(rng, QUEUES_BYTES),
    }
}

/// Any bytes, eight at a time.
fn many_bytes(rng: &mut Rng, length: usize) -> Vec<u8> {
    let words = (0..length.div_ceil(8)).flat_map(|_| rng.draw().to_le_bytes());
    words.take(length).collect()
}
