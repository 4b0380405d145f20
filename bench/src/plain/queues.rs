//! The yardsticks for put and serve: test the whole buffer, then move whole frames.

use reading::queues::{MAX_QUEUED, MAX_WAITING, QUEUES_BYTES};

use super::nodes::two;

/// Where a queue starts, with its count; its lengths and its places, from there.
const STARTS: [usize; 2] = [1, 1 + (QUEUES_BYTES - 1) / 2];
const LENGTHS: usize = 1;
const PLACES: usize = LENGTHS + 2 * MAX_WAITING;

/// The frame's length, or the refusal's number.
pub fn put(queues: &mut [u8], queue: u8, frame: &[u8]) -> Result<usize, u8> {
    let start = *STARTS.get(usize::from(queue)).ok_or(21)?;
    test(queues)?;
    match frame.len() {
        0 => return Err(1),
        ..=MAX_QUEUED => (),
        _ => return Err(22),
    }
    let queue = &mut queues[start..];
    let count = usize::from(queue[0]);
    if count == MAX_WAITING {
        return Err(23);
    }
    let (length, place) = (LENGTHS + 2 * count, PLACES + MAX_QUEUED * count);
    queue[0] += 1;
    queue[length..length + 2].copy_from_slice(&(frame.len() as u16).to_be_bytes());
    queue[place..place + frame.len()].copy_from_slice(frame);
    Ok(frame.len())
}

/// The queue and the frame's length, nothing where both are empty, or the refusal's number.
pub fn serve(queues: &mut [u8], out: &mut [u8]) -> Result<Option<(usize, usize)>, u8> {
    test(queues)?;
    let first = usize::from(queues[0] == 1);
    let holds = |number: &usize| queues[STARTS[*number]] > 0;
    let Some(due) = [first, 1 - first].into_iter().find(holds) else {
        return Ok(None);
    };
    let queue = &mut queues[STARTS[due]..];
    let length = usize::from(two(queue, LENGTHS));
    let out = out.get_mut(..length).ok_or(9)?;
    out.copy_from_slice(&queue[PLACES..PLACES + length]);
    queue[0] -= 1;
    let left = usize::from(queue[0]);
    queue.copy_within(LENGTHS + 2..LENGTHS + 2 + 2 * left, LENGTHS);
    for index in 0..left {
        let length = usize::from(two(queue, LENGTHS + 2 * index));
        let from = PLACES + MAX_QUEUED * (index + 1);
        queue.copy_within(from..from + length, from - MAX_QUEUED);
    }
    queues[0] = due as u8 + 1;
    Ok(Some((due, length)))
}

/// Refusal 10.
fn test(queues: &[u8]) -> Result<(), u8> {
    if queues.len() != QUEUES_BYTES || queues[0] > 2 {
        return Err(10);
    }
    for start in STARTS {
        let count = usize::from(queues[start]);
        if count > MAX_WAITING {
            return Err(10);
        }
        let lengths = &queues[start + LENGTHS..start + LENGTHS + 2 * count];
        for length in lengths.chunks_exact(2) {
            if !(1..=MAX_QUEUED).contains(&usize::from(two(length, 0))) {
                return Err(10);
            }
        }
    }
    Ok(())
}
