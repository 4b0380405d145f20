//! Damaged copies of frames, and bytes that were never a good frame.

use crate::rng::Rng;

/// A few changes of the bytes.
pub fn damage(rng: &mut Rng, frame: &mut Vec<u8>) {
    for _ in 0..1 + rng.below(2) {
        if frame.is_empty() {
            return;
        }
        let at = match rng.below(4) {
            0 => frame.len() - 1 - rng.below(frame.len().min(8)),
            _ => rng.below(frame.len()),
        };
        match rng.below(8) {
            0 => frame[at] = rng.draw() as u8,
            1 => frame[at] = frame[at].wrapping_add(1),
            2 => frame[at] ^= 1 << rng.below(8),
            3 => frame.truncate(at),
            4 => frame.extend((0..1 + rng.below(3)).map(|_| rng.below(5) as u8)),
            5 => {
                let other = rng.below(frame.len());
                frame.swap(at, other);
            }
            6 => drop(frame.remove(at)),
            _ => frame.insert(at, rng.below(6) as u8),
        }
    }
}

/// A frame's first byte, then bytes that are likely in a frame.
pub fn likely_bytes(rng: &mut Rng) -> Vec<u8> {
    let mut frame = if rng.one_in(4) {
        vec![2]
    } else {
        let count = rng.below(3) as u8;
        let mut start = vec![1, 0, count];
        for _ in 0..count {
            start.extend([rng.below(3) as u8, 0, rng.below(3) as u8, 0, 0]);
        }
        start
    };
    for _ in 0..rng.below(24) {
        let byte = match rng.below(8) {
            0 => rng.draw() as u8,
            1 => rng.pick(b"st_knwihi"),
            _ => rng.below(6) as u8,
        };
        frame.push(byte);
    }
    frame
}
