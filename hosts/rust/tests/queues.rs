//! Two queues: who is due, the order of each, the bytes of the buffer, every refusal in its order.

use spatialjoin::{MOST_QUEUED, MOST_WAITING, QUEUES_BYTES, Queue, Queues, Refusal, Served};
use spatialjoin::{numbers, put, serve};

/// A queue's count, and where the lengths and the places after it start.
const COUNTS: [usize; 2] = [1, 16_418];
const LENGTHS: [usize; 2] = [2, 16_419];
const PLACES: [usize; 2] = [34, 16_451];

/// The frame that comes next and its queue; the output's other bytes stay.
fn next(queues: &mut Queues) -> Option<(u8, Vec<u8>)> {
    let mut out = vec![7; MOST_QUEUED + 3];
    let served = queues.serve(&mut out).expect("good queues");
    let Some(Served { queue, length }) = served else {
        assert_eq!(out, vec![7; MOST_QUEUED + 3]);
        return None;
    };
    assert_eq!(out[length..], vec![7; MOST_QUEUED + 3 - length]);
    out.truncate(length);
    Some((queue.number(), out))
}

fn put_all(queues: &mut Queues, queue: Queue, frames: &[&[u8]]) {
    for frame in frames {
        assert_eq!(queues.put(queue, frame), Ok(frame.len()));
    }
}

#[test]
fn the_queues_are_served_in_turn() {
    let mut queues = Queues::fresh();
    put_all(&mut queues, Queue::FixedUnit, &[b"d", b"ef"]);
    put_all(&mut queues, Queue::Chassis, &[b"a", b"b", b"c"]);
    for (queue, frame) in [(0, "a"), (1, "d"), (0, "b"), (1, "ef"), (0, "c")] {
        assert_eq!(next(&mut queues), Some((queue, frame.into())));
    }
    assert_eq!(next(&mut queues), None);
}

#[test]
fn a_queue_alone_is_served_again_and_again() {
    let mut queues = Queues::default();
    put_all(&mut queues, Queue::FixedUnit, &[b"a", b"b", b"c"]);
    assert_eq!(next(&mut queues), Some((1, b"a".into())));
    assert_eq!(next(&mut queues), Some((1, b"b".into())));
    // The chassis was never served: it is due.
    put_all(&mut queues, Queue::Chassis, &[b"z"]);
    assert_eq!(next(&mut queues), Some((0, b"z".into())));
    assert_eq!(next(&mut queues), Some((1, b"c".into())));
    assert_eq!(next(&mut queues), None);
}

/// A frame behind j others comes out with the (2j + 2)th serve after it where the other queue is served
/// first and never empty, and no later.
#[test]
fn no_frame_waits_longer_than_promised() {
    for j in 0..MOST_WAITING {
        let mut queues = Queues::fresh();
        put_all(&mut queues, Queue::FixedUnit, &vec![&b"before"[..]; j]);
        put_all(&mut queues, Queue::FixedUnit, &[b"this"]);
        let served = (1..).find(|_| {
            put_all(&mut queues, Queue::Chassis, &[b"other"]);
            let mut out = [0; MOST_QUEUED];
            assert_eq!(queues.serve(&mut []), Err(Refusal::TooShort));
            let served = queues.serve(&mut out).expect("there is room");
            out.starts_with(b"this") && served.is_some()
        });
        assert_eq!(served, Some(2 * j + 2));
    }
}

/// A frame of its own for each queue and number.
fn frame_of(queue: u8, number: u16) -> Vec<u8> {
    let length = 3 + usize::from(number) * 67 % (MOST_QUEUED - 2);
    let mut frame = vec![0; length];
    frame[..2].copy_from_slice(&number.to_be_bytes());
    frame[length - 1] = queue + 10;
    frame
}

/// Nothing is lost: what was accepted comes out, the frames of each queue as they came.
#[test]
fn each_queue_gives_its_frames_in_their_order() {
    let mut queues = Queues::fresh();
    let (mut came, mut gone, mut full) = ([0, 0], [0, 0], 0);
    for step in 0..4_000 {
        let queue = [Queue::Chassis, Queue::FixedUnit][step % 3 / 2];
        let side = usize::from(queue.number());
        if step / 40 % 2 == 0 || step % 5 == 0 {
            let frame = frame_of(queue.number(), came[side]);
            match queues.put(queue, &frame) {
                Ok(length) => {
                    assert_eq!(length, frame.len());
                    came[side] += 1;
                }
                Err(refusal) => {
                    assert_eq!(refusal, Refusal::QueueFull);
                    assert_eq!(came[side] - gone[side], 16);
                    full += 1;
                }
            }
        } else if let Some((queue, frame)) = next(&mut queues) {
            let side = usize::from(queue);
            assert_eq!(frame, frame_of(queue, gone[side]));
            gone[side] += 1;
        } else {
            assert_eq!(came, gone);
        }
    }
    assert!(full > 0 && gone[0] > 500 && gone[1] > 500);
    while let Some((queue, frame)) = next(&mut queues) {
        let side = usize::from(queue);
        assert_eq!(frame, frame_of(queue, gone[side]));
        gone[side] += 1;
    }
    assert_eq!(came, gone);
}

/// What is free keeps its value: the bytes after a frame, and lengths and places past a count.
#[test]
fn the_bytes_of_the_buffer() {
    for side in 0..2 {
        let mut bytes = vec![0xee; QUEUES_BYTES];
        (bytes[0], bytes[COUNTS[0]], bytes[COUNTS[1]]) = (0, 0, 0);
        let mut expected = bytes.clone();
        assert_eq!(put(&mut bytes, side as u8, b"abcd"), Ok(4));
        assert_eq!(put(&mut bytes, side as u8, b"xy"), Ok(2));
        expected[COUNTS[side]] = 2;
        expected[LENGTHS[side]..][..4].copy_from_slice(&[0, 4, 0, 2]);
        expected[PLACES[side]..][..4].copy_from_slice(b"abcd");
        expected[PLACES[side] + MOST_QUEUED..][..2].copy_from_slice(b"xy");
        assert!(bytes == expected);
        let mut out = [7; 4];
        let served = serve(&mut bytes, &mut out).expect("there is room");
        assert_eq!(served.map(|served| served.length), Some(4));
        assert_eq!(&out, b"abcd");
        (expected[0], expected[COUNTS[side]]) = (side as u8 + 1, 1);
        expected[LENGTHS[side]..][..2].copy_from_slice(&[0, 2]);
        expected[PLACES[side]..][..2].copy_from_slice(b"xy");
        assert!(bytes == expected);
    }
}

#[test]
fn the_longest_frames_and_full_queues() {
    let mut queues = Queues::fresh();
    let frame = |queue: Queue, number: usize| {
        let mut frame = vec![queue.number(); MOST_QUEUED];
        (frame[0], frame[1_023]) = (number as u8, number as u8);
        frame
    };
    for queue in [Queue::Chassis, Queue::FixedUnit] {
        for number in 0..MOST_WAITING {
            assert_eq!(queues.put(queue, &frame(queue, number)), Ok(MOST_QUEUED));
        }
        let before = queues.clone();
        assert_eq!(queues.put(queue, b"more"), Err(Refusal::QueueFull));
        assert!(before.as_bytes() == queues.as_bytes());
    }
    for number in 0..MOST_WAITING {
        for queue in [Queue::Chassis, Queue::FixedUnit] {
            let expected = (queue.number(), frame(queue, number));
            assert_eq!(next(&mut queues), Some(expected));
        }
    }
    assert_eq!(next(&mut queues), None);
}

/// Puts and serves of bytes that are no good queues: each is refused and changes nothing.
fn refused(bytes: &[u8]) -> bool {
    let mut queues = Queues::from_bytes(bytes);
    let mut out = [7; MOST_QUEUED];
    let put = queues.put(Queue::Chassis, b"a").err();
    let served = queues.serve(&mut out).err();
    let kept = queues.as_bytes() == bytes && out == [7; MOST_QUEUED];
    kept && put == Some(Refusal::NoGoodPlan) && served == put
}

#[test]
fn buffers_that_hold_no_queues() {
    for length in [0, 1, QUEUES_BYTES - 1, QUEUES_BYTES + 1] {
        assert!(refused(&vec![0; length]));
    }
    let with = |changes: &[(usize, u8)]| {
        let mut bytes = vec![0; QUEUES_BYTES];
        for (index, byte) in changes {
            bytes[*index] = *byte;
        }
        bytes
    };
    assert!(refused(&with(&[(0, 3)])) && refused(&with(&[(0, 255)])));
    assert!(!refused(&with(&[(0, 2)])));
    for side in 0..2 {
        let (count, length) = (COUNTS[side], LENGTHS[side]);
        assert!(refused(&with(&[(count, 17)])));
        assert!(refused(&with(&[(count, 1)])));
        assert!(refused(&with(&[(count, 1), (length, 4), (length + 1, 1)])));
        assert!(!refused(&with(&[(count, 1), (length, 4)])));
        assert!(!refused(&with(&[(length, 255)])));
        let sixteen: Vec<(usize, u8)> = (0..16).map(|i| (length + 2 * i, 1)).collect();
        assert!(refused(&with(
            &[&sixteen[..15], &[(count, 16)][..]].concat()
        )));
    }
}

/// Each of these states has the faults of all that come after it.
#[test]
fn refusals_in_their_order() {
    let mut full = Queues::fresh();
    put_all(&mut full, Queue::FixedUnit, &[&b"a"[..]; MOST_WAITING]);
    let (full, long) = (full.as_bytes().to_vec(), vec![0; MOST_QUEUED + 1]);
    let mut bad = full.clone();
    bad[0] = 3;
    let put = |bytes: &[u8], queue, frame: &[u8]| {
        let mut queues = bytes.to_vec();
        let answer = put(&mut queues, queue, frame);
        assert!(answer.is_ok() || queues == bytes);
        answer.map_err(Refusal::number)
    };
    for queue in [2, 3, 255] {
        assert_eq!(put(&bad, queue, b""), Err(21));
        assert_eq!(put(&full, queue, b""), Err(21));
        assert_eq!(put(&[], queue, &long), Err(21));
    }
    assert_eq!(put(&bad, 1, b""), Err(10));
    assert_eq!(put(&bad, 1, &long), Err(10));
    assert_eq!(put(&full, 1, b""), Err(1));
    assert_eq!(put(&full, 1, &long), Err(22));
    assert_eq!(put(&full, 1, &vec![0; 20_000]), Err(22));
    assert_eq!(put(&full, 1, &long[1..]), Err(23));
    assert_eq!(put(&full, 0, &long[1..]), Ok(MOST_QUEUED));

    let serve = |bytes: &[u8], room| {
        let (mut queues, mut out) = (bytes.to_vec(), vec![7; room]);
        let answer = serve(&mut queues, &mut out);
        assert!(answer.is_ok() || queues == bytes && out == vec![7; room]);
        answer.map_err(Refusal::number)
    };
    let served = Served {
        queue: Queue::FixedUnit,
        length: 1,
    };
    assert_eq!(serve(&bad, 0), Err(10));
    assert_eq!(serve(&full, 0), Err(9));
    assert_eq!(serve(&full, 1), Ok(Some(served)));
    assert_eq!(serve(&vec![0; QUEUES_BYTES], 0), Ok(None));
}

#[test]
fn the_parts_of_an_answer() {
    let mut queues = vec![0; QUEUES_BYTES];
    assert_eq!(numbers::serve(&mut queues, &mut []), 0);
    assert_eq!(numbers::put(&mut queues, 1, &[5; 9]), 9);
    assert_eq!(numbers::serve(&mut queues, &mut [0; 8]), -9);
    let answer = numbers::serve(&mut queues, &mut [0; 9]);
    assert_eq!(answer, 65_536 + 9);
    assert_eq!(numbers::queue_of(answer), 1);
    assert_eq!(numbers::length_of(answer), 9);
    assert_eq!(numbers::refusal_of(answer), 0);
    assert_eq!((numbers::queue_of(-9), numbers::refusal_of(-9)), (0, 9));
}
