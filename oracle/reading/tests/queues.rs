//! Document 02, request 12: whose turn it is, the order of each queue, how long a frame waits, the
//! buffer's bytes, the refusals in their order.

mod common;

use common::{call, extract, frame, left, right};
use reading::calls::{load, put, serve};
use reading::nodes::Node;
use reading::program::hex;
use reading::queues::{MAX_QUEUED, MAX_WAITING, QUEUES_BYTES, Queues, Served};
use reading::refusal::Refusal;

/// Where a queue's count stands; its lengths are after it, and its places after these.
const COUNT: [usize; 2] = [1, 16_418];

fn fresh() -> Vec<u8> {
    vec![0; 32_835]
}

/// The queue and the frame that come next; the output's other bytes stay. `None` with both empty.
fn next(buffer: &mut [u8]) -> Option<(usize, Vec<u8>)> {
    let mut out = vec![0xaa; MAX_QUEUED + 2];
    let served = serve(buffer, &mut out).unwrap();
    let length = served.map_or(0, |served| served.length);
    assert!(out[length..].iter().all(|byte| *byte == 0xaa));
    served.map(|served| (served.queue, out[..length].to_vec()))
}

fn put_all(buffer: &mut [u8], queue: u8, frames: &[&[u8]]) {
    for frame in frames {
        assert_eq!(put(buffer, queue, frame), Ok(frame.len()));
    }
}

#[test]
fn a_buffer_has_32_835_bytes() {
    assert_eq!(QUEUES_BYTES, 32_835);
    assert_eq!(Queues::read(&fresh()), Some(Queues::default()));
}

#[test]
fn from_fresh_queue_0_is_first_and_then_they_take_turns() {
    let mut buffer = fresh();
    put_all(&mut buffer, 1, &[b"d", b"e"]);
    put_all(&mut buffer, 0, &[b"a", b"b", b"c"]);
    let expected = [(0, b"a"), (1, b"d"), (0, b"b"), (1, b"e"), (0, b"c")];
    for (queue, frame) in expected {
        assert_eq!(next(&mut buffer), Some((queue, frame.to_vec())));
    }
    let before = buffer.clone();
    assert_eq!(next(&mut buffer), None);
    assert!(buffer == before);
}

#[test]
fn an_empty_queue_is_passed_over() {
    let mut buffer = fresh();
    put_all(&mut buffer, 1, &[b"a", b"b"]);
    assert_eq!(next(&mut buffer), Some((1, b"a".to_vec())));
    assert_eq!(next(&mut buffer), Some((1, b"b".to_vec())));
    put_all(&mut buffer, 1, &[b"c"]);
    put_all(&mut buffer, 0, &[b"d"]);
    assert_eq!(next(&mut buffer), Some((0, b"d".to_vec())));
    assert_eq!(next(&mut buffer), Some((1, b"c".to_vec())));
}

/// The other queue gets a frame before each serve. Behind j others, the (2j + 2)th serve at the latest
/// gives the frame, and from fresh queue 1 needs them all; a refused serve counts for nothing.
#[test]
fn no_frame_waits_longer() {
    for (queue, first) in [(1, 2), (0, 1)] {
        for j in 0..MAX_WAITING {
            let mut buffer = fresh();
            put_all(&mut buffer, queue, &vec![&b"before"[..]; j]);
            put_all(&mut buffer, queue, &[b"this"]);
            let mut serves = 0;
            loop {
                put_all(&mut buffer, 1 - queue, &[b"other"]);
                assert_eq!(serve(&mut buffer, &mut [0; 3]), Err(Refusal::NoRoom));
                let (_, frame) = next(&mut buffer).unwrap();
                serves += 1;
                if frame == b"this" {
                    break;
                }
            }
            assert_eq!(serves, 2 * j + first);
        }
    }
}

/// Mark, count, lengths and places; what is free keeps its value.
#[test]
fn the_bytes_of_the_buffer() {
    for queue in 0..2 {
        let (count, lengths) = (COUNT[queue], COUNT[queue] + 1);
        let place = |index: usize| lengths + 32 + 1_024 * index;
        let mut buffer = vec![0xee; QUEUES_BYTES];
        (buffer[0], buffer[COUNT[0]], buffer[COUNT[1]]) = (0, 0, 0);
        let mut expected = buffer.clone();
        put_all(&mut buffer, queue as u8, &[b"abcd", b"xy", &[9; 1_024]]);
        expected[count] = 3;
        expected[lengths..lengths + 6].copy_from_slice(&[0, 4, 0, 2, 4, 0]);
        expected[place(0)..place(0) + 4].copy_from_slice(b"abcd");
        expected[place(1)..place(1) + 2].copy_from_slice(b"xy");
        expected[place(2)..place(3)].fill(9);
        assert!(buffer == expected);
        assert_eq!(next(&mut buffer), Some((queue, b"abcd".to_vec())));
        (expected[0], expected[count]) = (queue as u8 + 1, 2);
        expected[lengths..lengths + 6].copy_from_slice(&[0, 2, 4, 0, 4, 0]);
        expected[place(0)..place(0) + 2].copy_from_slice(b"xy");
        expected[place(1)..place(2)].fill(9);
        assert!(buffer == expected);
    }
}

/// The numbers of a put of one byte and of a serve; both keep the buffer where they are refused.
fn numbers(buffer: &[u8]) -> [u8; 2] {
    let mut after = buffer.to_vec();
    let served = serve(&mut after, &mut [0; MAX_QUEUED]);
    assert!(served.is_ok() || after == buffer);
    let mut after = buffer.to_vec();
    let added = put(&mut after, 0, b"a");
    assert!(added.is_ok() || after == buffer);
    let number = |refused: Option<Refusal>| refused.map_or(0, Refusal::number);
    [number(added.err()), number(served.err())]
}

#[test]
fn buffers_that_hold_no_queues_are_10() {
    for length in [0, 1, 32_834, 32_836, 40_000] {
        assert_eq!(numbers(&vec![0; length]), [10, 10]);
    }
    for (mark, number) in [(0, 0), (1, 0), (2, 0), (3, 10), (255, 10)] {
        let mut buffer = fresh();
        buffer[0] = mark;
        assert_eq!(numbers(&buffer), [number, number]);
    }
    for count in COUNT {
        let mut buffer = fresh();
        for (held, length, number) in [
            (1, [0, 0], 10),
            (1, [0, 1], 0),
            (1, [4, 0], 0),
            (1, [4, 1], 10),
            (1, [255, 255], 10),
            (0, [255, 255], 0),
            (2, [0, 1], 10),
            (17, [0, 1], 10),
        ] {
            buffer[count] = held;
            buffer[count + 1..count + 3].copy_from_slice(&length);
            assert_eq!(numbers(&buffer), [number, number]);
        }
        let mut buffer = fresh();
        buffer[count + 1..count + 33].fill(1);
        buffer[count] = 16;
        assert_eq!(numbers(&buffer)[1], 0);
        buffer[count] = 17;
        assert_eq!(numbers(&buffer), [10, 10]);
    }
}

/// Each of these states has the faults of all that come after it.
#[test]
fn refusals_in_their_order() {
    let mut full = fresh();
    put_all(&mut full, 1, &[&b"abc"[..]; MAX_WAITING]);
    let mut bad = full.clone();
    bad[0] = 3;
    let long = [0; MAX_QUEUED + 1];
    let number = |buffer: &[u8], queue, frame: &[u8]| {
        let mut after = buffer.to_vec();
        let answer = put(&mut after, queue, frame).map_err(Refusal::number);
        assert!(answer.is_ok() || after == buffer);
        answer
    };
    assert_eq!(number(&bad, 2, b""), Err(21));
    assert_eq!(number(&[], 255, &long), Err(21));
    assert_eq!(number(&bad, 1, b""), Err(10));
    assert_eq!(number(&bad, 1, &long), Err(10));
    assert_eq!(number(&full, 1, b""), Err(1));
    assert_eq!(number(&full, 1, &long), Err(22));
    assert_eq!(number(&full, 1, &[0; 16_385]), Err(22));
    assert_eq!(number(&full, 1, &long[1..]), Err(23));
    assert_eq!(number(&full, 0, &long[1..]), Ok(1_024));

    assert_eq!(serve(&mut bad, &mut []), Err(Refusal::BadPlan));
    let before = full.clone();
    let mut out = [7; 2];
    assert_eq!(serve(&mut full, &mut out), Err(Refusal::NoRoom));
    assert!(full == before && out == [7; 2]);
    assert_eq!(serve(&mut fresh(), &mut []), Ok(None));
    let served = Served {
        queue: 1,
        length: 3,
    };
    assert_eq!(serve(&mut full, &mut [0; 3]), Ok(Some(served)));
}

/// Any bytes that differ in free ones only give the same, and go on doing so.
#[test]
fn free_bytes_play_no_part() {
    let mut buffers = [fresh(), vec![0xee; QUEUES_BYTES]];
    for index in [0, COUNT[0], COUNT[1]] {
        buffers[1][index] = 0;
    }
    for step in 0..600 {
        let frame = vec![step as u8; 1 + step * 37 % 1_030];
        let [first, second] = buffers.each_mut().map(|buffer| match step / 20 % 2 {
            0 => (put(buffer, (step % 2) as u8, &frame), None),
            _ => (Ok(0), next(buffer)),
        });
        assert_eq!(first, second);
    }
}

/// A frame with one conjunct, of this name.
fn job(name: &str) -> Vec<u8> {
    frame(call(name, vec![left(), right()]))
}

/// The frames come out as they went in, and are planned as any other.
#[test]
fn a_served_frame_is_planned() {
    let mut buffer = fresh();
    put_all(&mut buffer, 0, &[&job("st_within"), &job("region")]);
    put_all(&mut buffer, 1, &[&job("st_knn")]);
    let mut lines = Vec::new();
    while let Some((queue, frame)) = next(&mut buffer) {
        let (mut n, mut plan, mut scratch) = (0, vec![0; 1_024], vec![0; 1_024]);
        let mut table = [Node::default(); 3];
        load(&frame, &mut n, &mut plan, &mut table).unwrap();
        let answer = extract(&mut n, &mut plan, &mut scratch, &table);
        let first = answer.map_or_else(Refusal::number, |_| plan[0]);
        lines.push((queue, hex(&[first])));
    }
    let expected = [(0, "11"), (1, "13"), (0, "0d")];
    assert_eq!(
        lines,
        expected.map(|(queue, first)| (queue, first.as_bytes().to_vec()))
    );
}
