//! Refusals, their order, and what a refused or accepted call leaves in the buffers.

mod common;

use common::{and, answers, call, extract, frame, frame_of, left, literal, other, record, right};
use reading::calls::{exchange, load, logical};
use reading::frame::{Expr, MAX_NODES, Side, literal as types, operator};
use reading::nodes::Node;
use reading::program::run;
use reading::refusal::Refusal;

fn refused(frame: &[u8]) -> u8 {
    let answer = load(frame, &mut 0, &mut [0; 20_000], &mut records());
    answer.map_or_else(Refusal::number, |_| 0)
}

/// A table that is long enough for every frame.
fn records() -> Vec<Node> {
    vec![Node::default(); MAX_NODES]
}

fn chain(depth: usize) -> Expr {
    (1..depth).fold(other(vec![]), |inner, _| other(vec![inner]))
}

/// A tree of so many nodes, as low as can be.
fn tree(nodes: usize) -> Expr {
    match nodes {
        1 => other(vec![]),
        2 => other(vec![other(vec![])]),
        _ => Expr::binary(operator::LAST, tree((nodes - 1) / 2), tree(nodes / 2)),
    }
}

#[test]
fn order_inside_a_frame() {
    assert_eq!(refused(&[]), 1);
    assert_eq!(refused(&[0; 16_385]), 1);
    assert_eq!(refused(&[2]), 2);
    assert_eq!(refused(&[1, 0]), 3);
    assert_eq!(refused(&[1, 1, 1]), 4);
    assert_eq!(refused(&[1, 0, 1, 3]), 4);
    assert_eq!(refused(&[1, 0, 0]), 3);
    assert_eq!(refused(&[1, 0, 0, 5]), 4);
    assert_eq!(refused(&[1, 0, 0, 1, 7]), 4);
    assert_eq!(refused(&[1, 0, 0, 1, 1, 9, 9, 9, 9, 9, 9, 9]), 3);
    assert_eq!(refused(&[1, 0, 0, 3, 0]), 4);
    assert_eq!(refused(&[1, 0, 0, 3, 5, 0x61, 0x20]), 4);
    assert_eq!(refused(&[1, 0, 0, 0, 0, 0, 0]), 3);
    assert_eq!(refused(&[1, 0, 0, 0, 0, 0, 0, 0, 9]), 6);
    assert_eq!(refused(&[1, 0, 0, 4, 0, 0, 0, 9]), 7);
}

#[test]
fn depth_comes_after_the_kind_and_before_the_fields() {
    assert_eq!(refused(&frame(chain(64))), 0);
    assert_eq!(refused(&frame(chain(65))), 5);
    let mut cut = frame(chain(65));
    cut.truncate(cut.len() - 3);
    assert_eq!(refused(&cut), 5);
    *cut.last_mut().unwrap() = 5;
    assert_eq!(refused(&cut), 4);
}

#[test]
fn arity_is_asked_of_and_leaves() {
    let short = || call("st_within", vec![left()]);
    assert_eq!(refused(&frame(short())), 8);
    assert_eq!(refused(&frame(and(left(), short()))), 8);
    assert_eq!(refused(&frame(other(vec![short()]))), 0);
    let two = vec![left(), right()];
    assert_eq!(refused(&frame(call("st_dwithin", two))), 8);
    let distance = || call("st_distance", vec![left()]);
    for (op, number) in [(1, 8), (2, 8), (3, 0), (4, 0), (5, 0)] {
        let read_left = Expr::binary(op, distance(), left());
        assert_eq!(refused(&frame(read_left)), number);
    }
    assert_eq!(refused(&frame(distance())), 0);
    assert_eq!(refused(&frame(call("st_knn", vec![]))), 0);
    let mut after = frame(short());
    after.push(0);
    assert_eq!(refused(&after), 7);
}

#[test]
fn limits_of_counts() {
    let wide = |count| other(vec![other(vec![]); count]);
    assert_eq!(refused(&frame(wide(16))), 0);
    assert_eq!(refused(&frame(wide(17))), 4);
    let rows = |count| vec![record(Side::None, 0); count];
    assert_eq!(refused(&frame_of(rows(256), other(vec![]))), 0);
    assert_eq!(refused(&frame_of(rows(257), other(vec![]))), 4);
    assert_eq!(refused(&frame(tree(1_024))), 0);
    assert_eq!(refused(&frame(tree(1_025))), 5);
}

#[test]
fn literal_ranges() {
    let number = |kind, value| refused(&frame(literal(kind, value)));
    assert_eq!(number(types::BOOLEAN, 1), 0);
    assert_eq!(number(types::BOOLEAN, 2), 4);
    assert_eq!(number(types::INT32, i64::from(i32::MIN)), 0);
    assert_eq!(number(types::INT32, i64::from(i32::MAX) + 1), 4);
    assert_eq!(number(types::UINT32, i64::from(u32::MAX)), 0);
    assert_eq!(number(types::UINT32, i64::from(u32::MAX) + 1), 4);
    assert_eq!(number(types::NULL, -1), 0);
}

#[test]
fn logical_columns_only_in_logical_frames() {
    assert_eq!(logical(&[2, 5, 3, 0, 0]), Ok([0, 0, 0, 2]));
    assert_eq!(logical(&[2, 5, 4]), Err(Refusal::Range));
    assert_eq!(logical(&[2, 0, 0, 0, 0, 0]), Err(Refusal::Range));
    assert_eq!(logical(&[1, 5, 3, 0, 0]), Err(Refusal::FirstByte));
}

#[test]
fn a_refused_call_changes_nothing() {
    let frame = frame(call("st_covers", vec![right(), left()]));
    let (mut n, mut buffer, mut scratch) = (0, vec![0xaa; 200], vec![0xbb; 200]);
    let mut table = records();
    let refused = load(&frame, &mut n, &mut buffer[..3], &mut table);
    assert_eq!(refused, Err(Refusal::NoRoom));
    assert_eq!(table, records());
    let loaded = load(&frame, &mut n, &mut buffer, &mut table);
    assert_eq!(loaded, Ok(frame.len()));
    let before = buffer.clone();
    let short = &mut scratch[..frame.len() - 1];
    let refused = extract(&mut n, &mut buffer, short, &table);
    assert_eq!(refused, Err(Refusal::NoRoom));
    assert_eq!(exchange(&mut n, &mut buffer, short), Err(Refusal::NoRoom));
    assert_eq!((n, &buffer), (frame.len(), &before));
    assert_eq!(scratch, vec![0xbb; 200]);
}

#[test]
fn an_accepted_call_keeps_the_other_bytes() {
    let frame = frame(call("st_covers", vec![right(), left()]));
    let (mut n, mut buffer, mut scratch) = (0, vec![0xaa; 200], vec![0xbb; 200]);
    let mut table = records();
    load(&frame, &mut n, &mut buffer, &mut table).unwrap();
    let length = extract(&mut n, &mut buffer, &mut scratch, &table).unwrap();
    assert_eq!(n, length);
    assert_eq!(scratch[..frame.len()], frame);
    assert_eq!(scratch[frame.len()..], [0xbb; 200][frame.len()..]);
    assert_eq!(buffer[length..frame.len()], frame[length..]);
    assert_eq!(buffer[frame.len()..], [0xaa; 200][frame.len()..]);
}

#[test]
fn held_plans() {
    let mut good = [0x11, 0, 0, 0, 4, 0, 0, 0, 4, 0, 0, 0, 0];
    let mut scratch = [0; 20];
    let call = |n: usize, buffer: &mut [u8], scratch: &mut [u8]| {
        extract(&mut { n }, buffer, scratch, &[]).map_or_else(Refusal::number, |_| 0)
    };
    assert_eq!(call(13, &mut good, &mut scratch), 12);
    assert_eq!(call(12, &mut good, &mut scratch), 10);
    assert_eq!(call(14, &mut good, &mut scratch), 10);
    assert_eq!(call(0, &mut good, &mut scratch), 11);
    assert_eq!(call(13, &mut good, &mut []), 12);
    assert_eq!(exchange(&mut 13, &mut good, &mut []), Err(Refusal::NoRoom));
    good[3] = 9;
    assert_eq!(call(13, &mut good, &mut scratch), 10);
}

#[test]
fn lines() {
    let lines = [
        "",
        "2",
        "21",
        "2100",
        "22ff",
        "AB",
        "21\r",
        "00",
        "23",
        "02040000000",
    ];
    let expected = ["01", "0e", "0b", "07", "07", "0e", "0e", "02", "02", "0e"];
    assert_eq!(answers(&lines), expected);
    let digits = |count| answers(&[&"2".repeat(count)]).remove(0);
    assert_eq!(digits(32_768), "07");
    assert_eq!(digits(32_770), "0e");
}

#[test]
fn line_feeds() {
    let output = |input: &str| {
        let mut output = Vec::new();
        run(input.as_bytes(), &mut output).unwrap();
        String::from_utf8(output).unwrap()
    };
    assert_eq!(output(""), "");
    assert_eq!(output("\n"), "01\n");
    assert_eq!(output("21\n"), "0b\n");
    assert_eq!(output("21\n21"), "0b\n0b\n");
}
