//! Document 02, request 2: merged frames, the refusals in their order, both sides of every limit.

mod common;

use common::{and, answers, call, extract, frame, frame_of, left, literal, other, record, right};
use reading::calls::{exchange, load, merge, print};
use reading::decode::physical;
use reading::frame::{Expr, MAX_NODES, Record, Side, literal as types, operator};
use reading::nodes::{self, Node};
use reading::program::{hex, parse};
use reading::refusal::Refusal;

/// A host's buffers, with bytes after the plan, and its table.
struct Host {
    n: usize,
    plan: Vec<u8>,
    scratch: Vec<u8>,
    table: Vec<Node>,
}

impl Host {
    fn holding(bytes: &[u8]) -> Self {
        let mut plan = bytes.to_vec();
        plan.resize(40_000, 0xaa);
        Host {
            n: bytes.len(),
            plan,
            scratch: vec![0xbb; 40_000],
            table: filled(bytes),
        }
    }

    /// Refused, it writes nothing; accepted, it leaves the old plan, fills the table, and keeps every
    /// other byte and record.
    fn merge(&mut self, frame: &[u8]) -> Result<usize, u8> {
        let (n, plan, scratch, table) = self.state();
        let answer = merge(
            frame,
            &mut self.n,
            &mut self.plan,
            &mut self.scratch,
            &mut self.table,
        );
        match answer {
            Ok(length) => {
                assert_eq!(length, self.n);
                assert!(self.scratch[..n] == plan[..n] && self.scratch[n..] == scratch[n..]);
                assert!(self.plan[length..] == plan[length..]);
                let merged = nodes::table(&physical(self.plan()).unwrap());
                assert_eq!(self.table[..merged.len()], merged);
                assert_eq!(self.table[merged.len()..], table[merged.len()..]);
            }
            Err(_) => assert!((n, plan, scratch, table) == self.state()),
        }
        answer.map_err(Refusal::number)
    }

    fn state(&self) -> (usize, Vec<u8>, Vec<u8>, Vec<Node>) {
        let Host {
            n,
            plan,
            scratch,
            table,
        } = self;
        (*n, plan.clone(), scratch.clone(), table.clone())
    }

    fn plan(&self) -> &[u8] {
        &self.plan[..self.n]
    }

    fn extract(&mut self) -> Result<usize, Refusal> {
        extract(&mut self.n, &mut self.plan, &mut self.scratch, &self.table)
    }

    fn exchange(&mut self) -> Result<usize, Refusal> {
        exchange(&mut self.n, &mut self.plan, &mut self.scratch)
    }
}

/// A table of the frame's nodes and others after them.
fn filled(frame: &[u8]) -> Vec<Node> {
    let mut table = physical(frame).map_or(Vec::new(), |frame| nodes::table(&frame));
    let other = Node {
        kind: 9,
        start: 8,
        end: 7,
    };
    table.resize(MAX_NODES, other);
    table
}

/// The plan after a merge that is accepted.
fn merged(held: &[u8], new: &[u8]) -> Vec<u8> {
    let mut host = Host::holding(held);
    assert_eq!(host.merge(new), Ok(held.len() + new.len() - 1));
    host.plan().to_vec()
}

/// The refusal's number, 0 if it is accepted; then the merged frame is one that load accepts.
fn refused(held: &[u8], new: &[u8]) -> u8 {
    let mut host = Host::holding(held);
    let answer = host.merge(new);
    assert!(answer.is_err() || physical(host.plan()).is_ok());
    answer.err().unwrap_or(0)
}

fn column(index: u16, tag: u16) -> Expr {
    Expr::Column { index, tag }
}

fn rows(count: usize) -> Vec<Record> {
    vec![record(Side::None, 0); count]
}

fn alone(expr: Expr) -> Vec<u8> {
    frame_of(Vec::new(), expr)
}

fn chain(depth: usize) -> Expr {
    (1..depth).fold(other(vec![]), |inner, _| other(vec![inner]))
}

/// A tree of so many nodes, as low as can be.
fn tree(nodes: usize) -> Expr {
    match nodes {
        1 => other(vec![]),
        2 => other(vec![other(vec![])]),
        _ => Expr::binary(operator::LAST, tree((nodes - 1) / 2), tree(nodes / 2)),
    }
}

/// An expression of so many bytes, at least 4, as low as can be.
fn wide(bytes: usize) -> Expr {
    if bytes <= 35 {
        return call(&"x".repeat(bytes - 3), vec![]);
    }
    let left = (bytes - 2) / 2;
    Expr::binary(operator::LAST, wide(left), wide(bytes - 2 - left))
}

fn frame_of_bytes(bytes: usize) -> Vec<u8> {
    let frame = alone(wide(bytes - 3));
    assert_eq!(frame.len(), bytes);
    frame
}

#[test]
fn the_held_one_is_on_the_left_and_the_new_columns_are_raised() {
    let table = [(Side::Right, 1), (Side::None, 2), (Side::Left, 3)];
    let records: Vec<Record> = table.map(|(side, index)| record(side, index)).into();
    let filter = |raise: u16| {
        let pair = Expr::binary(operator::LT, column(raise, 60_000), column(raise + 1, 0));
        let number = literal(types::INT64, 0);
        call("f", vec![column(raise + 2, 1), other(vec![pair]), number])
    };
    let held = frame(and(left(), right()));
    let both = [record(Side::Left, 5), record(Side::Right, 6)].into();
    let all = [both, records.clone()].concat();
    let expected = frame_of(all, and(and(left(), right()), filter(2)));
    assert_eq!(merged(&held, &frame_of(records, filter(0))), expected);
}

#[test]
fn a_filter_without_records_raises_nothing() {
    let (small, policy) = (alone(other(vec![])), frame(right()));
    assert_eq!(merged(&small, &policy), frame(and(other(vec![]), right())));
    let last = merged(&policy, &small);
    assert_eq!(last, frame(and(right(), other(vec![]))));
}

#[test]
fn equal_records_are_kept() {
    let again = merged(&frame(left()), &frame(left()));
    let table = [Side::Left, Side::Right, Side::Left, Side::Right];
    let records = table.map(|side| record(side, if side == Side::Left { 5 } else { 6 }));
    let expected = frame_of(records.into(), and(left(), column(2, 8)));
    assert_eq!(again, expected);
}

#[test]
fn limit_of_records() {
    let number = |held, new| {
        let table = |count| frame_of(rows(count), other(vec![]));
        refused(&table(held), &table(new))
    };
    for (held, new) in [(255, 0), (0, 255), (128, 127), (256, 0), (0, 256), (1, 255)] {
        assert_eq!(number(held, new), 0, "{held} and {new}");
    }
    for (held, new) in [(256, 1), (1, 256), (128, 129), (256, 256)] {
        assert_eq!(number(held, new), 16, "{held} and {new}");
    }
    let last = |index| frame_of(rows(128), column(index, 0));
    assert!(merged(&last(127), &last(127)).ends_with(&[0, 0, 127, 0, 0, 0, 0, 255, 0, 0]));
}

#[test]
fn limit_of_nodes() {
    let number = |held, new| refused(&alone(tree(held)), &alone(tree(new)));
    for (held, new) in [(1, 1_021), (511, 511), (1, 1_022), (1_022, 1), (511, 512)] {
        assert_eq!(number(held, new), 0, "{held} and {new}");
    }
    for (held, new) in [(1, 1_023), (1_023, 1), (512, 512), (1_024, 1_024)] {
        assert_eq!(number(held, new), 16, "{held} and {new}");
    }
}

#[test]
fn limit_of_depth() {
    let number = |held, new| refused(&alone(chain(held)), &alone(chain(new)));
    for (held, new) in [(62, 1), (63, 1), (1, 63), (63, 63)] {
        assert_eq!(number(held, new), 0, "{held} and {new}");
    }
    for (held, new) in [(64, 1), (1, 64), (64, 64)] {
        assert_eq!(number(held, new), 16, "{held} and {new}");
    }
}

#[test]
fn limit_of_bytes() {
    let number = |held, new| refused(&frame_of_bytes(held), &frame_of_bytes(new));
    for (held, new) in [(8_192, 8_192), (8_192, 8_193), (8_385, 8_000)] {
        assert_eq!(number(held, new), 0, "{held} and {new}");
    }
    for (held, new) in [(8_193, 8_193), (8_386, 8_000), (8_000, 8_386)] {
        assert_eq!(number(held, new), 16, "{held} and {new}");
    }
}

#[test]
fn room() {
    let (held, new) = (frame(left()), frame(right()));
    let length = held.len() + new.len() - 1;
    for (scratch, buffer, number) in [
        (held.len(), length, 0),
        (held.len() - 1, length, 9),
        (0, length, 9),
        (held.len(), length - 1, 9),
        (held.len(), held.len(), 9),
        (held.len() - 1, length - 1, 9),
        (held.len(), held.len() - 1, 10),
    ] {
        let mut host = Host::holding(&held);
        host.scratch.truncate(scratch);
        host.plan.truncate(buffer);
        assert_eq!(host.merge(&new).err().unwrap_or(0), number);
    }
}

/// Frames with the refusals 1 to 8.
fn bad_frames() -> [Vec<u8>; 8] {
    let good = frame(and(left(), right()));
    [
        Vec::new(),
        vec![2],
        good[..good.len() - 1].to_vec(),
        vec![1, 0, 0, 5],
        alone(chain(65)),
        frame(column(2, 0)),
        [&good[..], &[0]].concat(),
        frame(call("st_within", vec![])),
    ]
}

/// The new frame's refusals come first, whatever is held and however little room there is.
#[test]
fn the_new_frame_comes_first() {
    let extraction = [0x11, 0, 0, 0, 4, 0, 0, 0, 4, 0, 0, 0, 0];
    let full = frame_of(rows(256), other(vec![]));
    for held in [&[][..], &[1], &extraction, &full] {
        for (number, new) in (1..).zip(bad_frames()) {
            let mut host = Host::holding(held);
            host.scratch.clear();
            assert_eq!(host.merge(&new), Err(number));
            host.plan.clear();
            assert_eq!(host.merge(&new), Err(number));
        }
    }
}

/// Each of these states has the faults of all that come after it.
#[test]
fn the_plan_then_16_then_9() {
    let new = frame_of(rows(256), other(vec![]));
    let answer = |held: &[u8], n: usize, room: usize| {
        let mut host = Host::holding(held);
        host.n = n;
        host.scratch.clear();
        host.plan.truncate(room);
        host.merge(&new).map_or_else(|number| number, |_| 0)
    };
    let held = frame(left());
    let extraction = [0x11, 0, 0, 0, 4, 0, 0, 0, 4, 0, 0, 0, 0];
    assert_eq!(answer(&held, held.len(), held.len() - 1), 10);
    assert_eq!(answer(&held, usize::MAX, held.len()), 10);
    assert_eq!(answer(&held, held.len() - 1, held.len()), 10);
    assert_eq!(answer(&extraction[..12], 12, 12), 10);
    assert_eq!(answer(&held, 0, held.len()), 11);
    assert_eq!(answer(&[], 0, 0), 11);
    assert_eq!(answer(&extraction, 13, 13), 12);
    assert_eq!(answer(&held, held.len(), held.len()), 16);
    let small = alone(other(vec![]));
    assert_eq!(answer(&small, small.len(), small.len()), 9);
    assert_eq!(Refusal::MergedLimit.number(), 16);
}

/// 17 comes after 9 and on a table that lacks one node.
#[test]
fn room_in_the_table() {
    let (held, new) = (alone(tree(5)), alone(tree(7)));
    let answer = |scratch, records| {
        let mut host = Host::holding(&held);
        host.scratch.truncate(scratch);
        host.table.truncate(records);
        host.merge(&new).err().unwrap_or(0)
    };
    assert_eq!(answer(held.len(), 13), 0);
    assert_eq!(answer(held.len(), 12), 17);
    assert_eq!(answer(held.len(), 0), 17);
    assert_eq!(answer(held.len() - 1, 0), 9);
}

#[test]
fn into_an_exchanged_frame() {
    let held = frame(left());
    let mut host = Host::holding(&held);
    host.exchange().unwrap();
    host.merge(&held).unwrap();
    let table = [
        (Side::Right, 5),
        (Side::Left, 6),
        (Side::Left, 5),
        (Side::Right, 6),
    ];
    let records = table.map(|(side, index)| record(side, index));
    let expected = frame_of(records.into(), and(left(), column(2, 8)));
    assert_eq!(host.plan(), expected);
}

#[test]
fn not_into_an_extraction() {
    let held = frame(call("st_within", vec![left(), right()]));
    let mut host = Host::holding(&held);
    host.extract().unwrap();
    assert_eq!(host.merge(&held), Err(12));
    host.exchange().unwrap();
    assert_eq!(host.merge(&held), Err(12));
}

/// Calls go on from the merged frame as from one that was loaded.
#[test]
fn a_merged_frame_is_held_like_a_loaded_one() {
    let relation = frame(call("st_within", vec![left(), right()]));
    let k = literal(types::INT32, 3);
    let policy = frame(call("st_knn", vec![left(), right(), k]));
    let mut host = Host::holding(&relation);
    let length = host.merge(&policy).unwrap();
    let mut loaded = Host::holding(&[]);
    let frame = host.plan().to_vec();
    let Host { n, plan, table, .. } = &mut loaded;
    assert_eq!(load(&frame, n, plan, table), Ok(length));
    assert_eq!(host.extract(), loaded.extract());
    assert_eq!(host.plan(), loaded.plan());
    assert_eq!(host.plan()[0], 0x13);
    let line = String::from_utf8(hex(&frame)).unwrap();
    let shown = String::from_utf8(hex(host.plan())).unwrap();
    assert_eq!(answers(&[&line, "21"])[1], format!("00{shown}"));
}

/// Three filters: the And of the first two is on the left.
#[test]
fn merged_twice() {
    let filter = |name| alone(call(name, vec![]));
    let two = merged(&filter("a"), &filter("b"));
    let named = |name| call(name, vec![]);
    let expected = and(and(named("a"), named("b")), named("c"));
    assert_eq!(merged(&two, &filter("c")), alone(expected));
}

#[test]
fn the_worked_run_with_a_row_policy() {
    let line = |text: &str| parse(text.lines().next().unwrap().as_bytes()).unwrap();
    let held = line(include_str!("../../../examples/worked-run.txt"));
    let policy = line(include_str!("../../../examples/row-policy.txt"));
    let expected = include_str!("../../../examples/row-policy-answers.txt");
    let mut host = Host::holding(&held);
    let shown = |host: &Host| format!("00{}", String::from_utf8(hex(host.plan())).unwrap());
    let mut lines = vec![shown(&host)];
    host.merge(&policy).unwrap();
    lines.push(shown(&host));
    let mut text = vec![0; 100];
    let length = print(host.plan(), &mut text).unwrap();
    lines.push(String::from_utf8(text[..length].to_vec()).unwrap());
    host.extract().unwrap();
    lines.push(shown(&host));
    assert_eq!(lines, expected.lines().collect::<Vec<_>>());
}
