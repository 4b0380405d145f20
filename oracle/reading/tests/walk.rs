//! Request 10 of document 02: how many And nodes and AND-leaves an extract reads.

mod common;

use common::{and, call, extract, frame, frame_of, left, literal, other, record, right};
use reading::calls::{exchange, walk};
use reading::decode;
use reading::frame::{Expr, Frame, Side, literal as types, operator};
use reading::nodes::{Node, table};
use reading::refusal::Refusal;
use reading::settings::Settings;
use reading::walk::length;

fn matching(name: &str) -> Expr {
    call(name, vec![left(), right()])
}

fn knn() -> Expr {
    matching("st_knn")
}

fn within() -> Expr {
    matching("st_within")
}

fn plain() -> Expr {
    other(vec![left()])
}

fn walk_of(expr: Expr) -> usize {
    length(
        &decode::physical(&frame(expr)).unwrap(),
        Settings::OF_THE_PROGRAM,
    )
}

/// What an extract of this frame answers, with its own table and this much scratch, and its walk.
fn extracted(frame: &[u8], scratch: usize) -> (Result<usize, Refusal>, usize) {
    let table = decode::physical(frame).map_or(Vec::new(), |frame| table(&frame));
    answered(frame, frame.len(), scratch, &table)
}

fn answered(
    plan: &[u8],
    n: usize,
    scratch: usize,
    table: &[Node],
) -> (Result<usize, Refusal>, usize) {
    let (mut plan, mut scratch) = (plan.to_vec(), vec![0; scratch]);
    let walk = walk(n, &plan, &scratch, table, Settings::OF_THE_PROGRAM);
    (extract(&mut { n }, &mut plan, &mut scratch, table), walk)
}

#[test]
fn all_where_no_knn_matches() {
    assert_eq!(walk_of(within()), 1);
    assert_eq!(walk_of(plain()), 1);
    assert_eq!(walk_of(and(within(), right())), 3);
    assert_eq!(walk_of(and(and(within(), plain()), within())), 5);
    assert_eq!(walk_of(and(within(), and(plain(), within()))), 5);
}

#[test]
fn up_to_and_with_the_first_knn_match() {
    assert_eq!(walk_of(knn()), 1);
    assert_eq!(walk_of(and(knn(), within())), 2);
    assert_eq!(walk_of(and(within(), knn())), 3);
    assert_eq!(walk_of(and(and(knn(), plain()), within())), 3);
    assert_eq!(walk_of(and(and(within(), knn()), knn())), 4);
    assert_eq!(walk_of(and(within(), and(knn(), knn()))), 4);
    assert_eq!(walk_of(and(plain(), and(within(), knn()))), 5);
}

#[test]
fn a_knn_that_does_not_match_stops_nothing() {
    let zero = literal(types::INT64, 0);
    let none = call("st_knn", vec![left(), right(), zero]);
    let one_sided = call("st_knn", vec![left(), left()]);
    for unmatched in [none, one_sided, matching("ST_KNN")] {
        assert_eq!(walk_of(and(unmatched.clone(), within())), 3);
        assert_eq!(walk_of(and(unmatched, and(knn(), plain()))), 4);
    }
}

#[test]
fn nothing_below_another_node_is_read() {
    let or = |left, right| Expr::binary(operator::LAST, left, right);
    assert_eq!(walk_of(or(knn(), and(knn(), within()))), 1);
    let filter = and(
        or(and(knn(), plain()), knn()),
        call("f", vec![and(knn(), knn())]),
    );
    assert_eq!(walk_of(filter), 3);
}

/// Every filter of so many leaves, of these three.
fn filters(leaves: usize) -> Vec<Expr> {
    if leaves == 1 {
        return vec![plain(), within(), knn()];
    }
    let mut all = Vec::new();
    for on_left in 1..leaves {
        for left in filters(on_left) {
            for right in filters(leaves - on_left) {
                all.push(and(left.clone(), right));
            }
        }
    }
    all
}

/// The And nodes that start before the KNN leaf in the frame, or all; and the leaves up to it, or all.
fn counted_by_places(frame: &Frame) -> usize {
    let leaves = frame.expr.and_leaves();
    let stop = leaves.iter().position(|leaf| **leaf == knn());
    let read = stop.map_or(leaves.len(), |index| index + 1);
    let ands = table(frame).into_iter().filter(|node| node.kind == 2);
    let functions = table(frame)
        .into_iter()
        .filter(|node| node.kind != 0 && node.kind != 2);
    let starts: Vec<u16> = functions.map(|node| node.start).collect();
    let last = stop.map_or(u16::MAX, |index| starts[index]);
    ands.filter(|and| and.start < last).count() + read
}

#[test]
fn at_most_twice_the_leaves_less_one_and_exchanged_the_same() {
    for leaves in 1..=4 {
        for expr in filters(leaves) {
            let bytes = frame(expr);
            let good = decode::physical(&bytes).unwrap();
            let walk = length(&good, Settings::OF_THE_PROGRAM);
            assert!((1..2 * leaves).contains(&walk));
            assert_eq!(walk, counted_by_places(&good));
            let (mut exchanged, mut n) = (bytes.clone(), bytes.len());
            exchange(&mut n, &mut exchanged, &mut vec![0; bytes.len()]).unwrap();
            assert_eq!(extracted(&exchanged, n).1, walk);
            let (answer, carried) = extracted(&bytes, n);
            assert_eq!(carried, walk);
            assert!(answer.is_ok() || answer == Err(Refusal::NoMatch) && walk == 2 * leaves - 1);
        }
    }
}

#[test]
fn refusals_but_13_carry_0() {
    let bytes = frame(and(within(), plain()));
    let n = bytes.len();
    assert_eq!(extracted(&bytes, n).1, 3);
    assert_eq!(extracted(&bytes, n - 1), (Err(Refusal::NoRoom), 0));
    assert_eq!(answered(&bytes, n, n, &[]), (Err(Refusal::BadPlan), 0));
    assert_eq!(extracted(&bytes[..n - 1], n), (Err(Refusal::BadPlan), 0));
    assert_eq!(answered(&bytes, n + 1, n, &[]), (Err(Refusal::BadPlan), 0));
    assert_eq!(answered(&bytes, 0, n, &[]), (Err(Refusal::EmptyPlan), 0));
    let extraction = [0x11, 0, 0, 1, 4, 0, 0, 0, 4, 0, 1, 0, 0];
    let again = answered(&extraction, 13, 13, &[]);
    assert_eq!(again, (Err(Refusal::Extracted), 0));
    let unmatched = frame(and(plain(), and(plain(), plain())));
    let refused = extracted(&unmatched, unmatched.len());
    assert_eq!(refused, (Err(Refusal::NoMatch), 5));
}

#[test]
fn as_many_nodes_as_there_may_be() {
    let leaf = || other(vec![]);
    let deep = (0..63).fold(leaf(), |expr, _| and(leaf(), expr));
    let records = vec![record(Side::Left, 0), record(Side::Right, 0)];
    let frame = frame_of(records, deep);
    assert_eq!(extracted(&frame, frame.len()), (Err(Refusal::NoMatch), 127));
    fn wide(leaves: usize) -> Expr {
        match leaves {
            1 => other(vec![]),
            _ => and(wide(leaves / 2), wide(leaves - leaves / 2)),
        }
    }
    assert_eq!(walk_of(wide(512)), 1_023);
}
