//! Request 8 of document 02: a distance with at least one column needs side left or right to match.

mod common;

use common::{and, answers, call, frame_of, literal, other, record};
use reading::calls::{exchange, load, merge, project};
use reading::frame::{Expr, Side, literal as types, operator};
use reading::nodes::Node;
use reading::program::hex;
use reading::project::Lists;

fn column(index: u16) -> Expr {
    Expr::Column { index, tag: 0 }
}

/// A left column, a right one and two mark columns, with child indices 5, 0, 9 and 8.
fn with_marks(expr: Expr) -> Vec<u8> {
    let records = [
        (Side::Left, 5),
        (Side::Right, 0),
        (Side::None, 9),
        (Side::None, 8),
    ];
    let records = records.map(|(side, index)| record(side, index));
    frame_of(records.into(), expr)
}

/// The five ways to write a distance of column 0 and column 1 with this bound.
fn distances(bound: &Expr) -> [Expr; 5] {
    let pair = || vec![column(0), column(1)];
    let compared = |op, call_first: bool| {
        let call = call("st_distance", pair());
        match call_first {
            true => Expr::binary(op, call, bound.clone()),
            false => Expr::binary(op, bound.clone(), call),
        }
    };
    [
        call("st_dwithin", [pair(), vec![bound.clone()]].concat()),
        compared(operator::LT, true),
        compared(operator::LT_EQ, true),
        compared(operator::GT, false),
        compared(operator::GT_EQ, false),
    ]
}

/// The line that answers an extract of this filter.
fn extracted(expr: Expr) -> String {
    let load = String::from_utf8(hex(&with_marks(expr))).unwrap();
    answers(&[&load, "21"]).remove(1)
}

fn both(one: u16, two: u16) -> Expr {
    Expr::binary(operator::LAST, column(one), column(two))
}

#[test]
fn a_bound_of_one_side_or_without_columns_matches() {
    let bounds = [
        (column(0), "00", "0000050000"),
        (both(1, 1), "01", "023f00000000000000000000"),
        (literal(types::INT64, 7), "02", "01030000000000000007"),
        (call("f", vec![]), "02", "03016600"),
        (other(vec![other(vec![])]), "02", "0400000104000000"),
    ];
    for (bound, side, stored) in bounds {
        for (form, expr) in distances(&bound).into_iter().enumerate() {
            let expected = format!("00120000{form:02x}{side}00000500000000000000{stored}00");
            assert_eq!(extracted(expr), expected);
        }
    }
}

#[test]
fn a_bound_with_mark_columns_does_not() {
    let bounds = [
        column(2),
        both(2, 2),
        both(2, 3),
        other(vec![literal(types::INT64, 7), call("f", vec![column(3)])]),
        both(0, 2),
        both(2, 1),
        other(vec![column(2), column(0), column(2)]),
    ];
    for bound in bounds {
        for expr in distances(&bound) {
            assert_eq!(extracted(expr), "0d");
        }
    }
}

/// The 46 bytes of `docs/DIFFERENCES.md`.
#[test]
fn the_smallest_filter() {
    let line = "01000300000500000100000000020009000003\
                0a73745f6477697468696e03000000000000000100000000020000";
    assert_eq!(line.len(), 92);
    assert_eq!(answers(&[line, "21"])[1], "0d");
    let list = include_str!("../../../docs/DIFFERENCES.md").replace(' ', "");
    assert!(list.contains(&format!("`{line}`")));
}

/// It stays, with the records that it references; another leaf is taken.
#[test]
fn it_stays_in_the_remainder() {
    for expr in distances(&both(2, 3)) {
        let rest = with_marks(expr.clone());
        let rest = String::from_utf8(hex(&rest)).unwrap();
        let within = call("st_within", vec![column(0), column(1)]);
        let near = call("st_dwithin", vec![column(0), column(1), column(0)]);
        let nearest = call("st_knn", vec![column(1), column(0)]);
        for (taken, first) in [(within, "11"), (near, "12"), (nearest, "13")] {
            let after = extracted(and(expr.clone(), taken.clone()));
            assert!(after.starts_with(&format!("00{first}0001")) && after.ends_with(&rest));
            let before = extracted(and(taken, expr.clone()));
            assert!(before.starts_with(&format!("00{first}0000")) && before.ends_with(&rest));
        }
    }
}

#[test]
fn merged_or_not() {
    let marked = distances(&column(2))[0].clone();
    let held = with_marks(other(vec![]));
    let new = with_marks(marked);
    let (mut n, mut plan, mut scratch) = (0, vec![0; 200], vec![0; 200]);
    let mut table = [Node::default(); 9];
    load(&held, &mut n, &mut plan, &mut table).unwrap();
    merge(&new, &mut n, &mut plan, &mut scratch, &mut table).unwrap();
    let line = String::from_utf8(hex(&plan[..n])).unwrap();
    assert_eq!(answers(&[&line, "21"])[1], "0d");
}

/// Only matching changes: a held one is good, and exchange and projection copy its bound.
#[test]
fn a_held_distance_of_side_none_may_have_columns() {
    let held = |left: u8, right: u8| {
        let columns = [[0, 0, left, 0, 0], [0, 0, right, 0, 0], [0, 0, 2, 0, 0]];
        [&[0x12, 0, 0, 0, 2], &columns.concat()[..], &[0]].concat()
    };
    let (mut plan, mut scratch) = (held(5, 0), [0; 21]);
    assert_eq!(exchange(&mut 21, &mut plan, &mut scratch), Ok(21));
    assert_eq!(plan, held(0, 5));
    let lists = Lists {
        left: &[7, 0],
        right: &[5],
    };
    assert_eq!(project(&mut 21, &mut plan, &mut scratch, lists), Ok(21));
    assert_eq!(plan, held(1, 0));
}
