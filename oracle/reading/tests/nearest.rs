//! Request 5 of document 02: a k of 0 is no k.

mod common;

use common::{and, answers, call, extract, frame, left, literal, other, right};
use reading::calls::{exchange, merge};
use reading::frame::{Expr, literal as types};
use reading::program::hex;
use reading::refusal::Refusal;

const WHOLE_NUMBERS: [u8; 4] = [types::INT32, types::INT64, types::UINT32, types::UINT64];

fn nearest(mut more: Vec<Expr>) -> Expr {
    let mut args = vec![left(), right()];
    args.append(&mut more);
    call("st_knn", args)
}

/// The line that answers an extract of this filter.
fn extracted(expr: Expr) -> String {
    let load = String::from_utf8(hex(&frame(expr))).unwrap();
    answers(&[&load, "21"]).remove(1)
}

#[test]
fn zero_of_every_type_does_not_match_and_one_does() {
    let flag = || literal(types::BOOLEAN, 1);
    for kind in WHOLE_NUMBERS {
        for flags in 0..3 {
            let with = |k: i64| {
                let mut more = vec![literal(kind, k)];
                more.extend((0..flags).map(|_| flag()));
                extracted(nearest(more))
            };
            assert_eq!(with(0), "0d");
            assert!(with(1).starts_with("0013000000000001"));
        }
    }
    assert_eq!(extracted(nearest(vec![literal(types::INT32, -1)])), "0d");
}

#[test]
fn a_missing_k_is_1() {
    assert!(extracted(nearest(Vec::new())).starts_with("0013000000000001"));
}

#[test]
fn the_call_stays_in_the_remainder() {
    let zero = || {
        let asked = nearest(vec![literal(types::INT64, 0)]);
        and(asked, other(vec![left(), right()]))
    };
    let rest = String::from_utf8(hex(&frame(zero()))).unwrap();
    let touches = call("st_touches", vec![left(), right()]);
    for taken in [touches, nearest(vec![literal(types::INT64, 7)])] {
        assert!(extracted(and(zero(), taken.clone())).ends_with(&rest));
        assert!(extracted(and(taken, zero())).ends_with(&rest));
    }
}

#[test]
fn a_held_k_of_0_is_10_before_all_else() {
    let new = frame(left());
    for (k, fine) in [(0, false), (1, true)] {
        let held = [0x13, 0, 0, 0, 0, 0, k, 0, 0, 2, 4, 0, 0, 0, 4, 0, 0, 0, 0];
        let n = held.len();
        let call = |made: fn(&mut usize, &mut [u8], &mut [u8]) -> Result<usize, Refusal>,
                    room: usize| {
            made(&mut { n }, &mut held.clone(), &mut vec![0; room])
        };
        let bad = |answer| if fine { answer } else { Err(Refusal::BadPlan) };
        assert_eq!(call(exchange, n), bad(Ok(n)));
        assert_eq!(call(exchange, 0), bad(Err(Refusal::NoRoom)));
        let without_table =
            |n: &mut usize, plan: &mut [u8], scratch: &mut [u8]| extract(n, plan, scratch, &[]);
        assert_eq!(call(without_table, n), bad(Err(Refusal::Extracted)));
        let merged = merge(
            &new,
            &mut { n },
            &mut held.clone(),
            &mut vec![0; n],
            &mut [],
        );
        assert_eq!(merged, bad(Err(Refusal::Extracted)));
    }
}
