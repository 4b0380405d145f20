//! Request 4 of document 02: the position of the leaf that was taken.

mod common;

use common::{and, answers, call, frame, frame_of, left, literal, other, record, right};
use reading::calls::exchange;
use reading::frame::{Expr, Side, literal as types, operator};
use reading::program::{hex, parse};

/// The plan after the frame is loaded and the calls of these lines are made, all accepted.
fn plan_after(frame: &[u8], calls: &[&str]) -> Vec<u8> {
    let load = String::from_utf8(hex(frame)).unwrap();
    let lines = [&[&load[..]], calls].concat();
    let last = answers(&lines).pop().unwrap();
    parse(last.strip_prefix("00").unwrap().as_bytes()).unwrap()
}

/// So many leaves that do not match.
fn unmatched(count: usize) -> Expr {
    match count {
        1 => literal(types::BOOLEAN, 1),
        _ => and(unmatched(count / 2), unmatched(count - count / 2)),
    }
}

fn matching(name: &str) -> Expr {
    call(name, vec![left(), right()])
}

#[test]
fn counted_from_0_and_kept_by_every_exchange() {
    let filter = and(matching("st_touches"), matching("st_knn"));
    let filter = frame(and(other(vec![]), and(filter, matching("st_knn"))));
    let lists: [&[&str]; 5] = [
        &["21"],
        &["22", "21"],
        &["21", "22"],
        &["21", "22", "22"],
        &["22", "22", "21", "22"],
    ];
    for list in lists {
        assert_eq!(plan_after(&filter, list)[..3], [0x13, 0, 2]);
    }
}

#[test]
fn the_high_byte_comes_first() {
    for count in [255, 256, 257, 510] {
        let taken = matching("st_within");
        let position = (count as u16).to_be_bytes();
        let after = plan_after(&frame(and(unmatched(count), taken.clone())), &["21"]);
        assert_eq!(after[1..3], position);
        let before = plan_after(&frame(and(taken, unmatched(count))), &["21"]);
        assert_eq!(before[1..3], [0, 0]);
    }
}

#[test]
fn any_held_position_is_good_and_kept() {
    for position in [0, 1, 255, 256, 1_023, 1_024, 65_535u16] {
        let [high, low] = position.to_be_bytes();
        let mut plan = [0x11, high, low, 1, 4, 0, 0, 0, 4, 0, 1, 0, 0];
        let mut scratch = [0; 13];
        assert_eq!(exchange(&mut 13, &mut plan, &mut scratch), Ok(13));
        assert_eq!(plan, [0x11, high, low, 2, 4, 0, 1, 0, 4, 0, 0, 0, 0]);
    }
}

#[test]
fn a_knn_of_two_arguments_beside_another_leaf_has_a_byte_to_spare() {
    let rest = Expr::binary(operator::LAST, left(), right());
    let records = vec![record(Side::Left, 5), record(Side::Right, 6)];
    let filter = frame_of(records, and(matching("st_knn"), rest));
    assert_eq!(plan_after(&filter, &["21"]).len() + 1, filter.len());
}
