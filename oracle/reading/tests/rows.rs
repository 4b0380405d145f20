//! Document 01's worked run and its ten rows.

mod common;

use common::{and, answers, call, frame, frame_of, left, literal, other, record, right};
use reading::calls;
use reading::encode;
use reading::frame::{Expr, Side, literal as types, operator};
use reading::program::{hex, run};

const LOAD: &str =
    "010002010003000700000000080200030973745f77697468696e02000000000700000100080000010008";

fn hex_text(bytes: &[u8]) -> String {
    String::from_utf8(hex(bytes)).unwrap()
}

/// The line out of an extract after a load of this frame.
fn extracted(frame: &[u8]) -> String {
    answers(&[&hex_text(frame), "21"]).remove(1)
}

fn knn_with_k(kind: u8, k: i64) -> String {
    extracted(&frame(call(
        "st_knn",
        vec![left(), right(), literal(kind, k)],
    )))
}

#[test]
fn worked_run() {
    let input = format!("{LOAD}\n21\n22\n21");
    let mut output = Vec::new();
    run(input.as_bytes(), &mut output).unwrap();
    let expected = format!(
        "00{LOAD}\n\
         00110000010000000008000003000701000100000000080000000008\n\
         00110000020000030007000000000801000101000000080000000008\n\
         0c\n"
    );
    assert_eq!(String::from_utf8(output).unwrap(), expected);
}

#[test]
fn rows_1_and_2_extract_and_exchange() {
    let lines = answers(&[LOAD, "21", "22"]);
    assert_eq!(
        lines[1],
        "00110000010000000008000003000701000100000000080000000008"
    );
    assert_eq!(
        lines[2],
        "00110000020000030007000000000801000101000000080000000008"
    );
}

#[test]
fn row_3_largest_k() {
    let matched = knn_with_k(types::INT64, 4_294_967_295);
    assert_eq!(matched, "00130000ffffffff0000020000050008000006000700");
    assert_eq!(knn_with_k(types::INT64, 4_294_967_296), "0d");
}

#[test]
fn row_4_smallest_k() {
    assert!(knn_with_k(types::INT32, 1).starts_with("001300000000000100"));
    assert_eq!(knn_with_k(types::INT32, 0), "0d");
}

#[test]
fn row_5_knn_goes_first() {
    let pair = || vec![left(), right()];
    let expr = and(call("st_intersects", pair()), call("st_knn", pair()));
    assert!(extracted(&frame(expr)).starts_with("00130001"));
}

#[test]
fn row_6_a_knn_that_does_not_match_remains() {
    let expr = and(
        call("st_knn", vec![left(), left()]),
        call("st_intersects", vec![left(), right()]),
    );
    let remainder = frame_of(
        vec![record(Side::Left, 5)],
        call("st_knn", vec![left(), left()]),
    );
    let line = extracted(&frame(expr));
    let tail = hex_text(&remainder);
    assert_eq!(line, format!("001100010000000500080000060007{tail}"));
}

#[test]
fn row_7_one_side_is_a_literal() {
    let expr = call("st_intersects", vec![left(), literal(types::OTHER, 1)]);
    assert_eq!(extracted(&frame(expr)), "0d");
}

#[test]
fn row_8_other_operators_on_top() {
    for op in operator::GT_EQ + 1..=operator::LAST {
        let leaf = call("st_intersects", vec![left(), right()]);
        let expr = Expr::binary(op, leaf.clone(), leaf);
        assert_eq!(extracted(&frame(expr)), "0d");
    }
}

#[test]
fn row_9_equal_records_stay() {
    let records = vec![
        record(Side::Left, 4),
        record(Side::Left, 4),
        record(Side::Right, 0),
    ];
    let column = |index| Expr::Column { index, tag: 1 };
    let leaf = call("st_equals", vec![column(0), column(2)]);
    let line = extracted(&frame_of(
        records.clone(),
        and(leaf, other(vec![column(1)])),
    ));
    let remainder = frame_of(records[..2].to_vec(), other(vec![column(1)]));
    assert!(line.ends_with(&hex_text(&remainder)));
}

#[test]
fn row_10_capital_letters() {
    let physical = call("ST_KNN", vec![left(), right()]);
    assert_eq!(extracted(&frame(physical)), "0d");
    let query = Expr::LogicalColumn { bits: 1, tag: 0 };
    let logical = encode::logical(&call("ST_KNN", vec![query]));
    assert_eq!(calls::logical(&logical), Ok([0x08, 0x00, 1, 0]));
}
