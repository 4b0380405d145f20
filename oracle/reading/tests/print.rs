//! Document 02, request 1: the text of every kind of node, and the call print.

mod common;

use common::{and, answers, call, frame, left, literal, other, right};
use reading::calls::print;
use reading::decode::physical;
use reading::frame::{Expr, MAX_BYTES, literal as types, operator};
use reading::print::text;
use reading::program::parse;
use reading::refusal::Refusal;

fn line(expr: &Expr) -> String {
    String::from_utf8(text(expr)).unwrap()
}

fn column(index: u16, tag: u16) -> Expr {
    Expr::Column { index, tag }
}

fn tagged(tag: u16, children: Vec<Expr>) -> Expr {
    Expr::Other { tag, children }
}

/// What print answers with so much room. Refused, it writes nothing.
fn answer(frame: &[u8], room: usize) -> Result<usize, Refusal> {
    let mut buffer = vec![0xaa; room];
    let answer = print(frame, &mut buffer);
    assert!(answer.is_ok() || buffer == vec![0xaa; room]);
    answer
}

#[test]
fn columns() {
    assert_eq!(line(&column(0, 0)), "c0:0");
    assert_eq!(line(&column(3, 17)), "c3:17");
    assert_eq!(line(&column(255, 65_535)), "c255:65535");
}

#[test]
fn numbers_have_no_leading_zero_and_keep_theirs() {
    for tag in [9, 10, 99, 100, 101, 999, 1_000, 1_010, 9_999, 10_000] {
        assert_eq!(line(&tagged(tag, vec![])), format!("x{tag}[]"));
    }
}

#[test]
fn literals() {
    let digits = literal(types::INT64, 0x0123_4567_89ab_cdef);
    assert_eq!(line(&digits), "#3:0123456789abcdef");
    assert_eq!(line(&literal(types::INT32, -22)), "#2:ffffffffffffffea");
    assert_eq!(line(&literal(types::NULL, 0)), "#0:0000000000000000");
}

#[test]
fn binaries() {
    let pair = |op| line(&Expr::binary(op, column(0, 100), column(1, 999)));
    assert_eq!(pair(operator::AND), "(c0:100 o0 c1:999)");
    assert_eq!(pair(operator::GT_EQ), "(c0:100 o4 c1:999)");
    assert_eq!(pair(operator::LAST), "(c0:100 o63 c1:999)");
}

#[test]
fn functions_and_other_nodes() {
    assert_eq!(line(&call("st_distance", vec![])), "f11:st_distance[]");
    assert_eq!(line(&call("f", vec![left()])), "f1:f[c0:8]");
    let nested = tagged(7, vec![other(vec![]), call("g", vec![left(), right()])]);
    assert_eq!(line(&nested), "x7[x0[],f1:g[c0:8,c1:7]]");
}

#[test]
fn names_with_the_marks_of_a_text() {
    let mixed = vec![column(0, 1_000), tagged(9_999, vec![]), literal(0, 0)];
    let expected = "f7:f2:a],[[c0:1000,x9999[],#0:0000000000000000]";
    assert_eq!(line(&call("f2:a],[", mixed)), expected);
    for name in [
        "]", ",", "[", ":", "[]", "],c0:8", "1:f[", "(", "o0", "c0:8]",
    ] {
        let length = name.len();
        let expected = format!("f{length}:{name}[c0:8]");
        assert_eq!(line(&call(name, vec![left()])), expected);
    }
}

#[test]
fn the_worked_run() {
    let run = include_str!("../../../examples/worked-run.txt");
    let expected = include_str!("../../../examples/worked-run-text.txt").trim_end();
    let frame = parse(run.lines().next().unwrap().as_bytes()).unwrap();
    let mut buffer = vec![0; MAX_BYTES];
    let length = print(&frame, &mut buffer).unwrap();
    assert_eq!(buffer[..length], *expected.as_bytes());
    assert_eq!(expected, "(f9:st_within[c0:7,c1:8] o0 c1:8)");
}

#[test]
fn the_bytes_after_the_text_stay() {
    let mut buffer = *b"abcdefg";
    assert_eq!(print(&frame(tagged(12, vec![])), &mut buffer), Ok(5));
    assert_eq!(&buffer, b"x12[]fg");
}

#[test]
fn room() {
    let good = frame(tagged(12, vec![]));
    assert_eq!(answer(&good, 6), Ok(5));
    assert_eq!(answer(&good, 5), Ok(5));
    for short in 0..5 {
        assert_eq!(answer(&good, short), Err(Refusal::TextRoom));
    }
    assert_eq!(Refusal::TextRoom.number(), 15);
}

#[test]
fn every_other_refusal_comes_first() {
    let cut = |bytes: &[u8]| answer(bytes, 0).map_err(Refusal::number);
    let good = frame(and(left(), right()));
    assert_eq!(cut(&[]), Err(1));
    assert_eq!(cut(&[2]), Err(2));
    assert_eq!(cut(&good[..good.len() - 1]), Err(3));
    assert_eq!(cut(&[1, 0, 0, 5]), Err(4));
    let deep = (0..64).fold(left(), |inner, _| other(vec![inner]));
    assert_eq!(cut(&frame(deep)), Err(5));
    assert_eq!(cut(&frame(column(2, 0))), Err(6));
    assert_eq!(cut(&[&good[..], &[0]].concat()), Err(7));
    assert_eq!(cut(&frame(call("st_within", vec![]))), Err(8));
    assert_eq!(cut(&good), Err(15));
}

#[test]
fn no_line_of_the_program_prints() {
    for first in (0..=255).filter(|first| ![0x01, 0x02, 0x21, 0x22].contains(first)) {
        assert_eq!(answers(&[&format!("{first:02x}")]), ["02"]);
    }
}

#[test]
fn frames_md_shows_the_texts() {
    let page = include_str!("../../../docs/FRAMES.md");
    let worked = call("st_within", vec![column(0, 7), column(1, 8)]);
    let shown = [
        column(3, 17),
        literal(types::INT32, -22),
        and(column(0, 10), column(1, 99)),
        worked.clone(),
        tagged(12, vec![]),
    ];
    for expr in &shown {
        let cell = format!(" | `{}` | ", line(expr));
        assert!(page.contains(&cell), "{cell}");
    }
    let filter = format!("`{}`", line(&and(worked, column(1, 8))));
    assert!(page.contains(&filter), "{filter}");
}

/// The table stands in the order of the lines; `examples/check` holds its filters to them.
#[test]
fn the_price_list_shows_the_texts() {
    let list = include_str!("../../../docs/PRICE-LIST.md");
    let (_, section) = list.split_once("\n## On the console\n").unwrap();
    let rows = section.lines().filter(|line| line.starts_with("| `"));
    let lines = include_str!("../../../examples/price-lines.txt").lines();
    let frames: Vec<&str> = lines.filter(|line| line.starts_with("01")).collect();
    let rows: Vec<&str> = rows.take(frames.len()).collect();
    for (frame, row) in frames.iter().zip(&rows) {
        let frame = physical(&parse(frame.as_bytes()).unwrap()).unwrap();
        let cell = format!("| `{}` |", line(&frame.expr));
        assert!(row.ends_with(&cell), "{cell}");
    }
    assert_eq!(rows.len(), frames.len());
}
