//! Frames in few words. Each test takes of them what it needs.
#![allow(dead_code)]

use reading::frame::{Expr, Frame, Record, Side, operator};
use reading::nodes::Node;
use reading::program::Program;
use reading::refusal::Refusal;
use reading::settings::Settings;
use reading::{calls, encode};

/// Column 0 is of the left child, column 1 of the right.
pub fn left() -> Expr {
    Expr::Column { index: 0, tag: 8 }
}

pub fn right() -> Expr {
    Expr::Column { index: 1, tag: 7 }
}

pub fn literal(kind: u8, value: i64) -> Expr {
    Expr::Literal {
        kind,
        bytes: value.to_be_bytes(),
    }
}

pub fn call(name: &str, args: Vec<Expr>) -> Expr {
    Expr::Function {
        name: name.into(),
        args,
    }
}

pub fn other(children: Vec<Expr>) -> Expr {
    Expr::Other { tag: 0, children }
}

pub fn and(left: Expr, right: Expr) -> Expr {
    Expr::binary(operator::AND, left, right)
}

pub fn record(side: Side, index: u16) -> Record {
    Record {
        side,
        index,
        tag: 9,
    }
}

/// A frame of one left and one right record.
pub fn frame(expr: Expr) -> Vec<u8> {
    frame_of(vec![record(Side::Left, 5), record(Side::Right, 6)], expr)
}

pub fn frame_of(records: Vec<Record>, expr: Expr) -> Vec<u8> {
    encode::physical(&Frame { records, expr })
}

/// The call extract under the program's settings.
pub fn extract(
    n: &mut usize,
    buffer: &mut [u8],
    scratch: &mut [u8],
    table: &[Node],
) -> Result<usize, Refusal> {
    calls::extract(n, buffer, scratch, table, Settings::OF_THE_PROGRAM)
}

/// What the program writes for these lines.
pub fn answers(lines: &[&str]) -> Vec<String> {
    let mut program = Program::default();
    let answer = |line: &&str| String::from_utf8(program.answer(line.as_bytes())).unwrap();
    lines.iter().map(answer).collect()
}
