//! Document 02, request 2: a second filter joined to the held one.

use crate::encode;
use crate::frame::{Expr, Frame, MAX_BYTES, MAX_DEPTH, MAX_NODES, MAX_RECORDS, operator};
use crate::physical::renumber;

/// The And of both filters over the records of both, the held ones first.
pub fn merged(held: &Frame, new: &Frame) -> Frame {
    let raise = held.records.len() as u16;
    let raised = renumber(&new.expr, &|index| index + raise);
    Frame {
        records: [&held.records[..], &new.records].concat(),
        expr: Expr::binary(operator::AND, held.expr.clone(), raised),
    }
}

/// Refusal 16's condition, the other way round.
pub fn within_limits(frame: &Frame) -> bool {
    frame.records.len() <= MAX_RECORDS
        && nodes(&frame.expr) <= MAX_NODES
        && depth(&frame.expr) <= MAX_DEPTH
        && encode::physical(frame).len() <= MAX_BYTES
}

fn nodes(expr: &Expr) -> usize {
    1 + expr.children().into_iter().map(nodes).sum::<usize>()
}

fn depth(expr: &Expr) -> usize {
    1 + expr.children().into_iter().map(depth).max().unwrap_or(0)
}
