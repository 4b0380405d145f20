//! Document 02, request 10: how many And nodes and AND-leaves an extract reads.

use crate::frame::{Expr, Frame, operator};
use crate::physical::allowed_knn;
use crate::settings::Settings;

/// All reached from the root through And nodes only, in prefix order, up to and including the first
/// KNN match, or all if there is none. Request 13: a match under the settings.
pub fn length(frame: &Frame, settings: Settings) -> usize {
    let mut nodes = Vec::new();
    put_reached(&frame.expr, &mut nodes);
    let is_match = |node: &&Expr| allowed_knn(node, &frame.records, settings).is_some();
    match nodes.iter().position(is_match) {
        Some(index) => index + 1,
        None => nodes.len(),
    }
}

/// An And before its children, the left one before the right one.
fn put_reached<'a>(expr: &'a Expr, nodes: &mut Vec<&'a Expr>) {
    nodes.push(expr);
    if let Expr::Binary { op, left, right } = expr
        && *op == operator::AND
    {
        put_reached(left, nodes);
        put_reached(right, nodes);
    }
}
