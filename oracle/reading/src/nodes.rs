//! Document 02, requests 6 and 11: the table of a frame's nodes, start and end of 16 bits each.

use crate::encode;
use crate::frame::{Expr, Frame};

/// A node: its kind byte, where it starts in the frame, and where it ends, one past the whole node.
#[derive(Clone, Copy, Debug, Default, PartialEq, Eq)]
pub struct Node {
    pub kind: u8,
    pub start: u16,
    pub end: u16,
}

/// One node after the other in the order in which they are written.
pub fn table(frame: &Frame) -> Vec<Node> {
    let mut nodes = Vec::new();
    put_nodes(
        &frame.expr,
        &encode::physical(frame),
        3 + 5 * frame.records.len(),
        &mut nodes,
    );
    nodes
}

/// Where the expression that starts there ends.
fn put_nodes(expr: &Expr, bytes: &[u8], start: usize, nodes: &mut Vec<Node>) -> usize {
    let index = nodes.len();
    nodes.push(Node::default());
    let children = expr.children();
    let mut end = start + own_bytes(expr);
    for child in children {
        end = put_nodes(child, bytes, end, nodes);
    }
    nodes[index] = Node {
        kind: bytes[start],
        start: position(start),
        end: position(end),
    };
    end
}

/// A frame has at most 16,384 bytes, so no position is lost.
fn position(at: usize) -> u16 {
    u16::try_from(at).expect("a frame has at most 16,384 bytes")
}

/// How many bytes a node has before its children.
fn own_bytes(expr: &Expr) -> usize {
    match expr {
        Expr::Column { .. } => 5,
        Expr::Literal { .. } => 10,
        Expr::Binary { .. } => 2,
        Expr::Function { name, .. } => 3 + name.len(),
        Expr::Other { .. } | Expr::LogicalColumn { .. } => 4,
    }
}

/// Puts a frame's nodes at the table's start; `None`, and nothing is put, where it is too short.
pub fn fill(table: &mut [Node], nodes: &[Node]) -> Option<()> {
    table.get_mut(..nodes.len())?.copy_from_slice(nodes);
    Some(())
}
