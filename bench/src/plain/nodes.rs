//! Over the nodes of expressions that were checked, in their order.

use reading::frame::MAX_DEPTH;
use spatialjoin::Node;

pub const COLUMN: u8 = 0;
pub const LITERAL: u8 = 1;
pub const BINARY: u8 = 2;
pub const FUNCTION: u8 = 3;

pub fn two(bytes: &[u8], at: usize) -> u16 {
    u16::from_be_bytes([bytes[at], bytes[at + 1]])
}

/// A node's length without its children.
fn size(nodes: &[u8], at: usize) -> usize {
    match nodes[at] {
        COLUMN => 5,
        LITERAL => 10,
        BINARY => 2,
        FUNCTION => 3 + usize::from(nodes[at + 1]),
        _ => 4,
    }
}

/// Where the expression that starts here ends; its columns' indexes are told on the way.
pub fn end(exprs: &[u8], mut at: usize, mut column: impl FnMut(u16)) -> usize {
    let mut left = 1;
    while left > 0 {
        if exprs[at] == COLUMN {
            column(two(exprs, at + 1));
        }
        let kind = exprs[at];
        at += size(exprs, at);
        left += match kind {
            COLUMN | LITERAL => 0,
            BINARY => 2,
            _ => usize::from(exprs[at - 1]),
        };
        left -= 1;
    }
    at
}

/// The columns' indexes of all these nodes.
pub fn columns(nodes: &[u8], mut column: impl FnMut(u16)) {
    let mut at = 0;
    while at < nodes.len() {
        if nodes[at] == COLUMN {
            column(two(nodes, at + 1));
        }
        at += size(nodes, at);
    }
}

/// Each of these nodes that is a column gets another index.
pub fn renumber(nodes: &mut [u8], mut new: impl FnMut(u16) -> u16) {
    let mut at = 0;
    while at < nodes.len() {
        if nodes[at] == COLUMN {
            let index = new(two(nodes, at + 1));
            nodes[at + 1..at + 3].copy_from_slice(&index.to_be_bytes());
        }
        at += size(nodes, at);
    }
}

/// Tells each node of the frame with its index, once its children were told.
pub fn each(frame: &[u8], start: usize, mut told: impl FnMut(usize, Node)) {
    // The nodes around: index, start, and how many children are still to come.
    let mut around = [(0, 0, 0); MAX_DEPTH];
    let (mut at, mut index, mut level) = (start, 0, 0);
    loop {
        let kind = frame[at];
        let node_start = at;
        at += size(frame, at);
        let children = match kind {
            COLUMN | LITERAL => 0,
            BINARY => 2,
            _ => usize::from(frame[at - 1]),
        };
        around[level] = (index, node_start, children);
        level += 1;
        index += 1;
        while around[level - 1].2 == 0 {
            level -= 1;
            let (index, start, _) = around[level];
            let node = Node {
                kind: frame[start],
                start: start as u16,
                end: at as u16,
            };
            told(index, node);
            if level == 0 {
                return;
            }
            around[level - 1].2 -= 1;
        }
    }
}

/// Name, count of arguments, and where the first of them starts.
pub fn function(exprs: &[u8], at: usize) -> (&[u8], u8, usize) {
    let end = at + 2 + usize::from(exprs[at + 1]);
    (&exprs[at + 2..end], exprs[end], end + 1)
}
