//! Tables of nodes: as filled, short, long, damaged and stale.

use driver::rng::Rng;
use reading::frame::{MAX_BYTES, MAX_NODES, Plan};
use reading::{decode, nodes};
use spatialjoin::Node;

/// The reading's record as the library's.
pub fn of_reading(node: &nodes::Node) -> Node {
    let nodes::Node { kind, start, end } = *node;
    Node { kind, start, end }
}

/// The library's as the reading's.
pub fn to_reading(node: &Node) -> nodes::Node {
    let Node { kind, start, end } = *node;
    nodes::Node { kind, start, end }
}

/// The nodes of a frame, or of one that is held; none of any other bytes.
pub fn nodes_of(bytes: &[u8]) -> Vec<Node> {
    match decode::plan(bytes) {
        Ok(Plan::Frame(frame)) => nodes::table(&frame).iter().map(of_reading).collect(),
        _ => Vec::new(),
    }
}

/// Fields of every size, most often those that a frame could have.
pub fn any_node(rng: &mut Rng) -> Node {
    let place = |rng: &mut Rng| match rng.below(8) {
        0 => rng.draw() as u16,
        1 => (1 << rng.below(16)) - rng.below(2) as u16,
        _ => rng.below(MAX_BYTES + 1) as u16,
    };
    Node {
        kind: rng.below(8) as u8,
        start: place(rng),
        end: place(rng),
    }
}

pub fn any_nodes(rng: &mut Rng, count: usize) -> Vec<Node> {
    (0..count).map(|_| any_node(rng)).collect()
}

/// A table to be filled with so many nodes: in most cases just long enough or longer; else short, by
/// one or more, or empty. What it holds plays no part.
pub fn to_fill(rng: &mut Rng, count: usize) -> Vec<Node> {
    let length = match rng.below(16) {
        0 => rng.below(count + 1),
        1 => count.saturating_sub(1),
        2 => 0,
        3..=8 => count,
        9 => MAX_NODES,
        _ => count + rng.below(8),
    };
    any_nodes(rng, length)
}

/// Does to a filled table what makes it another: a field of a record, a record less, one too many in
/// between, two that change places, nothing but others.
pub fn damage(rng: &mut Rng, table: &mut Vec<Node>, count: usize) {
    if count == 0 || table.len() < count {
        return;
    }
    let index = match rng.below(3) {
        0 => 0,
        1 => count - 1,
        _ => rng.below(count),
    };
    match rng.below(8) {
        0 => table.truncate(rng.below(count)),
        1 => table.truncate(count - 1),
        2 => table.insert(index, any_node(rng)),
        3 => table.swap(0, index),
        4 => table.fill_with(|| any_node(rng)),
        5 => table[index].kind ^= 1 << rng.below(8),
        6 => table[index].start ^= 1 << rng.below(16),
        _ => table[index].end ^= 1 << rng.below(16),
    }
}
