//! Frames on both sides of every limit.

use reading::encode;
use reading::frame::{Expr, Frame, Side, literal, operator};
use reading::program::hex;

use super::filter::{Filter, join};
use super::{literals, names};
use crate::rng::Rng;

/// Makes a line for a number at or near its limit.
type Make = fn(&mut Rng, u64) -> Vec<u8>;

/// Each maker with the numbers to give it: the last that are good and the first that aren't.
const LIMITS: [(Make, &[u64]); 30] = [
    (|rng, n| hex(&bytes(rng, n as usize)), &[16_384, 16_385]),
    (
        |rng, n| hex(&nodes(rng, n as usize)),
        &[1_023, 1_024, 1_025],
    ),
    (|rng, n| hex(&depth(rng, n as usize)), &[63, 64, 65]),
    (|rng, n| hex(&deep_match(rng, n as usize)), &[63, 64, 65]),
    (
        |rng, n| hex(&records(rng, n as usize)),
        &[0, 1, 255, 256, 257],
    ),
    (name_length, &[0, 1, 32, 33]),
    (name_byte, &[0, 32, 33, 126, 127, 255]),
    (arguments, &[0, 1, 15, 16, 17]),
    (children, &[0, 1, 15, 16, 17]),
    (operators, &[0, 1, 2, 3, 4, 5, 62, 63, 64, 255]),
    (column_index, &[0, 1, 2, 3, 0xffff]),
    (record_side, &[0, 1, 2, 3, 255]),
    (node_kind, &[0, 1, 2, 3, 4, 5, 6, 255]),
    (literal_type, &[0, 5, 6, 7, 255]),
    (boolean, &[0, 1, 2, 256, u64::MAX]),
    (int32, &[0, 0x7fff_ffff, 0x8000_0000, u64::MAX]),
    (int32, &[0xffff_ffff_8000_0000, 0xffff_ffff_7fff_ffff]),
    (uint32, &[0, 0xffff_ffff, 0x1_0000_0000, u64::MAX]),
    (relation_arity, &[0, 1, 2, 3]),
    (dwithin_arity, &[0, 1, 2, 3, 4]),
    (distance_arity, &[0, 1, 2, 3]),
    (knn_arity, &[0, 1, 2, 3, 4, 5, 6, 16]),
    (
        first_byte,
        &[0, 3, 0x10, 0x11, 0x12, 0x13, 0x20, 0x23, 0xff],
    ),
    (logical_bits, &[0, 1, 2, 3, 4, 255]),
    (logical_bytes, &[16_384]),
    (logical_nodes, &[1_024, 1_025]),
    (logical_depth, &[64, 65]),
    (kind_too_deep, &[0, 1, 2, 3, 4, 5, 6, MISSING]),
    (kind_too_many, &[0, 1, 2, 3, 4, 5, 6, MISSING]),
    (digits, &[32_768, 32_769, 32_770]),
];

/// How many different lines there are.
pub fn count() -> usize {
    LIMITS.iter().map(|(_, numbers)| numbers.len()).sum()
}

/// The line of this place in the list.
pub fn line(rng: &mut Rng, mut place: usize) -> Vec<u8> {
    for (make, numbers) in LIMITS {
        match numbers.get(place) {
            Some(number) => return make(rng, *number),
            None => place -= numbers.len(),
        }
    }
    panic!("the place is below the count");
}

pub fn other(children: Vec<Expr>) -> Expr {
    Expr::Other { tag: 0, children }
}

fn call(name: &[u8], args: Vec<Expr>) -> Expr {
    let name = name.to_vec();
    Expr::Function { name, args }
}

/// A table of one column of each child, and a leaf that matches.
fn with_match(rng: &mut Rng) -> (Filter<'_>, Expr) {
    let mut filter = Filter::with_counts(rng, [1, 1, 0], 9);
    let args = vec![filter.column(Side::Left), filter.column(Side::Right)];
    let name = filter.rng.pick(&names::RELATIONS).as_bytes();
    (filter, call(name, args))
}

/// The expression beside a leaf that matches, or alone.
fn framed(rng: &mut Rng, expr: Expr) -> Vec<u8> {
    let (filter, leaf) = with_match(rng);
    let whole = match filter.rng.below(3) {
        0 => expr,
        1 => Expr::binary(operator::AND, leaf, expr),
        _ => Expr::binary(operator::AND, expr, leaf),
    };
    filter.frame(whole)
}

/// And, or an operator that isn't read.
fn some_operator(rng: &mut Rng) -> u8 {
    rng.pick(&[operator::AND, 5, operator::LAST])
}

/// An expression of exactly so many bytes, at least 4.
pub fn expr_of_bytes(rng: &mut Rng, bytes: usize) -> Expr {
    const LONGEST: usize = 35;
    let function = |bytes: usize| call(&b"x".repeat(bytes - 3), Vec::new());
    let mut left = bytes;
    let mut leaves = Vec::new();
    while left > LONGEST {
        // A leaf, two bytes to join it, and at least four for the rest.
        let size = LONGEST.min(left - 6);
        leaves.push(function(size));
        left -= size + 2;
    }
    leaves.push(function(left));
    let op = some_operator(rng);
    join(rng, op, leaves, 2)
}

fn bytes(rng: &mut Rng, bytes: usize) -> Vec<u8> {
    let (filter, leaf) = with_match(rng);
    let without = encode::physical(&Frame {
        records: filter.records.clone(),
        expr: leaf.clone(),
    });
    let rest = expr_of_bytes(filter.rng, bytes - without.len() - 2);
    filter.frame(Expr::binary(operator::AND, leaf, rest))
}

/// A low tree of exactly so many nodes.
pub fn expr_of_nodes(rng: &mut Rng, nodes: usize, leaf: &Expr) -> Expr {
    match nodes {
        1 => leaf.clone(),
        2 => other(vec![leaf.clone()]),
        _ => {
            let left = expr_of_nodes(rng, (nodes - 1) / 2, leaf);
            let right = expr_of_nodes(rng, nodes / 2, leaf);
            Expr::binary(some_operator(rng), left, right)
        }
    }
}

fn nodes(rng: &mut Rng, nodes: usize) -> Vec<u8> {
    let (mut filter, leaf) = with_match(rng);
    let end = filter.column(Side::Right);
    let rest = expr_of_nodes(filter.rng, nodes - 4, &end);
    filter.frame(Expr::binary(operator::AND, leaf, rest))
}

/// A chain of nodes of all kinds down to this depth.
pub fn chain(rng: &mut Rng, depth: usize, end: Expr) -> Expr {
    (1..depth).fold(end, |inner, _| match rng.below(4) {
        0 => other(vec![inner]),
        1 => call(names::any(rng).as_bytes(), vec![inner, other(Vec::new())]),
        2 => Expr::binary(some_operator(rng), inner, other(Vec::new())),
        _ => Expr::binary(some_operator(rng), other(Vec::new()), inner),
    })
}

fn depth(rng: &mut Rng, depth: usize) -> Vec<u8> {
    let (mut filter, _) = with_match(rng);
    let end = filter.column(Side::Left);
    let expr = chain(filter.rng, depth, end);
    filter.frame(expr)
}

/// And nodes only, so that the leaf at the bottom is an AND-leaf.
fn deep_match(rng: &mut Rng, depth: usize) -> Vec<u8> {
    let (mut filter, leaf) = with_match(rng);
    let expr = (2..depth).fold(leaf, |inner, _| {
        let (mut left, mut right) = (inner, filter.column(Side::Right));
        if filter.rng.one_in(2) {
            std::mem::swap(&mut left, &mut right);
        }
        Expr::binary(operator::AND, left, right)
    });
    filter.frame(expr)
}

fn records(rng: &mut Rng, count: usize) -> Vec<u8> {
    let lefts = rng.below(count + 1);
    let rights = rng.below(count - lefts + 1);
    let counts = [lefts, rights, count - lefts - rights];
    let mut filter = Filter::with_counts(rng, counts, 100);
    let leaf = filter.leaf();
    let expr = filter.among_plain(leaf, 4);
    filter.frame(expr)
}

fn name_length(rng: &mut Rng, length: u64) -> Vec<u8> {
    let name = b"y".repeat(length as usize);
    hex(&framed(rng, call(&name, Vec::new())))
}

fn name_byte(rng: &mut Rng, byte: u64) -> Vec<u8> {
    let mut name = b"st_knn".to_vec();
    let at = rng.below(name.len());
    name[at] = byte as u8;
    hex(&framed(rng, call(&name, Vec::new())))
}

fn arguments(rng: &mut Rng, count: u64) -> Vec<u8> {
    let args = vec![other(Vec::new()); count as usize];
    hex(&framed(rng, call(b"f", args)))
}

fn children(rng: &mut Rng, count: u64) -> Vec<u8> {
    let below = vec![other(Vec::new()); count as usize];
    hex(&framed(rng, other(below)))
}

fn operators(rng: &mut Rng, op: u64) -> Vec<u8> {
    let (filter, leaf) = with_match(rng);
    hex(&filter.frame(Expr::binary(op as u8, leaf, other(Vec::new()))))
}

/// A column's index, where the original reads it and where it doesn't.
fn column_index(rng: &mut Rng, index: u64) -> Vec<u8> {
    let column = Expr::Column {
        index: index as u16,
        tag: 0,
    };
    let place = rng.below(3);
    if place == 0 {
        return hex(&framed(rng, column));
    }
    let mut args = columns(place as u64);
    args.push(column);
    hex(&framed(rng, call(b"st_touches", args)))
}

fn record_side(rng: &mut Rng, side: u64) -> Vec<u8> {
    let (filter, leaf) = with_match(rng);
    let row = filter.rng.below(2);
    let mut frame = filter.frame(leaf);
    frame[3 + 5 * row] = side as u8;
    hex(&frame)
}

fn node_kind(rng: &mut Rng, kind: u64) -> Vec<u8> {
    let (filter, leaf) = with_match(rng);
    let first_byte_of_leaf = 3 + 5 * filter.records.len();
    let mut frame = filter.frame(leaf);
    frame[first_byte_of_leaf] = kind as u8;
    hex(&frame)
}

fn literal_type(rng: &mut Rng, kind: u64) -> Vec<u8> {
    hex(&framed(rng, literals::of(kind as u8, 1)))
}

fn boolean(rng: &mut Rng, value: u64) -> Vec<u8> {
    hex(&framed(rng, literals::of(literal::BOOLEAN, value)))
}

fn int32(rng: &mut Rng, value: u64) -> Vec<u8> {
    hex(&framed(rng, literals::of(literal::INT32, value)))
}

fn uint32(rng: &mut Rng, value: u64) -> Vec<u8> {
    hex(&framed(rng, literals::of(literal::UINT32, value)))
}

/// So many columns, of the children in turn.
fn columns(count: u64) -> Vec<Expr> {
    let column = |index| Expr::Column { index, tag: 5 };
    (0..count).map(|at| column((at % 2) as u16)).collect()
}

fn relation_arity(rng: &mut Rng, count: u64) -> Vec<u8> {
    let name = rng.pick(&names::RELATIONS).as_bytes();
    hex(&framed(rng, call(name, columns(count))))
}

fn dwithin_arity(rng: &mut Rng, count: u64) -> Vec<u8> {
    hex(&framed(rng, call(b"st_dwithin", columns(count))))
}

/// `st_distance` on either side of any comparison, read or not, or alone.
fn distance_arity(rng: &mut Rng, count: u64) -> Vec<u8> {
    let distance = call(b"st_distance", columns(count));
    let op = 1 + rng.below(6) as u8;
    let expr = match rng.below(5) {
        0 => distance,
        1 | 2 => Expr::binary(op, distance, other(Vec::new())),
        _ => Expr::binary(op, other(Vec::new()), distance),
    };
    hex(&framed(rng, expr))
}

fn knn_arity(rng: &mut Rng, count: u64) -> Vec<u8> {
    let mut args = columns(2);
    args.push(literals::of(literal::INT32, 7));
    args.resize(16, literals::of(literal::BOOLEAN, 1));
    args.truncate(count as usize);
    hex(&framed(rng, call(b"st_knn", args)))
}

fn first_byte(rng: &mut Rng, first: u64) -> Vec<u8> {
    let (filter, leaf) = with_match(rng);
    let mut frame = filter.frame(leaf);
    frame[0] = first as u8;
    hex(&frame)
}

fn logical_bits(_rng: &mut Rng, bits: u64) -> Vec<u8> {
    let bits = bits as u8;
    let column = Expr::LogicalColumn { bits, tag: 1 };
    hex(&encode::logical(&call(b"ST_knn", vec![column])))
}

fn logical_bytes(rng: &mut Rng, bytes: u64) -> Vec<u8> {
    let expr = expr_of_bytes(rng, bytes as usize - 1);
    hex(&encode::logical(&expr))
}

fn logical_nodes(rng: &mut Rng, nodes: u64) -> Vec<u8> {
    let leaf = call(b"ST_COVERS", Vec::new());
    hex(&encode::logical(&expr_of_nodes(rng, nodes as usize, &leaf)))
}

fn logical_depth(rng: &mut Rng, depth: u64) -> Vec<u8> {
    let end = call(b"ST_Knn", Vec::new());
    hex(&encode::logical(&chain(rng, depth as usize, end)))
}

/// In place of a kind: the frame ends before it.
const MISSING: u64 = 256;

/// A physical or logical frame whose last node has this kind, and perhaps some fields.
fn with_last_kind(rng: &mut Rng, expr: &Expr, kind: u64) -> Vec<u8> {
    let mut frame = match rng.one_in(3) {
        true => encode::logical(expr),
        false => framed_alone(expr),
    };
    // The last node is an "other" without children.
    frame.truncate(frame.len() - 4);
    if kind < MISSING {
        frame.push(kind as u8);
        frame.resize(frame.len() + rng.below(12), 0);
    }
    hex(&frame)
}

fn framed_alone(expr: &Expr) -> Vec<u8> {
    encode::physical(&Frame {
        records: Vec::new(),
        expr: expr.clone(),
    })
}

/// The kind of a node at depth 65.
fn kind_too_deep(rng: &mut Rng, kind: u64) -> Vec<u8> {
    let expr = (1..65).fold(other(Vec::new()), |inner, _| other(vec![inner]));
    with_last_kind(rng, &expr, kind)
}

/// The kind of the 1,025th node.
fn kind_too_many(rng: &mut Rng, kind: u64) -> Vec<u8> {
    let expr = expr_of_nodes(rng, 1_025, &other(Vec::new()));
    with_last_kind(rng, &expr, kind)
}

/// A line of so many digits that is no frame.
fn digits(rng: &mut Rng, count: u64) -> Vec<u8> {
    let start = rng.pick(&[&b"21"[..], b"22", b"01", b"02", b"03"]);
    let mut line = start.to_vec();
    line.resize(count as usize, b'0');
    line
}
