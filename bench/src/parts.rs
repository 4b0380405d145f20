//! Parts of filters: conjuncts of a fixed mix, and their conjunctions.

use reading::encode;
use reading::frame::{Expr, literal, operator};

/// Functions of a host, with the longest names that a frame may have: a frame of 16,384 bytes has
/// at most 1,024 nodes, so that only long names can fill it. Frames of all sizes have the same mix.
const PERMISSION: &str = "customer_region_permission_check";
const REACHABLE: &str = "warehouse_partition_is_reachable";
const DENSITY: &str = "geostats_kernel_density_estimate";
const REFERENCE: &str = "database_default_reference_frame";

const EQUALS: u8 = 6;

pub fn call(name: &str, args: Vec<Expr>) -> Expr {
    let name = name.as_bytes().to_vec();
    Expr::Function { name, args }
}

pub fn binary(op: u8, left: Expr, right: Expr) -> Expr {
    Expr::binary(op, left, right)
}

/// An Int64 literal.
pub fn number(value: u64) -> Expr {
    Expr::Literal {
        kind: literal::INT64,
        bytes: value.to_be_bytes(),
    }
}

/// The And of the conjuncts as a low tree.
pub fn tree(conjuncts: Vec<Expr>) -> Expr {
    tree_of(operator::AND, conjuncts)
}

/// The expressions joined by an operator, as a low tree.
pub fn tree_of(op: u8, mut exprs: Vec<Expr>) -> Expr {
    match exprs.len() {
        1 => exprs.remove(0),
        count => {
            let right = tree_of(op, exprs.split_off(count.div_ceil(2)));
            binary(op, tree_of(op, exprs), right)
        }
    }
}

/// The And of a first conjunct and these, each And the left child of the next.
pub fn comb(first: Expr, conjuncts: Vec<Expr>) -> Expr {
    let and = |left, right| binary(operator::AND, left, right);
    conjuncts.into_iter().fold(first, and)
}

/// The And of the conjuncts, with the one that is taken near the middle.
pub fn with_match(mut conjuncts: Vec<Expr>, taken: Expr, variant: usize) -> Expr {
    let place = conjuncts.len().div_ceil(2) + variant;
    conjuncts.insert(place.min(conjuncts.len()), taken);
    tree(conjuncts)
}

/// A conjunct of the mix: calls of the host's functions, some of a column, and in each seven a
/// spatial relation that does not match because one geometry has no column.
fn conjunct(place: usize, column: &dyn Fn(usize) -> Expr) -> Expr {
    let constant = |name| call(name, Vec::new());
    match place % 7 {
        0 => call("st_intersects", vec![column(place), constant(REFERENCE)]),
        1 | 3 | 5 => constant(REACHABLE),
        2 => call(PERMISSION, vec![column(place)]),
        4 => call(DENSITY, vec![number(place as u64)]),
        _ => binary(operator::LT, constant(DENSITY), constant(REFERENCE)),
    }
}

/// Conjuncts of the mix that, each with an And's two bytes, have this many bytes in all.
pub fn conjuncts_of_bytes(
    bytes: usize,
    variant: usize,
    column: &dyn Fn(usize) -> Expr,
) -> Vec<Expr> {
    const AND: usize = 2;
    const SHORTEST: usize = AND + 4;
    const LONGEST: usize = AND + 35;
    let mut left = bytes;
    let mut conjuncts = Vec::new();
    for place in variant.. {
        let next = conjunct(place, column);
        let size = AND + encode::logical(&next).len() - 1;
        if left < size + SHORTEST {
            break;
        }
        conjuncts.push(next);
        left -= size;
    }
    while left > 0 {
        let size = match left {
            SHORTEST..=LONGEST => left,
            _ => LONGEST.min(left - SHORTEST),
        };
        let name = &REACHABLE[..size - AND - 3];
        conjuncts.push(call(name, Vec::new()));
        left -= size;
    }
    conjuncts
}

/// Comparisons, short calls and spatial relations with a constant that, each with an And, have
/// this many nodes in all.
pub fn conjuncts_of_nodes(
    nodes: usize,
    variant: usize,
    column: &dyn Fn(usize) -> Expr,
) -> Vec<Expr> {
    let mut left = nodes;
    let mut conjuncts = Vec::new();
    for place in variant.. {
        let size = match left {
            0 => break,
            5 => 3,
            _ => left.min(4),
        };
        conjuncts.push(match (size, place % 3) {
            (2, _) => column(place),
            (3, _) => call("st_isvalid", vec![column(place)]),
            (_, 0) => call("st_contains", vec![column(place), number(7)]),
            (_, 1) => binary(operator::LT, column(place), number(place as u64)),
            _ => binary(EQUALS, column(place), column(place + 1)),
        });
        left -= size;
    }
    conjuncts
}
