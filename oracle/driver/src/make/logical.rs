//! Logical frames.

use reading::encode;
use reading::frame::{Expr, operator};

use super::filter::join;
use super::{literals, names};
use crate::rng::Rng;

fn column(rng: &mut Rng) -> Expr {
    Expr::LogicalColumn {
        bits: rng.below(4) as u8,
        tag: rng.below(4) as u16,
    }
}

/// An argument with few columns, mostly all of the same bits.
fn argument(rng: &mut Rng, depth: usize) -> Expr {
    let bits = rng.below(4) as u8;
    let children: Vec<Expr> = (0..rng.below(4))
        .map(|_| match rng.below(6) {
            0 => column(rng),
            1 => literals::edge(rng),
            2 if depth > 0 => argument(rng, depth - 1),
            _ => Expr::LogicalColumn {
                bits,
                tag: rng.below(3) as u16,
            },
        })
        .collect();
    match rng.below(4) {
        0 => column(rng),
        1 => Expr::Function {
            name: names::any(rng).into(),
            args: children,
        },
        2 if children.len() == 2 => join(rng, operator::LAST, children, 0),
        _ => Expr::Other { tag: 0, children },
    }
}

fn call(rng: &mut Rng, name: Vec<u8>) -> Expr {
    let args = (0..rng.below(4)).map(|_| argument(rng, 1)).collect();
    Expr::Function { name, args }
}

/// A call of a known name in some letter case.
fn known_call(rng: &mut Rng) -> Expr {
    let name = names::mixed_case(names::known(rng), rng);
    call(rng, name)
}

fn knn_call(rng: &mut Rng) -> Expr {
    let name = names::mixed_case("st_knn", rng);
    call(rng, name)
}

/// A comparison, mostly with `st_distance` on one of its sides.
fn comparison(rng: &mut Rng) -> Expr {
    let name = match rng.below(4) {
        0 => names::near(rng),
        _ => names::mixed_case("st_distance", rng),
    };
    let mut sides = [call(rng, name), argument(rng, 1)];
    rng.shuffle(&mut sides);
    let [left, right] = sides;
    let op = match rng.below(5) {
        0 => 5 + rng.below(59) as u8,
        _ => 1 + rng.below(4) as u8,
    };
    Expr::binary(op, left, right)
}

/// A leaf that hides a call below another node.
fn hidden(rng: &mut Rng) -> Expr {
    let inner = known_call(rng);
    match rng.below(2) {
        0 => {
            let op = 1 + rng.below(63) as u8;
            Expr::binary(op, inner, column(rng))
        }
        _ => Expr::Other {
            tag: 1,
            children: vec![inner],
        },
    }
}

fn conjunction(rng: &mut Rng, leaves: Vec<Expr>) -> Vec<u8> {
    let shape = rng.below(4);
    encode::logical(&join(rng, operator::AND, leaves, shape))
}

/// The predicate names, and what only looks like them.
pub fn predicate_names(rng: &mut Rng) -> Vec<u8> {
    let count = 1 + rng.below(12);
    let leaf = |_| match rng.below(8) {
        0 => comparison(rng),
        1 => hidden(rng),
        2 => {
            let name = names::near(rng);
            call(rng, name)
        }
        3 => argument(rng, 2),
        _ => known_call(rng),
    };
    let leaves = (0..count).map(leaf).collect();
    conjunction(rng, leaves)
}

/// Comparisons alone.
pub fn comparisons(rng: &mut Rng) -> Vec<u8> {
    let leaves = (0..1 + rng.below(3)).map(|_| comparison(rng)).collect();
    conjunction(rng, leaves)
}

/// Calls of `st_knn` with columns of all bits.
pub fn query_side(rng: &mut Rng) -> Vec<u8> {
    let count = 1 + rng.below(4);
    let leaf = |_| match rng.below(6) {
        0 => hidden(rng),
        1 => argument(rng, 1),
        _ => knn_call(rng),
    };
    let leaves = (0..count).map(leaf).collect();
    conjunction(rng, leaves)
}
