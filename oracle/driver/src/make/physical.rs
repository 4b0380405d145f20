//! Physical frames, a function for each class.

use reading::frame::{Expr, MAX_RECORDS, Side};

use super::filter::Filter;
use super::names;
use crate::rng::Rng;

pub fn relation(rng: &mut Rng) -> Vec<u8> {
    let mut filter = Filter::new(rng);
    let leaf = filter.relation();
    let expr = filter.among_plain(leaf, 3);
    filter.frame(expr)
}

pub fn distance(rng: &mut Rng) -> Vec<u8> {
    let mut filter = Filter::new(rng);
    let leaf = filter.distance();
    let expr = filter.among_plain(leaf, 3);
    filter.frame(expr)
}

pub fn knn(rng: &mut Rng) -> Vec<u8> {
    let mut filter = Filter::new(rng);
    let leaf = filter.knn();
    let expr = filter.among_plain(leaf, 2);
    filter.frame(expr)
}

/// Many leaves, of which several may match.
pub fn conjunctions(rng: &mut Rng) -> Vec<u8> {
    let mut filter = Filter::new(rng);
    let count = 2 + filter.rng.below(11);
    let leaf = |_| match filter.rng.below(3) {
        0 => filter.plain_leaf(),
        _ => filter.leaf(),
    };
    let leaves = (0..count).map(leaf).collect();
    let expr = filter.conjunction(leaves);
    filter.frame(expr)
}

/// Wide tables and long filters, some of them over the limits of nodes and depth.
pub fn large(rng: &mut Rng) -> Vec<u8> {
    let counts = [rng.below(40), rng.below(40), rng.below(4)];
    let mut filter = Filter::with_counts(rng, counts, 300);
    let count = 10 + filter.rng.below(70);
    let first_match = filter.rng.below(count);
    let leaf = |at| match at < first_match {
        true => filter.argument(),
        false => filter.leaf(),
    };
    let leaves = (0..count).map(leaf).collect();
    let expr = filter.conjunction(leaves);
    filter.frame(expr)
}

/// Tables of up to 256 records, all different or many of them equal, below filters that name few or
/// many of their columns.
pub fn wide_tables(rng: &mut Rng) -> Vec<u8> {
    let count = match rng.below(3) {
        0 => 14 + rng.below(6),
        1 => MAX_RECORDS - rng.below(6),
        _ => 2 + rng.below(MAX_RECORDS - 1),
    };
    let lefts = 1 + rng.below(count - 1);
    let rights = 1 + rng.below(count - lefts);
    let indices = rng.pick(&[2, 30, 300, 65_536]);
    let counts = [lefts, rights, count - lefts - rights];
    let mut filter = Filter::with_counts(rng, counts, indices);
    let mut leaves = vec![filter.relation()];
    for _ in 0..filter.rng.below(12) {
        leaves.push(filter.row_of_columns());
    }
    filter.rng.shuffle(&mut leaves);
    let expr = filter.conjunction(leaves);
    filter.frame(expr)
}

/// Tables with columns of neither child, and arguments that use them.
pub fn mark_columns(rng: &mut Rng) -> Vec<u8> {
    let counts = [1 + rng.below(2), 1 + rng.below(2), 1 + rng.below(3)];
    let mut filter = Filter::with_counts(rng, counts, 3);
    let leaves = (0..1 + filter.rng.below(3))
        .map(|_| filter.leaf())
        .collect();
    let leaf = filter.conjunction(leaves);
    let expr = filter.among_plain(leaf, 3);
    filter.frame(expr)
}

/// Distances whose bound has mark columns, alone or among leaves that may match too.
pub fn mark_bounds(rng: &mut Rng) -> Vec<u8> {
    let counts = [1 + rng.below(2), 1 + rng.below(2), 1 + rng.below(2)];
    let mut filter = Filter::with_counts(rng, counts, 3);
    let mut leaves = Vec::new();
    for _ in 0..1 + filter.rng.below(2) {
        let bound = filter.bound_beside_marks();
        leaves.push(filter.distance_to(bound));
    }
    for _ in 0..filter.rng.below(3) {
        leaves.push(filter.leaf());
    }
    filter.rng.shuffle(&mut leaves);
    let expr = filter.conjunction(leaves);
    filter.frame(expr)
}

/// Tables in which records repeat, or differ in side or child index alone.
pub fn equal_records(rng: &mut Rng) -> Vec<u8> {
    let counts = [1 + rng.below(5), 1 + rng.below(5), rng.below(3)];
    let mut filter = Filter::with_counts(rng, counts, 2);
    let leaf = filter.leaf();
    let side = filter.side();
    let used = filter.of_side(side, 1);
    let rest = filter.among_plain(used, 2);
    let expr = filter.conjunction(vec![leaf, rest]);
    filter.frame(expr)
}

/// Arguments of a known function that may have columns of both children.
pub fn mixed_sides(rng: &mut Rng) -> Vec<u8> {
    let mut filter = Filter::new(rng);
    let mut leaf = filter.leaf();
    if let Expr::Function { args, .. } = &mut leaf
        && !args.is_empty()
    {
        let at = filter.rng.below(args.len());
        args[at] = filter.mixed();
    }
    let expr = filter.among_plain(leaf, 2);
    filter.frame(expr)
}

/// Calls with more arguments than are read.
pub fn dropped_arguments(rng: &mut Rng) -> Vec<u8> {
    let counts = [1 + rng.below(4), 1 + rng.below(4), rng.below(2)];
    let mut filter = Filter::with_counts(rng, counts, 20);
    let mut leaf = filter.leaf();
    let extras = 1 + filter.rng.below(4);
    if let Expr::Function { args, .. } = &mut leaf {
        args.extend((0..extras).map(|_| filter.argument()));
    }
    let expr = filter.among_plain(leaf, 3);
    filter.frame(expr)
}

/// Leaves that would match but for one letter of a name.
pub fn near_names(rng: &mut Rng) -> Vec<u8> {
    let mut filter = Filter::new(rng);
    let mut leaf = filter.leaf();
    let new_name = names::near(filter.rng);
    match &mut leaf {
        Expr::Function { name, .. } => *name = new_name,
        Expr::Binary { left, right, .. } => {
            for side in [left, right] {
                if let Expr::Function { name, .. } = &mut **side {
                    *name = new_name.clone();
                }
            }
        }
        _ => (),
    }
    let other = filter.leaf();
    let both = match filter.rng.one_in(2) {
        true => vec![leaf, other],
        false => vec![leaf],
    };
    let expr = filter.conjunction(both);
    filter.frame(expr)
}

/// A small frame that is good and has a match.
pub fn small(rng: &mut Rng) -> Vec<u8> {
    let mut filter = Filter::with_counts(rng, [1, 1, 0], 4);
    let name = filter.rng.pick(&names::RELATIONS).as_bytes().to_vec();
    let mut args = vec![filter.column(Side::Left), filter.column(Side::Right)];
    filter.rng.shuffle(&mut args);
    filter.frame(Expr::Function { name, args })
}
