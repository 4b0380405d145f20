//! Pairs of frames to merge, held and new: any two, and ones whose merged frame is beside a limit.

use reading::encode;
use reading::frame::{Expr, Frame, MAX_RECORDS, Side};

use super::filter::Filter;
use super::limits::{chain, expr_of_bytes, expr_of_nodes, other};
use super::physical;
use crate::rng::Rng;

pub struct Pair {
    pub held: Vec<u8>,
    pub new: Vec<u8>,
}

/// A quarter of the pairs is beside a limit, fewer where they are long.
pub fn pair(rng: &mut Rng) -> Pair {
    let (held, new) = match rng.below(32) {
        0..=2 => with_records(rng),
        3..=5 => with_depth(rng),
        6 => with_nodes(rng),
        7 => with_bytes(rng),
        8 => {
            let frame = frame(rng);
            (frame.clone(), frame)
        }
        _ => (frame(rng), frame(rng)),
    };
    Pair { held, new }
}

/// A physical frame that is most often good.
pub fn frame(rng: &mut Rng) -> Vec<u8> {
    const MAKERS: [fn(&mut Rng) -> Vec<u8>; 11] = [
        physical::relation,
        physical::distance,
        physical::knn,
        physical::conjunctions,
        physical::mark_columns,
        physical::mark_bounds,
        physical::equal_records,
        physical::mixed_sides,
        physical::dropped_arguments,
        physical::near_names,
        physical::small,
    ];
    let make = rng.pick(&MAKERS);
    make(rng)
}

/// The parts of a total, each at least `least` and at most `most`.
fn split(rng: &mut Rng, total: usize, least: usize, most: usize) -> (usize, usize) {
    let first = least.max(total.saturating_sub(most));
    let last = most.min(total - least);
    let held = first + rng.below(last - first + 1);
    (held, total - held)
}

/// 255 to 257 records in all.
fn with_records(rng: &mut Rng) -> (Vec<u8>, Vec<u8>) {
    let total = MAX_RECORDS - 1 + rng.below(3);
    let (held, new) = split(rng, total, 0, MAX_RECORDS);
    (of_records(rng, held), of_records(rng, new))
}

fn of_records(rng: &mut Rng, count: usize) -> Vec<u8> {
    let lefts = rng.below(count + 1);
    let rights = rng.below(count - lefts + 1);
    let counts = [lefts, rights, count - lefts - rights];
    let mut filter = Filter::with_counts(rng, counts, 100);
    let leaf = filter.leaf();
    let expr = filter.among_plain(leaf, 2);
    filter.frame(expr)
}

/// Depth 63 to 65 below the And that joins them.
fn with_depth(rng: &mut Rng) -> (Vec<u8>, Vec<u8>) {
    let deep = 62 + rng.below(3);
    let other = match rng.below(3) {
        0 => deep,
        _ => 1 + rng.below(deep),
    };
    let (deep, other) = (of_depth(rng, deep), of_depth(rng, other));
    match rng.one_in(2) {
        true => (deep, other),
        false => (other, deep),
    }
}

fn of_depth(rng: &mut Rng, depth: usize) -> Vec<u8> {
    let (filter, end) = ending(rng);
    let expr = chain(filter.rng, depth, end);
    filter.frame(expr)
}

/// A small table, and a column of it or a node without fields to end expressions with.
fn ending(rng: &mut Rng) -> (Filter<'_>, Expr) {
    let mut filter = Filter::with_counts(rng, [1, 1, 0], 9);
    let end = match filter.rng.below(3) {
        0 => other(Vec::new()),
        1 => filter.column(Side::Left),
        _ => filter.column(Side::Right),
    };
    (filter, end)
}

/// 1,023 to 1,025 nodes with the And that joins them.
fn with_nodes(rng: &mut Rng) -> (Vec<u8>, Vec<u8>) {
    let total = 1_022 + rng.below(3);
    let (held, new) = split(rng, total, 1, total);
    (of_nodes(rng, held), of_nodes(rng, new))
}

fn of_nodes(rng: &mut Rng, nodes: usize) -> Vec<u8> {
    let (filter, end) = ending(rng);
    let expr = expr_of_nodes(filter.rng, nodes, &end);
    filter.frame(expr)
}

/// 16,383 to 16,385 bytes when merged, which has one byte less than both.
fn with_bytes(rng: &mut Rng) -> (Vec<u8>, Vec<u8>) {
    const LEAST: usize = 7;
    let total = 16_384 + rng.below(3);
    let (held, new) = split(rng, total, LEAST, total);
    (of_bytes(rng, held), of_bytes(rng, new))
}

fn of_bytes(rng: &mut Rng, bytes: usize) -> Vec<u8> {
    let (records, start) = (Vec::new(), 3);
    let expr = expr_of_bytes(rng, bytes - start);
    encode::physical(&Frame { records, expr })
}
