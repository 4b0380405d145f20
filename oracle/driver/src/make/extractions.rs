//! Extractions that no frame need have made: good ones, and ones beside a limit.

use reading::encode;
use reading::frame::{Expr, Extraction, Frame, Plan, Predicate, Side};

use super::filter::Filter;
use super::limits::{chain, expr_of_bytes, expr_of_nodes, other};
use super::physical;
use crate::rng::Rng;

/// The bytes of an extraction, with any position.
pub fn extraction(rng: &mut Rng) -> Vec<u8> {
    let mut bytes = at_the_start(rng);
    bytes[1..3].copy_from_slice(&(rng.draw() as u16).to_be_bytes());
    bytes
}

fn at_the_start(rng: &mut Rng) -> Vec<u8> {
    match rng.below(12) {
        0 => with_nodes(rng),
        1 => with_depth(rng),
        2 => with_bytes(rng),
        3 => with_records(rng),
        _ => {
            let predicate = predicate(rng, &mut argument);
            let remainder = remainder(rng);
            bytes(predicate, remainder)
        }
    }
}

fn bytes(predicate: Predicate, remainder: Option<Frame>) -> Vec<u8> {
    encode::plan(&Plan::Extraction(Extraction {
        position: 0,
        predicate,
        remainder,
    }))
}

/// Any predicate; each of its bytes is at times the first that is out of range.
fn predicate(rng: &mut Rng, argument: &mut dyn FnMut(&mut Rng) -> Expr) -> Predicate {
    let (left, right) = (argument(rng), argument(rng));
    match rng.below(3) {
        0 => Predicate::Relation {
            relation: rng.below(10) as u8,
            left,
            right,
        },
        1 => Predicate::Distance {
            form: rng.below(6) as u8,
            side: rng.pick(&[Side::Left, Side::Right, Side::None]),
            left,
            right,
            distance: argument(rng),
        },
        _ => Predicate::Knn {
            k: match rng.below(4) {
                0 => rng.below(2) as u32,
                _ => rng.draw() as u32,
            },
            spheroid: rng.one_in(2),
            probe: rng.pick(&[Side::Left, Side::Left, Side::Right, Side::Right, Side::None]),
            ties: rng.pick(&[None, Some(false), Some(true)]),
            left,
            right,
        },
    }
}

/// Outside a remainder a column's index has no bound.
fn argument(rng: &mut Rng) -> Expr {
    if rng.one_in(4) {
        return Expr::Column {
            index: rng.draw() as u16,
            tag: rng.draw() as u16,
        };
    }
    let mut filter = Filter::new(rng);
    filter.argument()
}

/// An expression of one node.
fn small(_: &mut Rng) -> Expr {
    other(Vec::new())
}

/// A remainder, which may have faults of its own.
fn remainder(rng: &mut Rng) -> Option<Frame> {
    let make = match rng.below(3) {
        0 => return None,
        1 => physical::conjunctions,
        _ => physical::small,
    };
    let mut frame = reading::decode::physical_shape(&make(rng)).ok()?;
    match rng.below(8) {
        0 => drop(frame.records.pop()),
        1 => {
            let name = b"st_within".to_vec();
            let args = Vec::new();
            frame.expr = Expr::Function { name, args };
        }
        _ => (),
    }
    Some(frame)
}

fn without_records(expr: Expr) -> Option<Frame> {
    let records = Vec::new();
    Some(Frame { records, expr })
}

fn count_nodes(expr: &Expr) -> usize {
    let below: usize = expr.children().into_iter().map(count_nodes).sum();
    below + 1
}

/// 1,023 to 1,025 nodes over the whole.
fn with_nodes(rng: &mut Rng) -> Vec<u8> {
    let mut nodes = 1_023 + rng.below(3);
    let predicate = predicate(rng, &mut |rng| {
        let argument = argument(rng);
        nodes -= count_nodes(&argument);
        argument
    });
    let rest = expr_of_nodes(rng, nodes, &other(Vec::new()));
    bytes(predicate, without_records(rest))
}

/// Depth 63 to 65 in one of the expressions.
fn with_depth(rng: &mut Rng) -> Vec<u8> {
    let depth = 63 + rng.below(3);
    let mut place = rng.below(4);
    let mut next = |rng: &mut Rng| {
        let deep = place == 0;
        place = place.wrapping_sub(1);
        match deep {
            true => chain(rng, depth, other(Vec::new())),
            false => small(rng),
        }
    };
    let predicate = predicate(rng, &mut next);
    let rest = next(rng);
    bytes(predicate, without_records(rest))
}

/// 16,383 to 16,385 bytes.
fn with_bytes(rng: &mut Rng) -> Vec<u8> {
    let length = 16_383 + rng.below(3);
    let predicate = predicate(rng, &mut small);
    let rest = small(rng);
    let least = bytes(predicate.clone(), without_records(rest.clone())).len();
    let rest_bytes = encode::logical(&rest).len() - 1;
    let rest = expr_of_bytes(rng, length - least + rest_bytes);
    bytes(predicate, without_records(rest))
}

/// 255 to 257 records.
fn with_records(rng: &mut Rng) -> Vec<u8> {
    let predicate = predicate(rng, &mut argument);
    let count = 255 + rng.below(3);
    let counts = [count / 3, count / 3, count - 2 * (count / 3)];
    let mut filter = Filter::with_counts(rng, counts, 100);
    let expr = filter.argument();
    let records = filter.records;
    bytes(predicate, Some(Frame { records, expr }))
}
