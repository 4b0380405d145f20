//! Lists of child indices to project a plan by: ones that have all of its indices, and others.

use reading::decode;
use reading::frame::{Expr, Extraction, Plan, Predicate, Side};
use reading::project::MAX_ITEMS;

use crate::rng::Rng;

/// A list for the left side and one for the right. Of a plan that is no good extraction they are any.
pub fn lists(rng: &mut Rng, plan: &[u8]) -> [Vec<u16>; 2] {
    let needed = match decode::plan(plan) {
        Ok(Plan::Extraction(extraction)) => needed(&extraction),
        _ => [Vec::new(), vec![0]],
    };
    match rng.below(16) {
        0..=9 => needed.map(|indices| complete(rng, &indices)),
        10 => {
            let [left, right] = needed.map(|indices| complete(rng, &indices));
            [right, left]
        }
        11 | 12 => {
            let mut lists = needed.clone().map(|indices| complete(rng, &indices));
            let side = rng.below(2);
            lists[side] = lacking(rng, &needed[side]);
            lists
        }
        13 => {
            let list = complete(rng, &needed.concat());
            [list.clone(), list]
        }
        _ => needed.map(|indices| any(rng, &indices)),
    }
}

/// The child indices that an extraction has, of each side.
fn needed(extraction: &Extraction) -> [Vec<u16>; 2] {
    let mut found = [Vec::new(), Vec::new()];
    let mut add = |side: Side, index: u16| match side {
        Side::Left => found[0].push(index),
        Side::Right => found[1].push(index),
        Side::None => (),
    };
    let arguments = match &extraction.predicate {
        Predicate::Relation { left, right, .. } => vec![(Side::Left, left), (Side::Right, right)],
        Predicate::Distance {
            side,
            left,
            right,
            distance,
            ..
        } => vec![(Side::Left, left), (Side::Right, right), (*side, distance)],
        Predicate::Knn {
            probe, left, right, ..
        } => vec![(*probe, left), (probe.negate(), right)],
    };
    for (side, argument) in arguments {
        columns(argument, &mut |index| add(side, index));
    }
    if let Some(frame) = &extraction.remainder {
        frame.records.iter().for_each(|r| add(r.side, r.index));
    }
    for indices in &mut found {
        indices.sort_unstable();
        indices.dedup();
    }
    found
}

fn columns(expr: &Expr, found: &mut impl FnMut(u16)) {
    if let Expr::Column { index, .. } = expr {
        found(*index);
    }
    for child in expr.children() {
        columns(child, found);
    }
}

/// Near one of these, small, or any.
fn other(rng: &mut Rng, needed: &[u16]) -> u16 {
    match rng.below(4) {
        0 if !needed.is_empty() => rng.pick(needed) ^ 1 << rng.below(16),
        1 => rng.draw() as u16,
        _ => rng.below(10) as u16,
    }
}

fn others(rng: &mut Rng, needed: &[u16], count: usize) -> Vec<u16> {
    (0..count).map(|_| other(rng, needed)).collect()
}

/// A list that has all of these: just them, in any order; some again; others too; of up to as many
/// items as there may be, with one of them last at times.
fn complete(rng: &mut Rng, needed: &[u16]) -> Vec<u16> {
    let mut list = needed.to_vec();
    let count = match rng.below(24) {
        0..=9 => 0,
        10..=21 => rng.below(20),
        22 => MAX_ITEMS - list.len() - rng.below(2),
        _ => rng.below(MAX_ITEMS + 1 - list.len()),
    };
    if rng.one_in(2) && !needed.is_empty() {
        list.extend((0..count).map(|_| rng.pick(needed)));
    } else {
        list.extend(others(rng, needed, count));
    }
    match rng.below(4) {
        0 => list.reverse(),
        _ => rng.shuffle(&mut list),
    }
    list
}

/// A list that has all of these but one.
fn lacking(rng: &mut Rng, needed: &[u16]) -> Vec<u16> {
    if needed.is_empty() {
        return complete(rng, needed);
    }
    let gone = rng.pick(needed);
    let mut list = complete(rng, needed);
    list.retain(|item| *item != gone);
    list
}

/// None, few or many of any, and too many.
fn any(rng: &mut Rng, needed: &[u16]) -> Vec<u16> {
    match rng.below(8) {
        0 => Vec::new(),
        1 | 2 => {
            let mut list = complete(rng, needed);
            let past = MAX_ITEMS + 1 + rng.below(2) * rng.below(100);
            let count = past.saturating_sub(list.len());
            list.extend(others(rng, needed, count));
            list
        }
        3 => {
            let count = rng.below(MAX_ITEMS + 2);
            others(rng, needed, count)
        }
        4 => complete(rng, needed),
        _ => {
            let count = rng.below(16);
            others(rng, needed, count)
        }
    }
}
