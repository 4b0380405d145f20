//! Projections: plans and lists of every kind, buffers of every length, and the calls that go on from
//! there.

use driver::make::damage::damage;
use driver::make::extractions::extraction;
use driver::rng::Rng;
use reading::decode;
use reading::frame::Plan;

use crate::call::{Call, Kind};
use crate::compare;
use crate::counts::Counts;
use crate::held::{Held, any_bytes};
use crate::settings;

/// Projections of what is held, which stays as it is; then calls on the plan that one of them left.
pub fn run(rng: &mut Rng, held: &Held, counts: &mut Counts) -> Result<(), String> {
    let mut left = None;
    for call in calls(rng, held) {
        let outcome = compare(rng, &call, counts)?;
        left = Held::left_by(outcome, held.settings()).or(left);
    }
    match left {
        Some(held) => go_on(rng, held, counts),
        None => Ok(()),
    }
}

/// The same of an extraction of its own, which at times is damaged.
pub fn run_alone(rng: &mut Rng, counts: &mut Counts) -> Result<(), String> {
    let mut bytes = extraction(rng);
    if rng.one_in(8) {
        damage(rng, &mut bytes);
    }
    let settings = settings::any(rng, std::iter::empty());
    let held = Held::holding(rng, &bytes, settings);
    run(rng, &held, counts)
}

/// Of an extraction: any lists with any scratch, and one pair of lists with scratch that is empty,
/// shorter, one byte short, just long enough and longer. Of any other plan one call.
fn calls(rng: &mut Rng, held: &Held) -> Vec<Call> {
    let mut calls = vec![held.with_lists(rng)];
    if !matches!(decode::plan(held.plan()), Ok(Plan::Extraction(_))) {
        return calls;
    }
    calls.push(held.with_lists(rng));
    let Call { lists, .. } = held.with_lists(rng);
    let n = held.plan().len();
    for length in [0, rng.below(n), n - 1, n, n + 1 + rng.below(64)] {
        calls.push(Call {
            scratch: any_bytes(rng, length),
            lists: lists.clone(),
            ..held.with_scratch(Kind::Project, rng)
        });
    }
    calls
}

/// A few calls on a projected plan, further projections among them.
fn go_on(rng: &mut Rng, mut held: Held, counts: &mut Counts) -> Result<(), String> {
    for _ in 0..rng.below(4) {
        held.disturb(rng);
        let call = match rng.below(4) {
            0 => held.with_scratch(Kind::Extract, rng),
            1 => held.with_scratch(Kind::Exchange, rng),
            _ => held.with_lists(rng),
        };
        let outcome = compare(rng, &call, counts)?;
        held.after(call.kind, outcome);
    }
    Ok(())
}
