//! Merge calls: plans of every kind, buffers of every length, and the calls that go on from there.

use driver::make::damage::damage;
use driver::make::extractions::extraction;
use driver::make::pairs::{self, Pair};
use driver::rng::Rng;
use reading::frame::Plan;
use reading::settings::Settings;
use reading::{decode, encode, physical};

use crate::call::{Call, Kind};
use crate::compare;
use crate::counts::Counts;
use crate::held::{Held, any_bytes};
use crate::{settings, tables};

/// Merges of a pair with all rooms, then calls on the plan that one of them left.
pub fn run(rng: &mut Rng, pair: &Pair, counts: &mut Counts) -> Result<(), String> {
    let plan = held_plan(rng, &pair.held);
    let mut new = pair.new.clone();
    if rng.one_in(8) {
        damage(rng, &mut new);
    }
    let settings = settings::any(rng, [&pair.held[..], &new].into_iter());
    let mut left = None;
    for call in calls(rng, &plan, &new) {
        let outcome = compare(rng, &call, counts)?;
        left = Held::left_by(outcome, settings).or(left);
    }
    match left {
        Some(held) => go_on(rng, held, counts),
        None => Ok(()),
    }
}

/// The frame in most cases, exchanged or not; else nothing, an extraction, or a damaged plan.
fn held_plan(rng: &mut Rng, frame: &[u8]) -> Vec<u8> {
    let changed = |change: fn(Plan) -> Plan| {
        let plan = decode::plan(frame).map(change);
        plan.map_or(frame.to_vec(), |plan| encode::plan(&plan))
    };
    match rng.below(16) {
        0 => Vec::new(),
        1 => extraction(rng),
        2 => changed(extracted),
        3 => changed(|plan| physical::exchange(&extracted(plan))),
        4 => {
            let mut plan = frame.to_vec();
            damage(rng, &mut plan);
            plan
        }
        5..=8 => changed(|plan| physical::exchange(&plan)),
        _ => frame.to_vec(),
    }
}

/// A frame that has no match stays.
fn extracted(plan: Plan) -> Plan {
    match &plan {
        Plan::Frame(frame) => {
            let extraction = physical::extract(frame, Settings::OF_THE_PROGRAM);
            extraction.map_or(plan, Plan::Extraction)
        }
        Plan::Extraction(_) => plan,
    }
}

/// Scratch and plan buffer empty, shorter, one byte short, just long enough and longer: each with
/// enough of the other, and one pair of any. A new frame that is refused gets a few of these.
fn calls(rng: &mut Rng, plan: &[u8], frame: &[u8]) -> Vec<Call> {
    let n = plan.len();
    let merged = (n + frame.len()).saturating_sub(1);
    let scratches = lengths(rng, n);
    let mut rooms = lengths(rng, merged);
    rooms.push(n);
    let enough = |rng: &mut Rng, lengths: &[usize]| rng.pick(&lengths[3..5]);
    let mut pairs = vec![(rng.pick(&scratches), rng.pick(&rooms))];
    for scratch in &scratches {
        pairs.push((*scratch, enough(rng, &rooms)));
    }
    for room in &rooms {
        pairs.push((enough(rng, &scratches), *room));
    }
    if decode::physical(frame).is_err() {
        rng.shuffle(&mut pairs);
        pairs.truncate(4);
    }
    let nodes = 1 + tables::nodes_of(plan).len() + tables::nodes_of(frame).len();
    let call = |(scratch, room)| Call {
        frame: frame.to_vec(),
        n,
        plan: in_buffer(rng, plan, room),
        scratch: any_bytes(rng, scratch),
        table: tables::to_fill(rng, nodes),
        ..Call::new(Kind::Merge)
    };
    pairs.into_iter().map(call).collect()
}

fn lengths(rng: &mut Rng, exact: usize) -> Vec<usize> {
    vec![
        0,
        rng.below(exact + 1),
        exact.saturating_sub(1),
        exact,
        exact + 1 + rng.below(64),
    ]
}

/// The plan's bytes, as many as the buffer has room for, and others after them.
fn in_buffer(rng: &mut Rng, plan: &[u8], room: usize) -> Vec<u8> {
    let mut buffer = any_bytes(rng, room);
    let held = plan.len().min(room);
    buffer[..held].copy_from_slice(&plan[..held]);
    buffer
}

/// A few calls on a merged plan, another merge at times among them.
fn go_on(rng: &mut Rng, mut held: Held, counts: &mut Counts) -> Result<(), String> {
    for _ in 0..1 + rng.below(4) {
        held.disturb(rng);
        let call = match rng.below(5) {
            0 | 1 => held.with_scratch(Kind::Extract, rng),
            2 | 3 => held.with_scratch(Kind::Exchange, rng),
            _ => {
                let frame = pairs::frame(rng);
                let room = frame.len() * rng.below(2);
                held.lengthen(rng, room);
                held.with_both(Kind::Merge, frame, rng)
            }
        };
        let outcome = compare(rng, &call, counts)?;
        held.after(call.kind, outcome);
    }
    Ok(())
}
