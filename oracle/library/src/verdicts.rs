//! Explains: buffers of every length, frames good and damaged, settings good and bad; and what the
//! original takes beside what the verdicts say.

use driver::make::damage::damage;
use driver::make::reasons;
use driver::original;
use driver::rng::Rng;
use reading::decode;
use reading::encode;
use reading::frame::{Frame, KNN, MAX_NODES};
use reading::settings::Settings;

use crate::call::{Call, Kind, Outcome};
use crate::compare;
use crate::counts::Counts;
use crate::held::any_bytes;
use crate::settings;

/// Of a frame, under these settings, at times under bad ones, and under the program's.
pub fn run(
    rng: &mut Rng,
    frame: &[u8],
    settings: Settings,
    counts: &mut Counts,
) -> Result<(), String> {
    for call in calls(rng, frame, settings) {
        let outcome = compare(rng, &call, counts)?;
        if outcome.answer >= 0 {
            counts.count_verdicts(written(&outcome));
            same_taken(&call, &outcome)?;
        }
    }
    match decode::physical(frame) {
        Ok(good) => beside_original(rng, &good, counts),
        Err(_) => Ok(()),
    }
}

/// Of a frame whose leaves have several reasons, under settings of its own; at times it is damaged.
pub fn run_alone(rng: &mut Rng, counts: &mut Counts) -> Result<(), String> {
    let mut frame = reasons::frame(rng);
    let settings = settings::any(rng, std::iter::once(&frame[..]));
    if rng.one_in(16) {
        damage(rng, &mut frame);
    }
    run(rng, &frame, settings, counts)
}

/// A buffer that is empty, shorter, one byte short, just long enough, longer, at times much longer. A
/// frame that is refused has any number of conjuncts for that.
fn calls(rng: &mut Rng, frame: &[u8], settings: Settings) -> Vec<Call> {
    let leaves = decode::physical(frame).map(|good| good.expr.and_leaves().len());
    let count = leaves.unwrap_or_else(|_| rng.below(8));
    let mut rooms = vec![
        0,
        rng.below(count + 1),
        count.saturating_sub(1),
        count,
        count + 1 + rng.below(64),
    ];
    if rng.one_in(64) {
        rooms.push(MAX_NODES + rng.below(64));
    }
    let call = |room| {
        let settings = match rng.one_in(12) {
            true => settings::bad(rng, &[]),
            false => settings,
        };
        of(frame, any_bytes(rng, room), settings)
    };
    rooms.into_iter().map(call).collect()
}

fn of(frame: &[u8], buffer: Vec<u8>, settings: Settings) -> Call {
    Call {
        frame: frame.to_vec(),
        out: buffer,
        settings,
        ..Call::new(Kind::Explain)
    }
}

/// The verdicts of an accepted call.
fn written(outcome: &Outcome) -> &[u8] {
    &outcome.out[..Kind::Explain.without_walk(outcome.answer) as usize]
}

/// The line and the position that the bytes name: the first KNN match, else the first match.
fn named(verdicts: &[u8]) -> Option<(u8, u16)> {
    let first = |such: fn(&u8) -> bool| verdicts.iter().position(such);
    let found = first(|byte| *byte == KNN).or_else(|| first(|byte| *byte <= KNN))?;
    Some((verdicts[found], found as u16))
}

/// The answer says what the bytes name.
fn same_taken(call: &Call, outcome: &Outcome) -> Result<(), String> {
    let named = named(written(outcome));
    let number = |(line, position)| i64::from(line) * 65_536 + i64::from(position);
    match named.map_or(0, number) == outcome.answer / 65_536 {
        true => Ok(()),
        false => Err(format!(
            "{call}\nthe bytes name {named:?}, the answer {:x}",
            outcome.answer
        )),
    }
}

/// Under the program's settings the verdicts of a frame name what the original takes; and so do those of
/// a frame that has one of its leaves alone.
fn beside_original(rng: &mut Rng, frame: &Frame, counts: &mut Counts) -> Result<(), String> {
    let leaf = rng.pick(&frame.expr.and_leaves()).clone();
    let alone = Frame {
        expr: leaf,
        ..frame.clone()
    };
    for frame in [frame, &alone] {
        let count = frame.expr.and_leaves().len();
        let bytes = encode::physical(frame);
        let call = of(&bytes, any_bytes(rng, count), Settings::OF_THE_PROGRAM);
        let outcome = compare(rng, &call, counts)?;
        let said = named(written(&outcome));
        let taken = original::taken(frame);
        if taken != Some(said) {
            return Err(format!(
                "{call}\nthe verdicts name {said:?}, the original takes {taken:?}"
            ));
        }
        counts.count_original(said.is_some());
    }
    Ok(())
}
