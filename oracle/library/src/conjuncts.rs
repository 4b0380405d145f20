//! Extracts of all conjuncts: outputs of every length, frames good and damaged, settings good and bad, and
//! frames of many conjuncts.

use driver::make::damage::damage;
use driver::make::pairs;
use driver::rng::Rng;
use reading::conjuncts::conjuncts;
use reading::frame::{Expr, Frame, MAX_BYTES, operator};
use reading::merge::{merged, within_limits};
use reading::settings::Settings;
use reading::{decode, encode};
use spatialjoin::Conjuncts;

use crate::call::{Call, Kind, Outcome};
use crate::compare;
use crate::counts::Counts;
use crate::held::any_bytes;
use crate::settings;

/// Of a frame, under these settings; at times under bad ones.
pub fn run(
    rng: &mut Rng,
    frame: &[u8],
    settings: Settings,
    counts: &mut Counts,
) -> Result<(), String> {
    for call in calls(rng, frame, settings) {
        let outcome = compare(rng, &call, counts)?;
        read_back(&call, &outcome)?;
    }
    Ok(())
}

/// A frame that has many conjuncts, at times damaged, and settings for it.
pub fn any(rng: &mut Rng) -> (Vec<u8>, Settings) {
    let (most, doubled) = match rng.below(128) {
        0 => (80, 6),
        1..=3 => (12, 4),
        _ => (5, 1),
    };
    let mut frame = encode::physical(&of_many(rng, most, doubled));
    let settings = settings::any(rng, std::iter::once(&frame[..]));
    if rng.one_in(8) {
        damage(rng, &mut frame);
    }
    (frame, settings)
}

/// So many good frames at the most, any two of them merged until there is one, which then is joined to
/// itself, fewer times than this. What would be over a limit is left out.
fn of_many(rng: &mut Rng, most: usize, doubled: usize) -> Frame {
    let count = 1 + rng.below(most);
    let mut frames: Vec<Frame> = Vec::new();
    while frames.len() < count {
        frames.extend(decode::physical(&pairs::frame(rng)));
    }
    let mut any = |frames: &mut Vec<Frame>| frames.swap_remove(rng.below(frames.len()));
    while frames.len() > 1 {
        let held = any(&mut frames);
        let both = merged(&held, &any(&mut frames));
        frames.push(if within_limits(&both) { both } else { held });
    }
    let mut frame = frames.remove(0);
    for _ in 0..rng.below(doubled) {
        let (left, right) = (frame.expr.clone(), frame.expr.clone());
        let both = Frame {
            expr: Expr::binary(operator::AND, left, right),
            ..frame.clone()
        };
        frame = if within_limits(&both) { both } else { frame };
    }
    frame
}

/// An output that is empty, shorter than what is written, one byte short, just long enough, as long as
/// the frame, and longer. A frame that is refused has its own length for that.
fn calls(rng: &mut Rng, frame: &[u8], settings: Settings) -> Vec<Call> {
    let all = decode::physical(frame).map(|good| encode::conjuncts(&conjuncts(&good, settings)));
    let length = all.map_or(frame.len(), |bytes| bytes.len());
    assert!(length <= frame.len(), "{length} bytes for {}", frame.len());
    let mut rooms = vec![
        0,
        rng.below(length + 1),
        length.saturating_sub(1),
        length,
        frame.len(),
        frame.len() + 1 + rng.below(64),
    ];
    if rng.one_in(64) {
        rooms.push(MAX_BYTES + rng.below(2));
    }
    let call = |room| Call {
        frame: frame.to_vec(),
        out: any_bytes(rng, room),
        settings: match rng.one_in(12) {
            true => settings::bad(rng, &[]),
            false => settings,
        },
        ..Call::new(Kind::ExtractAll)
    };
    rooms.into_iter().map(call).collect()
}

/// What the package's reader finds in what was written: as many predicates as there were rounds, each a
/// plan with a `00` after it, and a last remainder that is a good frame.
fn read_back(call: &Call, outcome: &Outcome) -> Result<(), String> {
    if outcome.answer < 0 {
        return Ok(());
    }
    let length = call.kind.without_walk(outcome.answer) as usize;
    let found = Conjuncts::of(&outcome.out[..length]);
    let whole = |bytes: &[u8]| decode::plan(&[bytes, &[0]].concat()).is_ok();
    let lengths: usize = found.clone().map(|conjunct| conjunct.bytes.len()).sum();
    let left = found.clone().remainder();
    let holds = found.clone().count() as i64 == outcome.answer / 65_536
        && found.clone().all(|conjunct| whole(conjunct.bytes))
        && left.is_none_or(|rest| decode::physical(rest).is_ok())
        && lengths + left.map_or(1, <[u8]>::len) == length;
    match holds {
        true => Ok(()),
        false => Err(format!("{call}\nthe reader finds {found:?}")),
    }
}
