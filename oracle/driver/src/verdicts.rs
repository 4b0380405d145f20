//! Verdicts beside the original, which says of no conjunct why it does not take it.

use reading::frame::{Frame, KNN};
use reading::settings::Settings;
use reading::verdicts::verdicts;
use reading::{decode, program};

use crate::make::{self, reasons};
use crate::original::taken;
use crate::rng::Rng;

/// The first KNN match, else the first match: its byte and its position.
fn named(frame: &Frame) -> Option<(u8, u16)> {
    let said = verdicts(frame, Settings::OF_THE_PROGRAM);
    let bytes: Vec<u8> = said.into_iter().map(|verdict| verdict.byte()).collect();
    let first = |such: fn(&u8) -> bool| bytes.iter().position(such);
    let found = first(|byte| *byte == KNN).or_else(|| first(|byte| *byte <= KNN))?;
    Some((bytes[found], found as u16))
}

fn frames() -> impl Iterator<Item = Frame> {
    let cases = (0..6_000).map(|number| {
        let line = make::case(35, number).lines.swap_remove(0);
        program::parse(&line).unwrap_or_default()
    });
    let reasoned = (0..2_000).map(|number| reasons::frame(&mut Rng::new(35, number)));
    cases
        .chain(reasoned)
        .filter_map(|bytes| decode::physical(&bytes).ok())
}

/// Of a frame as a whole, and of each of its leaves as a frame of its own.
#[test]
fn verdicts_name_what_the_original_takes() {
    let mut counts = [0; 2];
    for frame in frames() {
        let leaves = frame.expr.and_leaves().into_iter();
        let alone = leaves.map(|leaf| Frame {
            expr: leaf.clone(),
            ..frame.clone()
        });
        for frame in alone.chain([frame.clone()]) {
            let said = named(&frame);
            assert_eq!(taken(&frame), Some(said), "{frame:?}");
            counts[usize::from(said.is_some())] += 1;
        }
    }
    assert!(counts.iter().all(|count| *count > 2_000), "{counts:?}");
}
