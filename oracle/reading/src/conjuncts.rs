//! Document 02, request 14: all indexable conjuncts of a frame, round by round.

use crate::frame::{Frame, Predicate};
use crate::settings::Settings;
use crate::{decode, encode, physical};

/// The leaves taken, in the order of the rounds, each with its position in the first frame; and the
/// last remainder.
#[derive(Clone, Debug, PartialEq, Eq)]
pub struct Conjuncts {
    pub taken: Vec<(u16, Predicate)>,
    pub rest: Option<Frame>,
}

/// Extracts, loads the remainder, and repeats until no remainder is left or 13 comes.
pub fn conjuncts(first: &Frame, settings: Settings) -> Conjuncts {
    // Where the leaves of the round's frame stand in the first one.
    let mut positions: Vec<u16> = (0..).take(first.expr.and_leaves().len()).collect();
    let mut taken = Vec::new();
    let mut rest = Some(first.clone());
    while let Some(frame) = &rest {
        let Some(extraction) = physical::extract(frame, settings) else {
            break;
        };
        let position = positions.remove(usize::from(extraction.position));
        taken.push((position, extraction.predicate));
        rest = extraction.remainder.as_ref().map(load);
    }
    Conjuncts { taken, rest }
}

/// As load takes its bytes.
fn load(remainder: &Frame) -> Frame {
    decode::physical(&encode::physical(remainder)).expect("a remainder is a good frame")
}
