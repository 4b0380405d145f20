use std::error::Error;
use std::fmt;

use crate::{Refusal, numbers};

/// What an accepted extract gives.
#[derive(Clone, Copy, Debug, PartialEq, Eq)]
pub struct Extracted {
    /// The new plan's.
    pub length: usize,
    /// The planning effort: how many And nodes and conjuncts were read. These are all that are
    /// reached from the root through And nodes only, in the order in which they stand in the frame, up
    /// to and including the first KNN match, or all if there is none.
    pub walk: u32,
}

/// Why an extract was refused. `?` makes a [`Refusal`] of it where that is asked for.
#[derive(Clone, Copy, Debug, PartialEq, Eq)]
pub struct Unextracted {
    pub refusal: Refusal,
    /// As of an [`Extracted`] where the refusal is [`Refusal::NoMatch`]: all were read. Else 0.
    pub walk: u32,
}

/// An extract's answer, taken apart.
pub(crate) fn extracted(answer: i64) -> Result<Extracted, Unextracted> {
    let walk = numbers::walk_of(answer);
    match answer {
        0.. => Ok(Extracted {
            length: numbers::length_of(answer),
            walk,
        }),
        _ => Err(Unextracted {
            refusal: Refusal::from_number(numbers::refusal_of(answer).into()),
            walk,
        }),
    }
}

impl From<Unextracted> for Refusal {
    fn from(unextracted: Unextracted) -> Self {
        unextracted.refusal
    }
}

impl fmt::Display for Unextracted {
    fn fmt(&self, f: &mut fmt::Formatter<'_>) -> fmt::Result {
        self.refusal.fmt(f)
    }
}

impl Error for Unextracted {}
