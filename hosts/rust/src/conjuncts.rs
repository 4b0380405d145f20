use crate::{Extraction, FrameError, Refusal, numbers};

/// What an accepted [`extract_all`](crate::extract_all) gives.
#[derive(Clone, Copy, Debug, PartialEq, Eq)]
pub struct AllExtracted {
    /// Of what was written at the output's start.
    pub length: usize,
    /// How many predicates were written: the rounds.
    pub rounds: u32,
}

/// The answer of an extract of all conjuncts, taken apart.
pub(crate) fn all_extracted(answer: i64) -> Result<AllExtracted, Refusal> {
    match answer {
        0.. => Ok(AllExtracted {
            length: numbers::length_of(answer),
            rounds: numbers::rounds_of(answer),
        }),
        _ => Err(Refusal::from_number(answer.unsigned_abs())),
    }
}

/// What a conjunct is indexed by.
#[derive(Clone, Copy, Debug, PartialEq, Eq, Hash)]
pub enum Kind {
    Relation = 0x11,
    Distance = 0x12,
    Knn = 0x13,
}

impl Kind {
    /// # Panics
    ///
    /// On a number that no call gives: another library was linked.
    pub(crate) fn from_number(number: u8) -> Self {
        match number {
            0x11 => Kind::Relation,
            0x12 => Kind::Distance,
            0x13 => Kind::Knn,
            _ => panic!("{number} is no line of the library"),
        }
    }
}

/// A predicate among those that [`extract_all`](crate::extract_all) wrote.
#[derive(Clone, Copy, Debug, PartialEq, Eq)]
pub struct Conjunct<'a> {
    pub kind: Kind,
    /// Its conjunct's, from 0, among those of the frame that was given.
    pub position: u16,
    /// All of the predicate, as in an extraction: with a `00` after it it is one without a remainder.
    pub bytes: &'a [u8],
}

impl Conjunct<'_> {
    /// The predicate, as an extraction of which nothing is left.
    ///
    /// # Errors
    ///
    /// Of bytes that [`extract_all`](crate::extract_all) did not write, what is wrong with them.
    pub fn extraction(&self) -> Result<Extraction, FrameError> {
        Extraction::of_predicate(self.bytes)
    }
}

/// The predicates in the bytes that [`extract_all`](crate::extract_all) wrote, one after another, and
/// the last remainder. Of bytes that it did not write there is no panic, and no more is said.
#[derive(Clone, Debug)]
pub struct Conjuncts<'a> {
    rest: &'a [u8],
}

impl<'a> Conjuncts<'a> {
    /// Of the bytes that were written, and no more of the output.
    pub fn of(written: &'a [u8]) -> Self {
        Conjuncts { rest: written }
    }

    /// The last remainder, a frame, which stands after the last predicate; `None` where nothing is left.
    pub fn remainder(mut self) -> Option<&'a [u8]> {
        while self.next().is_some() {}
        self.rest.starts_with(&[1]).then_some(self.rest)
    }
}

impl<'a> Iterator for Conjuncts<'a> {
    type Item = Conjunct<'a>;

    fn next(&mut self) -> Option<Conjunct<'a>> {
        let [first, high, low, ..] = *self.rest else {
            return None;
        };
        // How many bytes stand before the arguments, and how many arguments there are.
        let (kind, head, arguments) = match first {
            0x11 => (Kind::Relation, 4, 2),
            0x12 => (Kind::Distance, 5, 3),
            0x13 => (Kind::Knn, 10, 2),
            _ => return None,
        };
        let (bytes, rest) = self
            .rest
            .split_at_checked(past(self.rest, head, arguments)?)?;
        self.rest = rest;
        Some(Conjunct {
            kind,
            position: u16::from_be_bytes([high, low]),
            bytes,
        })
    }
}

/// Where so many expressions end that stand one after another from there on: a node is before its
/// children, so each node that is read takes one away and adds its children.
fn past(bytes: &[u8], from: usize, expressions: usize) -> Option<usize> {
    let (mut at, mut left) = (from, expressions);
    while left > 0 {
        let byte = |offset: usize| bytes.get(at + offset).map(|byte| usize::from(*byte));
        let (own, children) = match byte(0)? {
            0 => (5, 0),
            1 => (10, 0),
            2 => (2, 2),
            3 => (3 + byte(1)?, byte(2 + byte(1)?)?),
            4 => (4, byte(3)?),
            _ => return None,
        };
        at += own;
        left = left - 1 + children;
    }
    Some(at)
}
