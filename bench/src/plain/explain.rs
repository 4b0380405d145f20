//! The yardstick for explain: one walk over the conjuncts, which writes a byte for each.

use reading::frame::{DISTANCE, KNN, MAX_NODES, RELATION, literal, operator};
use spatialjoin::Settings;

use super::check;
use super::extract::are_good;
use super::nodes::{self, BINARY, COLUMN, FUNCTION, LITERAL};
use super::pick::relation;

/// Line, position and number of the conjuncts, or the refusal's number.
pub fn explain(frame: &[u8], verdicts: &mut [u8], settings: Settings) -> Result<u64, u8> {
    if !are_good(settings) {
        return Err(24);
    }
    let checked = check::frame::<false>(frame)?;
    let mut walk = Walk {
        frame,
        settings,
        at: checked.start,
        count: 0,
        first: None,
        first_knn: None,
    };
    if checked.nodes <= verdicts.len() {
        walk.conjunct(verdicts);
        return Ok(walk.answer());
    }
    let mut own = [0; MAX_NODES];
    walk.conjunct(&mut own);
    let written = verdicts.get_mut(..walk.count).ok_or(9)?;
    written.copy_from_slice(&own[..walk.count]);
    Ok(walk.answer())
}

struct Walk<'a> {
    frame: &'a [u8],
    settings: Settings,
    at: usize,
    /// So many conjuncts were read.
    count: usize,
    /// Line and position of the first match, and of the first KNN.
    first: Option<u64>,
    first_knn: Option<u64>,
}

impl Walk<'_> {
    fn conjunct(&mut self, verdicts: &mut [u8]) {
        let start = self.at;
        if self.frame[start] == BINARY && self.frame[start + 1] == operator::AND {
            self.at += 2;
            self.conjunct(verdicts);
            return self.conjunct(verdicts);
        }
        let verdict = self.verdict(start);
        let bill = u64::from(verdict) << 16 | self.count as u64;
        if verdict <= KNN {
            self.first.get_or_insert(bill);
        }
        if verdict == KNN {
            self.first_knn.get_or_insert(bill);
        }
        verdicts[self.count] = verdict;
        self.count += 1;
        self.at = nodes::end(self.frame, start, |_| ());
    }

    fn answer(&self) -> u64 {
        let taken = self.first_knn.or(self.first);
        taken.unwrap_or(0) << 16 | self.count as u64
    }

    fn verdict(&self, leaf: usize) -> u8 {
        match self.frame[leaf] {
            FUNCTION => {
                let (name, count, at) = nodes::function(self.frame, leaf);
                match line(name) {
                    Some(line) => self.call(line, count, at),
                    None => self.of_no_line(leaf),
                }
            }
            BINARY => match self.looked_at(leaf) {
                Some([call, bound]) if self.is_call(call, b"st_distance") => {
                    let (_, _, at) = nodes::function(self.frame, call);
                    self.distance(at, Some(bound))
                }
                _ => self.of_no_line(leaf),
            },
            _ => self.of_no_line(leaf),
        }
    }

    /// The side of a comparison that is looked at, and the other.
    fn looked_at(&self, leaf: usize) -> Option<[usize; 2]> {
        let left = leaf + 2;
        let right = || nodes::end(self.frame, left, |_| ());
        match (self.frame[leaf], self.frame[leaf + 1]) {
            (BINARY, operator::LT | operator::LT_EQ) => Some([left, right()]),
            (BINARY, operator::GT | operator::GT_EQ) => Some([right(), left]),
            _ => None,
        }
    }

    fn is_call(&self, at: usize, wanted: &[u8]) -> bool {
        self.frame[at] == FUNCTION && nodes::function(self.frame, at).0 == wanted
    }

    /// Letter case aside.
    fn is_distance(&self, at: usize) -> bool {
        let name = || nodes::function(self.frame, at).0;
        self.frame[at] == FUNCTION && name().eq_ignore_ascii_case(b"st_distance")
    }

    /// It would be meant for a line in small letters.
    fn is_ours(&self, at: usize) -> bool {
        match self.frame[at] {
            FUNCTION => {
                let (name, ..) = nodes::function(self.frame, at);
                let mut small = [0; 32];
                let small = &mut small[..name.len()];
                small.copy_from_slice(name);
                small.make_ascii_lowercase();
                line(small).is_some()
            }
            _ => self
                .looked_at(at)
                .is_some_and(|[looked_at, _]| self.is_distance(looked_at)),
        }
    }

    fn of_no_line(&self, leaf: usize) -> u8 {
        if self.is_ours(leaf) {
            return 0x20;
        }
        if self.frame[leaf] == BINARY {
            match self.looked_at(leaf) {
                Some([_, bound]) if self.is_distance(bound) => return 0x21,
                None if self.below(leaf, |at| self.is_distance(at)) => return 0x22,
                _ => (),
            }
        }
        match self.below(leaf, |at| self.is_ours(at)) {
            true => 0x23,
            false => 0x24,
        }
    }

    /// Whether one of those that stand directly below is such.
    fn below(&self, leaf: usize, such: impl Fn(usize) -> bool) -> bool {
        let (mut at, count) = match self.frame[leaf] {
            COLUMN | LITERAL => return false,
            BINARY => (leaf + 2, 2),
            FUNCTION => {
                let (_, count, at) = nodes::function(self.frame, leaf);
                (at, count)
            }
            _ => (leaf + 4, self.frame[leaf + 3]),
        };
        for _ in 0..count {
            if such(at) {
                return true;
            }
            at = nodes::end(self.frame, at, |_| ());
        }
        false
    }

    fn call(&self, line: u8, count: u8, at: usize) -> u8 {
        match line {
            RELATION if self.allows(0) => self.geometries(at).err().unwrap_or(RELATION),
            DISTANCE => self.distance(at, None),
            KNN if self.allows(2) => self.knn(count, at),
            _ => 0x30,
        }
    }

    fn allows(&self, bit: u8) -> bool {
        self.settings.kinds.bits() & 1 << bit != 0
    }

    /// Where it ends; a bit for each side of its columns.
    fn sides(&self, start: usize) -> (usize, u8) {
        let mut sides = 0;
        let end = nodes::end(self.frame, start, |index| {
            sides |= 1 << self.frame[3 + 5 * usize::from(index)];
        });
        (end, sides)
    }

    /// Where the two end that start here, or why they are none that can be indexed.
    fn geometries(&self, start: usize) -> Result<usize, u8> {
        let (second, first) = self.sides(start);
        one_geometry(first, 0x50)?;
        let (end, second) = self.sides(second);
        one_geometry(second, 0x53)?;
        match (first, second) {
            (1, 1) => Err(0x56),
            (2, 2) => Err(0x57),
            _ => Ok(end),
        }
    }

    /// The bound stands after the geometries where it stands nowhere else.
    fn distance(&self, start: usize, bound: Option<usize>) -> u8 {
        if !self.allows(1) {
            return 0x30;
        }
        let end = match self.geometries(start) {
            Ok(end) => end,
            Err(reason) => return reason,
        };
        match self.sides(bound.unwrap_or(end)).1 {
            sides if sides & 3 == 3 => 0x60,
            sides if sides & 4 != 0 => 0x61,
            _ => DISTANCE,
        }
    }

    fn knn(&self, count: u8, start: usize) -> u8 {
        match count {
            0 | 1 => return 0x40,
            6.. => return 0x41,
            _ => (),
        }
        let end = match self.geometries(start) {
            Ok(end) => end,
            Err(reason) => return reason,
        };
        let given = |place: u8| (place < count).then(|| end + 10 * usize::from(place - 2));
        let reason = given(2).and_then(|at| self.no_k(at));
        let reason = reason.or_else(|| given(3).and_then(|at| self.no_flag(at, 0x73)));
        let reason = reason.or_else(|| given(4).and_then(|at| self.no_flag(at, 0x74)));
        reason.unwrap_or(KNN)
    }

    /// A literal is ten bytes, so what stands after one that is good starts ten bytes later.
    fn no_k(&self, at: usize) -> Option<u8> {
        let kind = self.frame[at + 1];
        if self.frame[at] != LITERAL || !(literal::INT32..=literal::UINT64).contains(&kind) {
            return Some(0x70);
        }
        let value = u64::from_be_bytes(*self.frame[at + 2..].first_chunk()?);
        let negative = kind <= literal::INT64 && value >> 63 == 1;
        match value {
            0 => Some(0x71),
            _ if negative => Some(0x71),
            _ => (value > u64::from(self.settings.greatest_k)).then_some(0x72),
        }
    }

    fn no_flag(&self, at: usize, reason: u8) -> Option<u8> {
        let is_flag = self.frame[at] == LITERAL && self.frame[at + 1] == literal::BOOLEAN;
        (!is_flag).then_some(reason)
    }
}

/// Its columns are of one child; else why not, numbered from the first reason.
fn one_geometry(sides: u8, first_reason: u8) -> Result<(), u8> {
    match sides {
        0 => Err(first_reason),
        _ if sides & 3 == 3 => Err(first_reason + 1),
        _ if sides & 4 != 0 => Err(first_reason + 2),
        _ => Ok(()),
    }
}

/// What a function of this name is meant for.
fn line(name: &[u8]) -> Option<u8> {
    match name {
        b"st_knn" => Some(KNN),
        b"st_dwithin" => Some(DISTANCE),
        _ => relation(name).map(|_| RELATION),
    }
}
