//! Which conjunct is taken, and what the extraction says of it.

use std::ops::Range;

use reading::frame::{DISTANCE, KNN, RELATION, literal, operator};
use spatialjoin::{Kinds, Settings};

use super::nodes::{self, BINARY, FUNCTION, LITERAL};

pub const LEFT: u8 = 0;
pub const RIGHT: u8 = 1;
pub const NEITHER: u8 = 2;

/// The conjunct that is taken.
pub struct Taken {
    pub position: u16,
    pub leaf: Range<usize>,
    /// Where the And above it is, if it is not the whole filter.
    pub and: Option<usize>,
    pub predicate: Predicate,
}

/// What is written of it: the first byte, the fields after the position, and the expressions.
pub struct Predicate {
    pub first: u8,
    fields: [u8; 7],
    arguments: [Argument; 3],
}

impl Predicate {
    pub fn fields(&self) -> &[u8] {
        match self.first {
            RELATION => &self.fields[..1],
            DISTANCE => &self.fields[..2],
            _ => &self.fields,
        }
    }

    pub fn arguments(&self) -> &[Argument] {
        match self.first {
            DISTANCE => &self.arguments,
            _ => &self.arguments[..2],
        }
    }
}

/// An expression whose columns are all of one side.
#[derive(Clone, Copy)]
pub struct Argument {
    pub start: usize,
    pub end: usize,
    pub side: u8,
    /// Whether it has mark columns.
    marked: bool,
}

/// The first KNN match, else the first match; and how many And nodes and conjuncts were read.
pub fn pick(frame: &[u8], start: usize, settings: Settings) -> (Option<Taken>, u32) {
    let mut picker = Picker {
        frame,
        settings,
        at: start,
        position: 0,
        walk: 0,
        taken: None,
    };
    picker.conjunct(None);
    (picker.taken, picker.walk)
}

/// What a conjunct is, whatever was taken before.
pub fn matched_leaf(frame: &[u8], settings: Settings, leaf: usize) -> Option<Predicate> {
    let picker = Picker {
        frame,
        settings,
        at: leaf,
        position: 0,
        walk: 0,
        taken: None,
    };
    picker.matched(leaf)
}

struct Picker<'a> {
    frame: &'a [u8],
    settings: Settings,
    at: usize,
    /// Of the next leaf.
    position: u16,
    /// So many nodes were read.
    walk: u32,
    taken: Option<Taken>,
}

impl Picker<'_> {
    /// Whether a KNN match was met: no later one is wanted.
    fn conjunct(&mut self, and: Option<usize>) -> bool {
        let start = self.at;
        self.walk += 1;
        if self.frame[start] == BINARY && self.frame[start + 1] == operator::AND {
            self.at += 2;
            return self.conjunct(Some(start)) || self.conjunct(Some(start));
        }
        self.at = nodes::end(self.frame, start, |_| ());
        let position = self.position;
        self.position += 1;
        let Some(predicate) = self.matched(start) else {
            return false;
        };
        let is_knn = predicate.first == KNN;
        self.taken = Some(Taken {
            position,
            leaf: start..self.at,
            and,
            predicate,
        });
        is_knn
    }

    /// Once there is a match, only KNN calls are tried.
    fn matched(&self, leaf: usize) -> Option<Predicate> {
        let first = |kind| self.taken.is_none() && self.allows(kind);
        match self.frame[leaf] {
            BINARY if first(Kinds::DISTANCES) => self.comparison(leaf),
            FUNCTION => match nodes::function(self.frame, leaf) {
                (b"st_knn", count, at) if self.allows(Kinds::KNN) => self.knn(count, at),
                (b"st_dwithin", _, at) if first(Kinds::DISTANCES) => self.within(at),
                (name, _, at) if first(Kinds::RELATIONS) => self.relation(relation(name)?, at),
                _ => None,
            },
            _ => None,
        }
    }

    fn allows(&self, kind: Kinds) -> bool {
        self.settings.kinds.bits() & kind.bits() != 0
    }

    /// `None` where it has columns of two sides.
    fn argument(&self, start: usize) -> Option<Argument> {
        let mut sides = [false; 3];
        let end = nodes::end(self.frame, start, |index| {
            sides[usize::from(self.frame[3 + 5 * usize::from(index)])] = true;
        });
        let side = match sides {
            [true, false, false] => LEFT,
            [false, true, false] => RIGHT,
            [false, false, _] => NEITHER,
            _ => return None,
        };
        let marked = sides[usize::from(NEITHER)];
        Some(Argument {
            start,
            end,
            side,
            marked,
        })
    }

    /// One that a distance may have: of a child, or without columns.
    fn bound(&self, start: usize) -> Option<Argument> {
        self.argument(start).filter(|bound| !bound.marked)
    }

    /// The two that start here, if each child has one.
    fn geometries(&self, start: usize) -> Option<(Argument, Argument)> {
        let first = self.argument(start)?;
        let second = self.argument(first.end)?;
        let apart = [first.side, second.side] == [LEFT, RIGHT]
            || [first.side, second.side] == [RIGHT, LEFT];
        apart.then_some((first, second))
    }

    fn relation(&self, relation: u8, start: usize) -> Option<Predicate> {
        let (first, second) = self.geometries(start)?;
        let relation = match first.side {
            LEFT => relation,
            _ => inverse(relation),
        };
        let [left, right] = left_first(first, second);
        Some(Predicate {
            first: RELATION,
            fields: [relation, 0, 0, 0, 0, 0, 0],
            arguments: [left, right, right],
        })
    }

    fn within(&self, start: usize) -> Option<Predicate> {
        let (first, second) = self.geometries(start)?;
        let bound = self.bound(second.end)?;
        Some(distance(0, first, second, bound))
    }

    fn comparison(&self, leaf: usize) -> Option<Predicate> {
        let op = self.frame[leaf + 1];
        let left = leaf + 2;
        let right = || nodes::end(self.frame, left, |_| ());
        let (call, bound) = match op {
            operator::LT | operator::LT_EQ => (left, None),
            operator::GT | operator::GT_EQ => (right(), Some(left)),
            _ => return None,
        };
        if self.frame[call] != FUNCTION {
            return None;
        }
        let (b"st_distance", _, at) = nodes::function(self.frame, call) else {
            return None;
        };
        let (first, second) = self.geometries(at)?;
        let bound = self.bound(bound.unwrap_or_else(right))?;
        Some(distance(op, first, second, bound))
    }

    /// The query stays first, whichever child it is of.
    fn knn(&self, count: u8, start: usize) -> Option<Predicate> {
        if !(2..=5).contains(&count) {
            return None;
        }
        let (query, object) = self.geometries(start)?;
        let given = |place: u8| (place < count).then(|| object.end + 10 * usize::from(place - 2));
        let default_k = Some(self.settings.default_k);
        let k = given(2).map_or(default_k, |at| self.k(at))?;
        if k > self.settings.greatest_k {
            return None;
        }
        let spheroid = given(3).map_or(Some(0), |at| self.boolean(at))?;
        let ties = given(4).map_or(Some(2), |at| self.boolean(at))?;
        let [a, b, c, d] = k.to_be_bytes();
        Some(Predicate {
            first: KNN,
            fields: [a, b, c, d, spheroid, query.side, ties],
            arguments: [query, object, object],
        })
    }

    /// A literal's type and value. The one after it starts ten bytes later.
    fn literal(&self, at: usize) -> Option<(u8, u64)> {
        if self.frame[at] != LITERAL {
            return None;
        }
        let value = self.frame[at + 2..].first_chunk()?;
        Some((self.frame[at + 1], u64::from_be_bytes(*value)))
    }

    fn k(&self, at: usize) -> Option<u32> {
        match self.literal(at)? {
            // A negative one is too large for a u32.
            (literal::INT32..=literal::UINT64, value) => {
                u32::try_from(value).ok().filter(|k| *k > 0)
            }
            _ => None,
        }
    }

    fn boolean(&self, at: usize) -> Option<u8> {
        match self.literal(at)? {
            (literal::BOOLEAN, value) => Some(value as u8),
            _ => None,
        }
    }
}

fn distance(form: u8, first: Argument, second: Argument, bound: Argument) -> Predicate {
    let [left, right] = left_first(first, second);
    Predicate {
        first: DISTANCE,
        fields: [form, bound.side, 0, 0, 0, 0, 0],
        arguments: [left, right, bound],
    }
}

fn left_first(first: Argument, second: Argument) -> [Argument; 2] {
    match first.side {
        LEFT => [first, second],
        _ => [second, first],
    }
}

pub fn relation(name: &[u8]) -> Option<u8> {
    match name {
        b"st_intersects" | b"rs_intersects" => Some(0),
        b"st_contains" | b"rs_contains" => Some(1),
        b"st_within" | b"rs_within" => Some(2),
        b"st_covers" => Some(3),
        b"st_coveredby" | b"st_covered_by" => Some(4),
        b"st_touches" => Some(5),
        b"st_crosses" => Some(6),
        b"st_overlaps" => Some(7),
        b"st_equals" => Some(8),
        _ => None,
    }
}

/// Contains and within change places, and covers and covered by.
fn inverse(relation: u8) -> u8 {
    match relation {
        1 => 2,
        2 => 1,
        3 => 4,
        4 => 3,
        symmetric => symmetric,
    }
}
