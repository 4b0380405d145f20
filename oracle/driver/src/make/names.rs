//! Function names, good and nearly good.

use crate::rng::Rng;

pub const RELATIONS: [&str; 13] = [
    "st_intersects",
    "rs_intersects",
    "st_contains",
    "rs_contains",
    "st_within",
    "rs_within",
    "st_covers",
    "st_coveredby",
    "st_covered_by",
    "st_touches",
    "st_crosses",
    "st_overlaps",
    "st_equals",
];

/// Names that are no relation but are looked for somewhere.
pub const SPECIAL: [&str; 3] = ["st_knn", "st_dwithin", "st_distance"];

/// Names that mean nothing to the planner.
const PLAIN: [&str; 6] = ["f", "st_buffer", "st_transform", "abs", "st_disjoint", "st"];

/// Any name that is looked for.
pub fn known(rng: &mut Rng) -> &'static str {
    if rng.one_in(4) {
        rng.pick(&SPECIAL)
    } else {
        rng.pick(&RELATIONS)
    }
}

/// Mostly a plain name, at times one that would count elsewhere.
pub fn any(rng: &mut Rng) -> &'static str {
    if rng.one_in(3) {
        known(rng)
    } else {
        rng.pick(&PLAIN)
    }
}

/// A known name with one small change.
pub fn near(rng: &mut Rng) -> Vec<u8> {
    let mut name = known(rng).as_bytes().to_vec();
    let at = rng.below(name.len());
    match rng.below(9) {
        0 => name.make_ascii_uppercase(),
        1 => name[at].make_ascii_uppercase(),
        2 => name.insert(at, b'_'),
        3 => drop(name.remove(at)),
        4 => name.push(rng.pick(b"s_2 !")),
        5 => name.splice(..2, *b"rs").for_each(drop),
        6 => name.splice(..3, []).for_each(drop),
        7 => name[at] ^= 1,
        _ => drop(name.pop()),
    }
    name
}

/// The name with letters of either case.
pub fn mixed_case(name: &str, rng: &mut Rng) -> Vec<u8> {
    let mut name = name.as_bytes().to_vec();
    let bound = 1 + rng.below(3);
    for letter in &mut name {
        if rng.below(bound) > 0 {
            letter.make_ascii_uppercase();
        }
    }
    name
}
