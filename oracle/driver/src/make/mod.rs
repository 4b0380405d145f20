//! Makes cases: lines for the program, of many classes, from a seed.

pub mod damage;
pub mod extractions;
mod filter;
mod limits;
pub mod lists;
mod literals;
mod logical;
mod names;
pub mod pairs;
mod physical;
pub mod reasons;

use reading::decode;
use reading::program::{hex, parse};

use crate::rng::Rng;

pub struct Class {
    pub name: &'static str,
    weight: usize,
    lines: fn(&mut Rng) -> Vec<Vec<u8>>,
}

pub const CLASSES: [Class; 19] = [
    class("relation", 12, |rng| loaded(rng, physical::relation)),
    class("distance", 12, |rng| loaded(rng, physical::distance)),
    class("knn", 14, |rng| loaded(rng, physical::knn)),
    class("conjunctions", 12, |rng| {
        loaded(rng, physical::conjunctions)
    }),
    class("large filters", 1, |rng| loaded(rng, physical::large)),
    class("mark columns", 6, |rng| loaded(rng, physical::mark_columns)),
    class("equal records", 6, |rng| {
        loaded(rng, physical::equal_records)
    }),
    class("mixed sides", 5, |rng| loaded(rng, physical::mixed_sides)),
    class("dropped arguments", 5, |rng| {
        loaded(rng, physical::dropped_arguments)
    }),
    class("near names", 5, |rng| loaded(rng, physical::near_names)),
    class(LIMITS, 3, limit_lines),
    class("logical names", 4, |rng| {
        beside(rng, logical::predicate_names)
    }),
    class("logical comparisons", 2, |rng| {
        beside(rng, logical::comparisons)
    }),
    class("logical query side", 4, |rng| {
        beside(rng, logical::query_side)
    }),
    class("damaged", 10, damaged_lines),
    class("likely bytes", 4, |rng| loaded(rng, damage::likely_bytes)),
    class("call lists", 4, call_list_lines),
    class("wide tables", 2, |rng| loaded(rng, physical::wide_tables)),
    class("mark bounds", 6, |rng| loaded(rng, physical::mark_bounds)),
];

pub const LIMITS: &str = "limits";

/// Lines before any load; they stand at the start of each run of the program.
pub const FRESH: &str = "fresh plan";

const fn class(name: &'static str, weight: usize, lines: fn(&mut Rng) -> Vec<Vec<u8>>) -> Class {
    Class {
        name,
        weight,
        lines,
    }
}

/// Lines whose answers depend on no line before them.
#[derive(Clone)]
pub struct Case {
    pub class: &'static str,
    pub lines: Vec<Vec<u8>>,
}

/// The case of a frame's number.
pub fn case(seed: u64, number: u64) -> Case {
    let mut rng = Rng::new(seed, number);
    let total = CLASSES.iter().map(|class| class.weight).sum();
    let mut place = rng.below(total);
    for class in &CLASSES {
        if place < class.weight {
            return case_of(class, &mut rng);
        }
        place -= class.weight;
    }
    panic!("the place is below the total");
}

/// A case that does not begin with an accepted load has one put before it.
pub fn case_of(class: &Class, rng: &mut Rng) -> Case {
    let lines = (class.lines)(rng);
    started(class.name, lines, rng)
}

fn started(class: &'static str, mut lines: Vec<Vec<u8>>, rng: &mut Rng) -> Case {
    let accepted = |line: &Vec<u8>| parse(line).is_ok_and(|frame| decode::physical(&frame).is_ok());
    if !lines.first().is_some_and(accepted) {
        lines.insert(0, hex(&physical::small(rng)));
    }
    Case { class, lines }
}

/// Every line of the limits, once.
pub fn limit_cases(seed: u64) -> impl Iterator<Item = Case> {
    (0..limits::count()).map(move |place| {
        let mut rng = Rng::new(seed, place as u64);
        let line = limits::line(&mut rng, place);
        started(LIMITS, followed(line, SHORT_LIST), &mut rng)
    })
}

/// Both calls and every odd line, on a plan that was never loaded.
pub fn all_odd_lines() -> Case {
    let lines = ["21", "22"].into_iter().chain(ODD_LINES);
    Case {
        class: FRESH,
        lines: lines.map(|line| line.as_bytes().to_vec()).collect(),
    }
}

/// Calls on a plan that was never loaded.
pub fn fresh_case(seed: u64, number: u64) -> Case {
    let mut rng = Rng::new(seed, number);
    let lines = (0..rng.below(5))
        .map(|_| match rng.below(4) {
            0 => odd_line(&mut rng),
            1 => hex(&logical::query_side(&mut rng)),
            _ => call(&mut rng),
        })
        .collect();
    Case {
        class: FRESH,
        lines,
    }
}

const SHORT_LIST: &[&str] = &["21", "22"];

const CALL_LISTS: [&[&str]; 10] = [
    &[],
    &["21"],
    &["22"],
    &["21", "22"],
    &["22", "21"],
    &["21", "22", "21", "22"],
    &["22", "21", "22", "21"],
    &["22", "22", "21"],
    &["21", "21", "22", "22"],
    &["22", "21", "22", "22", "21"],
];

fn followed(line: Vec<u8>, calls: &[&str]) -> Vec<Vec<u8>> {
    let mut lines = vec![line];
    lines.extend(calls.iter().map(|call| call.as_bytes().to_vec()));
    lines
}

fn loaded(rng: &mut Rng, frame: fn(&mut Rng) -> Vec<u8>) -> Vec<Vec<u8>> {
    let line = hex(&frame(rng));
    followed(line, rng.pick(&CALL_LISTS))
}

/// Logical frames go beside the plan and leave it alone.
fn beside(rng: &mut Rng, frame: fn(&mut Rng) -> Vec<u8>) -> Vec<Vec<u8>> {
    let line = hex(&frame(rng));
    followed(line, rng.pick(&[&[][..], &["21"], &["22"]]))
}

fn limit_lines(rng: &mut Rng) -> Vec<Vec<u8>> {
    let place = rng.below(limits::count());
    followed(limits::line(rng, place), SHORT_LIST)
}

/// A load and a longer list of calls, some of them refused.
fn call_list_lines(rng: &mut Rng) -> Vec<Vec<u8>> {
    let frame = match rng.below(2) {
        0 => physical::small(rng),
        _ => physical::conjunctions(rng),
    };
    let mut lines = vec![hex(&frame)];
    for _ in 0..1 + rng.below(12) {
        let line = match rng.below(5) {
            0 => odd_line(rng),
            _ => call(rng),
        };
        lines.push(line);
    }
    lines
}

fn damaged_lines(rng: &mut Rng) -> Vec<Vec<u8>> {
    const GOOD: [fn(&mut Rng) -> Vec<u8>; 7] = [
        physical::relation,
        physical::distance,
        physical::knn,
        physical::near_names,
        physical::small,
        logical::predicate_names,
        logical::query_side,
    ];
    let good = rng.pick(&GOOD);
    let mut frame = good(rng);
    damage::damage(rng, &mut frame);
    followed(hex(&frame), rng.pick(&CALL_LISTS))
}

fn call(rng: &mut Rng) -> Vec<u8> {
    rng.pick(&[b"21", b"22"]).to_vec()
}

/// Lines that are refused before any plan is looked at.
const ODD_LINES: [&str; 30] = [
    "", "2100", "2200", "2121", "22ff", "2", "0", "212", "00", "03", "20", "23", "11", "ff", "zz",
    "2/", "2:", "2@", "2`", "2g", "2\x01", "\u{e9}", "AB", "0A", "21 ", " 21", "21\r", "2\t",
    "0102", "02",
];

fn odd_line(rng: &mut Rng) -> Vec<u8> {
    rng.pick(&ODD_LINES).as_bytes().to_vec()
}
