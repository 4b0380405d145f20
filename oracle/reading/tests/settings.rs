//! Request 13 of document 02: the kinds allowed, the default k and the greatest k.

mod common;

use common::{and, call, frame, left, literal, other, right};
use reading::calls::{exchange, extract, walk};
use reading::decode;
use reading::encode;
use reading::frame::{Expr, Extraction, Frame, Plan, Predicate, literal as types};
use reading::nodes::table;
use reading::physical;
use reading::program::hex;
use reading::refusal::Refusal;
use reading::settings::Settings;
use reading::walk::length;

const MOST: u32 = u32::MAX;
const ALL: u8 = 7;

fn settings(kinds: u8, default_k: u32, greatest_k: u32) -> Settings {
    Settings {
        kinds,
        default_k,
        greatest_k,
    }
}

fn relation() -> Expr {
    call("st_within", vec![left(), right()])
}

fn distance() -> Expr {
    call("st_dwithin", vec![left(), right(), other(vec![])])
}

fn nearest(k: Option<u32>) -> Expr {
    let number = k.map(|k| literal(types::UINT32, k.into()));
    let args = [left(), right()].into_iter().chain(number).collect();
    call("st_knn", args)
}

fn read(expr: Expr) -> Frame {
    decode::physical(&frame(expr)).unwrap()
}

/// What is taken under these settings: the first byte, the position, and the k of a KNN.
fn taken(expr: Expr, settings: Settings) -> Option<(u8, u16, Option<u32>)> {
    let extraction = physical::extract(&read(expr), settings)?;
    let k = match extraction.predicate {
        Predicate::Knn { k, .. } => Some(k),
        _ => None,
    };
    let position = extraction.position;
    Some((encode::plan(&Plan::Extraction(extraction))[0], position, k))
}

#[test]
fn a_kind_not_allowed_does_not_match() {
    for kinds in 1..=7 {
        let allowed = settings(kinds, 1, MOST);
        let line = |expr| taken(expr, allowed).map(|(first, ..)| first);
        assert_eq!(line(relation()), (kinds & 1 != 0).then_some(0x11));
        assert_eq!(line(distance()), (kinds & 2 != 0).then_some(0x12));
        assert_eq!(line(nearest(None)), (kinds & 4 != 0).then_some(0x13));
        assert_eq!(line(nearest(Some(3))), (kinds & 4 != 0).then_some(0x13));
    }
}

#[test]
fn the_next_leaf_that_is_allowed_is_taken() {
    let all = || and(and(distance(), nearest(Some(9))), relation());
    let line = |kinds, greatest| taken(all(), settings(kinds, 1, greatest));
    assert_eq!(line(ALL, MOST), Some((0x13, 1, Some(9))));
    assert_eq!(line(ALL, 9), Some((0x13, 1, Some(9))));
    assert_eq!(line(ALL, 8), Some((0x12, 0, None)));
    assert_eq!(line(1, MOST), Some((0x11, 2, None)));
    assert_eq!(line(2, MOST), Some((0x12, 0, None)));
    assert_eq!(line(5, 8), Some((0x11, 2, None)));
    assert_eq!(line(4, 8), None);
}

#[test]
fn the_call_that_is_not_allowed_stays_in_the_remainder() {
    let filter = and(nearest(Some(9)), relation());
    let Extraction { remainder, .. } =
        physical::extract(&read(filter), settings(ALL, 1, 8)).unwrap();
    assert_eq!(
        encode::physical(&remainder.unwrap()),
        frame(nearest(Some(9)))
    );
}

#[test]
fn two_arguments_take_the_default_and_others_their_own() {
    for (default_k, greatest_k) in [(1, 1), (5, 7), (7, 7), (MOST, MOST)] {
        let allowed = settings(ALL, default_k, greatest_k);
        let line = taken(nearest(None), allowed);
        assert_eq!(line, Some((0x13, 0, Some(default_k))));
        let line = taken(nearest(Some(1)), allowed);
        assert_eq!(line, Some((0x13, 0, Some(1))));
        let line = taken(nearest(Some(greatest_k)), allowed);
        assert_eq!(line, Some((0x13, 0, Some(greatest_k))));
    }
    assert_eq!(taken(nearest(Some(8)), settings(ALL, 7, 7)), None);
    assert_eq!(taken(nearest(Some(0)), settings(ALL, 7, 7)), None);
}

#[test]
fn the_walk_is_up_to_the_first_knn_that_matches_under_them() {
    let filter = || read(and(nearest(Some(9)), and(nearest(Some(2)), relation())));
    assert_eq!(length(&filter(), settings(ALL, 1, MOST)), 2);
    assert_eq!(length(&filter(), settings(ALL, 1, 8)), 4);
    assert_eq!(length(&filter(), settings(ALL, 1, 1)), 5);
    assert_eq!(length(&filter(), settings(3, 1, MOST)), 5);
    assert_eq!(length(&filter(), settings(4, 1, 9)), 2);
}

/// Of a plan, an n, scratch of this length and no table: 24 whatever else is wrong.
#[test]
fn bad_settings_get_24_before_every_other_check() {
    let held = frame(and(nearest(None), relation()));
    let nodes = table(&decode::physical(&held).unwrap());
    let extraction = physical::extract(&read(nearest(None)), Settings::OF_THE_PROGRAM).unwrap();
    let extracted = encode::plan(&Plan::Extraction(extraction));
    let bad = [
        settings(0, 1, MOST),
        settings(8, 1, MOST),
        settings(9, 1, 1),
        settings(255, 1, 1),
        settings(ALL, 0, MOST),
        settings(ALL, 0, 0),
        settings(1, 2, 1),
        settings(ALL, MOST, MOST - 1),
    ];
    for settings in bad {
        assert!(settings.get_24());
        for (plan, n, room) in [
            (&held, held.len(), held.len()),
            (&held, held.len(), 0),
            (&held, held.len() - 1, 0),
            (&held, held.len() + 1, 0),
            (&held, 0, 0),
            (&extracted, extracted.len(), 0),
        ] {
            let (mut plan, mut scratch) = (plan.clone(), vec![7; room]);
            let before = (plan.clone(), scratch.clone());
            assert_eq!(walk(n, &plan, &scratch, &nodes, settings), 0);
            let answer = extract(&mut { n }, &mut plan, &mut scratch, &nodes, settings);
            assert_eq!(answer, Err(Refusal::BadSettings));
            assert_eq!((plan, scratch), before);
        }
    }
    assert_eq!(Refusal::BadSettings.number(), 24);
}

#[test]
fn the_ends_of_the_ranges_are_good() {
    for good in [
        settings(1, 1, 1),
        settings(7, 1, 1),
        settings(7, MOST, MOST),
        settings(4, MOST - 1, MOST),
        Settings::OF_THE_PROGRAM,
    ] {
        assert!(!good.get_24());
    }
    assert_eq!(Settings::OF_THE_PROGRAM, settings(7, 1, 4_294_967_295));
}

/// Settings concern matching: what is held is good under any.
#[test]
fn an_extraction_that_is_not_allowed_is_held() {
    let extraction = physical::extract(&read(nearest(Some(9))), Settings::OF_THE_PROGRAM).unwrap();
    let mut plan = encode::plan(&Plan::Extraction(extraction));
    let (mut n, mut scratch) = (plan.len(), vec![0; plan.len()]);
    let narrow = settings(1, 1, 8);
    let answer = extract(&mut n, &mut plan, &mut scratch, &[], narrow);
    assert_eq!(answer, Err(Refusal::Extracted));
    assert_eq!(exchange(&mut n, &mut plan, &mut scratch), Ok(n));
}

/// As the program answers: two arguments have a k of 1, and the greatest k that there is matches.
#[test]
fn the_program_gives_the_defaults() {
    let line = |expr| {
        let load = String::from_utf8(hex(&frame(expr))).unwrap();
        common::answers(&[&load, "21"]).remove(1)
    };
    assert!(line(nearest(None)).starts_with("0013000000000001"));
    assert!(line(nearest(Some(MOST))).starts_with("00130000ffffffff"));
    assert!(line(relation()).starts_with("0011"));
    assert!(line(distance()).starts_with("0012"));
}
