//! Request 14 of document 02: all indexable conjuncts of a frame.

mod common;

use common::{and, call, frame, frame_of, left, literal, other, record, right};
use reading::calls::{All, extract_all};
use reading::conjuncts::conjuncts;
use reading::decode;
use reading::encode;
use reading::frame::{Expr, Frame, Plan, Predicate, Side, literal as types};
use reading::physical;
use reading::refusal::Refusal;
use reading::settings::Settings;

const PROGRAM: Settings = Settings::OF_THE_PROGRAM;

fn within() -> Expr {
    call("st_within", vec![left(), right()])
}

fn nearest(k: u32) -> Expr {
    let k = literal(types::UINT32, k.into());
    call("st_knn", vec![left(), right(), k])
}

fn plain() -> Expr {
    call("f", vec![left()])
}

fn read(bytes: &[u8]) -> Frame {
    decode::physical(bytes).unwrap()
}

/// The first byte and the position of each predicate, and the bytes of the last remainder.
fn taken(bytes: &[u8], settings: Settings) -> (Vec<(u8, u16)>, Option<Vec<u8>>) {
    let all = conjuncts(&read(bytes), settings);
    let first = |predicate: &Predicate| match predicate {
        Predicate::Relation { .. } => 0x11,
        Predicate::Distance { .. } => 0x12,
        Predicate::Knn { .. } => 0x13,
    };
    let line = |(position, predicate): &(u16, Predicate)| (first(predicate), *position);
    let rest = all.rest.as_ref().map(encode::physical);
    (all.taken.iter().map(line).collect(), rest)
}

/// With a buffer of this length that holds sevens.
fn written(bytes: &[u8], room: usize, settings: Settings) -> (Result<All, Refusal>, Vec<u8>) {
    let mut out = vec![7; room];
    (extract_all(bytes, &mut out, settings), out)
}

#[test]
fn knn_conjuncts_come_first_each_in_their_order() {
    let bytes = frame(and(
        and(within(), nearest(1)),
        and(plain(), and(within(), nearest(2))),
    ));
    let (found, rest) = taken(&bytes, PROGRAM);
    assert_eq!(found, [(0x13, 1), (0x13, 4), (0x11, 0), (0x11, 3)]);
    // Column 1 is not referenced any more.
    assert_eq!(rest, Some(frame_of(vec![record(Side::Left, 5)], plain())));
}

#[test]
fn where_all_match_nothing_is_left() {
    assert_eq!(taken(&frame(within()), PROGRAM), (vec![(0x11, 0)], None));
    let (found, rest) = taken(&frame(and(within(), and(within(), within()))), PROGRAM);
    assert_eq!(found, [(0x11, 0), (0x11, 1), (0x11, 2)]);
    assert_eq!(rest, None);
}

/// Unpruned: its two records stay though no column is referenced.
#[test]
fn without_a_match_the_frame_itself_is_left() {
    for filter in [plain(), other(vec![]), and(plain(), plain())] {
        let bytes = frame(filter);
        assert_eq!(taken(&bytes, PROGRAM), (vec![], Some(bytes.clone())));
        let (answer, out) = written(&bytes, bytes.len(), PROGRAM);
        let length = bytes.len();
        assert_eq!(answer, Ok(All { rounds: 0, length }));
        assert_eq!(out, bytes);
    }
}

#[test]
fn settings_say_what_matches() {
    let bytes = frame(and(and(nearest(9), within()), and(nearest(2), within())));
    let under = |kinds, greatest_k| {
        let settings = Settings {
            kinds,
            default_k: 1,
            greatest_k,
        };
        taken(&bytes, settings).0
    };
    assert_eq!(under(7, 9), [(0x13, 0), (0x13, 2), (0x11, 1), (0x11, 3)]);
    assert_eq!(under(7, 8), [(0x13, 2), (0x11, 1), (0x11, 3)]);
    assert_eq!(under(1, 9), [(0x11, 1), (0x11, 3)]);
    assert_eq!(under(4, 2), [(0x13, 2)]);
    assert_eq!(under(2, 9), []);
}

/// One after another without a `00` between them, then `00`; the bytes after it stay.
#[test]
fn the_bytes_are_those_of_the_predicates() {
    let filter = and(within(), nearest(1));
    let bytes = frame(filter);
    let (answer, out) = written(&bytes, bytes.len() + 3, PROGRAM);
    let knn = [
        0x13, 0, 1, 0, 0, 0, 1, 0, 0, 2, 0, 0, 5, 0, 8, 0, 0, 6, 0, 7,
    ];
    let relation = [0x11, 0, 0, 2, 0, 0, 5, 0, 8, 0, 0, 6, 0, 7];
    let expected = [&knn[..], &relation, &[0]].concat();
    let (rounds, length) = (2, expected.len());
    assert_eq!(answer, Ok(All { rounds, length }));
    assert_eq!(out[..length], expected);
    assert_eq!(out[length..], vec![7; bytes.len() + 3 - length]);
}

/// What extract gives is what the first round gives.
#[test]
fn the_first_predicate_is_extracts() {
    for filter in [
        within(),
        and(plain(), within()),
        and(within(), and(nearest(3), within())),
    ] {
        let bytes = frame(filter);
        let extraction = physical::extract(&read(&bytes), PROGRAM).unwrap();
        let (_, out) = written(&bytes, bytes.len(), PROGRAM);
        let plan = encode::plan(&Plan::Extraction(extraction.clone()));
        let rest = extraction
            .remainder
            .map_or(1, |rest| encode::physical(&rest).len());
        let head = plan.len() - rest;
        assert_eq!(out[..head], plan[..head]);
    }
}

#[test]
fn nine_comes_where_a_byte_is_missing_and_nothing_is_written() {
    for filter in [within(), plain(), and(within(), and(plain(), nearest(1)))] {
        let bytes = frame(filter);
        let (answer, _) = written(&bytes, bytes.len(), PROGRAM);
        let length = answer.unwrap().length;
        for room in 0..length {
            let (answer, out) = written(&bytes, room, PROGRAM);
            assert_eq!(answer, Err(Refusal::NoRoom));
            assert_eq!(out, vec![7; room]);
        }
        assert_eq!(written(&bytes, length, PROGRAM).0, answer);
    }
}

#[test]
fn the_checks_are_24_then_those_of_the_frame_then_9() {
    let bad = Settings {
        kinds: 0,
        ..PROGRAM
    };
    let good = frame(within());
    let number = |bytes: &[u8], room, settings| written(bytes, room, settings).0.unwrap_err();
    for bytes in [&[][..], &[2], &good[..9], &good] {
        assert_eq!(number(bytes, 0, bad), Refusal::BadSettings);
    }
    assert_eq!(number(&[], 0, PROGRAM), Refusal::FrameLength);
    assert_eq!(number(&[2], 0, PROGRAM), Refusal::FirstByte);
    assert_eq!(number(&good[..9], 0, PROGRAM), Refusal::Ends);
    let few = frame(call("st_within", vec![left()]));
    assert_eq!(number(&few, 0, PROGRAM), Refusal::Arity);
    assert_eq!(number(&good, 0, PROGRAM), Refusal::NoRoom);
}
