//! All indexable conjuncts of a frame, and the reader of what is written.

mod common;

use common::{LEFT, RECORDS, RIGHT, call, extract, levels, loaded};
use spatialjoin::{AllExtracted, Conjunct, Conjuncts, Kind, Kinds, Refusal, Settings};
use spatialjoin::{extract_all, numbers};

const AND: &[u8] = b"\x02\0";
const FIVE: &[u8] = b"\x01\x04\0\0\0\0\0\0\0\x05";

fn frame(filter: &[&[u8]]) -> Vec<u8> {
    [RECORDS, &filter.concat()].concat()
}

fn within() -> Vec<u8> {
    [&call("st_within", 2), LEFT, RIGHT].concat()
}

fn nearest() -> Vec<u8> {
    [&call("st_knn", 3), LEFT, RIGHT, FIVE].concat()
}

fn dwithin() -> Vec<u8> {
    [&call("st_dwithin", 3), LEFT, RIGHT, FIVE].concat()
}

fn plain() -> Vec<u8> {
    [&call("f", 1), LEFT].concat()
}

/// What is written for a good frame, and the rounds, with an output as long as the frame.
fn written(frame: &[u8], settings: Settings) -> (Vec<u8>, u32) {
    let mut out = vec![7; frame.len()];
    let AllExtracted { length, rounds } = extract_all(frame, &mut out, settings).unwrap();
    assert_eq!(out[length..], vec![7; frame.len() - length]);
    out.truncate(length);
    (out, rounds)
}

/// Kinds and positions, and what is left.
fn listed(frame: &[u8], settings: Settings) -> (Vec<(Kind, u16)>, Option<Vec<u8>>) {
    let (bytes, rounds) = written(frame, settings);
    let conjuncts = Conjuncts::of(&bytes);
    assert_eq!(conjuncts.clone().count(), rounds as usize);
    let line = |conjunct: Conjunct| (conjunct.kind, conjunct.position);
    let left = conjuncts.clone().remainder().map(<[u8]>::to_vec);
    (conjuncts.map(line).collect(), left)
}

#[test]
fn every_match_once_and_knn_first() {
    let all = frame(&[
        AND,
        AND,
        &within(),
        &nearest(),
        AND,
        &plain(),
        AND,
        &dwithin(),
        &nearest(),
    ]);
    let (found, left) = listed(&all, Settings::default());
    let expected = [
        (Kind::Knn, 1),
        (Kind::Knn, 4),
        (Kind::Relation, 0),
        (Kind::Distance, 3),
    ];
    assert_eq!(found, expected);
    // The record of column 1, which is not referenced any more, is gone.
    assert_eq!(left, Some([b"\x01\0\x01\0\0\0\0\0", &plain()[..]].concat()));
    let (found, left) = listed(&frame(&[AND, &within(), &nearest()]), Settings::default());
    assert_eq!(found, [(Kind::Knn, 1), (Kind::Relation, 0)]);
    assert_eq!(left, None);
}

#[test]
fn without_a_match_the_frame_is_left() {
    let filter = frame(&[AND, &plain(), &plain()]);
    assert_eq!(
        listed(&filter, Settings::default()),
        (vec![], Some(filter.clone()))
    );
    let none = Settings {
        kinds: Kinds::DISTANCES,
        ..Settings::default()
    };
    let filter = frame(&[&within()]);
    assert_eq!(listed(&filter, none), (vec![], Some(filter.clone())));
}

#[test]
fn settings_say_what_matches() {
    let filter = frame(&[AND, AND, &nearest(), &within(), &dwithin()]);
    let under = |kinds, greatest_k| {
        let settings = Settings {
            kinds,
            default_k: 1,
            greatest_k,
        };
        listed(&filter, settings).0
    };
    let (relation, distance, knn) = ((Kind::Relation, 1), (Kind::Distance, 2), (Kind::Knn, 0));
    assert_eq!(under(Kinds::ALL, 5), [knn, relation, distance]);
    assert_eq!(under(Kinds::ALL, 4), [relation, distance]);
    assert_eq!(under(Kinds::KNN, 5), [knn]);
    assert_eq!(under(Kinds::DISTANCES | Kinds::KNN, 4), [distance]);
}

/// Each predicate with a `00` after it is an extraction; the first one is extract's.
#[test]
fn the_bytes_are_those_of_extractions() {
    let filter = frame(&[AND, AND, &plain(), &dwithin(), AND, &nearest(), &within()]);
    let (bytes, _) = written(&filter, Settings::default());
    let conjuncts: Vec<Conjunct> = Conjuncts::of(&bytes).collect();
    let total: usize = conjuncts.iter().map(|conjunct| conjunct.bytes.len()).sum();
    let left = Conjuncts::of(&bytes).remainder().unwrap();
    assert_eq!(total + left.len(), bytes.len());
    for conjunct in &conjuncts {
        assert_eq!(conjunct.bytes[0], conjunct.kind as u8);
        let mut plan = [conjunct.bytes, &[0]].concat();
        let (n, mut scratch) = (plan.len(), vec![0; plan.len()]);
        let exchanged = spatialjoin::exchange(&mut plan, n, &mut scratch);
        assert_eq!(exchanged, Ok(n));
    }
    let (mut plan, n, table) = loaded(&filter);
    extract(&mut plan, n, &mut vec![0; n], &table).unwrap();
    let first = conjuncts[0].bytes;
    assert_eq!(plan[..first.len()], *first);
}

/// Round by round: each remainder is loaded and extracted in turn.
#[test]
fn it_is_the_repeated_extraction() {
    let filter = frame(&[AND, &within(), AND, &nearest(), AND, &plain(), &dwithin()]);
    let (bytes, rounds) = written(&filter, Settings::default());
    let (mut rest, mut found) = (filter, 0);
    for conjunct in Conjuncts::of(&bytes) {
        let (mut plan, n, table) = loaded(&rest);
        let n = extract(&mut plan, n, &mut vec![0; n], &table)
            .unwrap()
            .length;
        let head = conjunct.bytes.len();
        assert_eq!(plan[0], conjunct.bytes[0]);
        assert_eq!(plan[3..head], conjunct.bytes[3..]);
        rest = plan[head..n].to_vec();
        found += 1;
    }
    assert_eq!(found, rounds);
    assert_eq!(Some(&rest[..]), Conjuncts::of(&bytes).remainder());
}

/// Arguments of every kind of node, as deep as they may be, do not mislead the reader.
#[test]
fn the_reader_walks_every_kind_of_node() {
    let other = |children: &[&[u8]]| {
        let count = children.len() as u8;
        [&[4, 0x11, 0x12, count], &children.concat()[..]].concat()
    };
    let deep = [&b"\x04\0\0\x01".repeat(59)[..], LEFT].concat();
    let arguments = [
        [LEFT, &[]].concat(),
        [&b"\x02\x05"[..], FIVE, LEFT].concat(),
        other(&[LEFT, FIVE, &other(&[])]),
        [
            &call("\x21~", 2)[..],
            LEFT,
            b"\x01\x06\x11\x12\x13\0\0\0\0\0",
        ]
        .concat(),
        [&call("f", 16)[..], &LEFT.repeat(16)].concat(),
        deep,
    ];
    for argument in &arguments {
        let filter = frame(&[
            AND,
            &[&call("st_within", 2)[..], argument, RIGHT].concat(),
            AND,
            &[&call("st_knn", 2)[..], argument, RIGHT].concat(),
            AND,
            &plain(),
            &[&call("st_dwithin", 3)[..], argument, RIGHT, argument].concat(),
        ]);
        let (found, left) = listed(&filter, Settings::default());
        let expected = [(Kind::Knn, 1), (Kind::Relation, 0), (Kind::Distance, 3)];
        assert_eq!(found, expected);
        assert_eq!(left.unwrap()[..3], *b"\x01\0\x01");
    }
}

/// Cut anywhere, or with any byte changed, they make no panic; whole predicates stand before the cut.
#[test]
fn the_reader_takes_any_bytes() {
    let filter = frame(&[AND, &nearest(), AND, &plain(), &within()]);
    let (bytes, _) = written(&filter, Settings::default());
    let whole: Vec<Conjunct> = Conjuncts::of(&bytes).collect();
    for end in 0..bytes.len() {
        let cut: Vec<Conjunct> = Conjuncts::of(&bytes[..end]).collect();
        assert_eq!(cut, whole[..cut.len()]);
    }
    for at in 0..bytes.len() {
        for byte in 0..=255 {
            let mut other = bytes.clone();
            other[at] = byte;
            let conjuncts = Conjuncts::of(&other);
            assert!(conjuncts.clone().count() <= other.len());
            let _ = conjuncts.remainder();
        }
    }
    assert_eq!(Conjuncts::of(&[]).next(), None);
    assert_eq!(Conjuncts::of(&[0]).remainder(), None);
}

#[test]
fn nine_writes_nothing_and_comes_last() {
    let filter = frame(&[AND, &within(), &plain()]);
    let (bytes, rounds) = written(&filter, Settings::default());
    for room in 0..bytes.len() {
        let mut out = vec![7; room];
        let answer = extract_all(&filter, &mut out, Settings::default());
        assert_eq!(answer, Err(Refusal::TooShort));
        assert_eq!(out, vec![7; room]);
    }
    let mut exact = vec![7; bytes.len()];
    let answer = extract_all(&filter, &mut exact, Settings::default());
    let length = bytes.len();
    assert_eq!(answer, Ok(AllExtracted { length, rounds }));
    assert_eq!(exact, bytes);

    let bad = Settings {
        default_k: 0,
        ..Settings::default()
    };
    let deep = [&b"\x01\0\0"[..], &levels(65)].concat();
    let few = frame(&[&call("st_within", 1), LEFT]);
    let refused = [
        (&[][..], Refusal::FrameLength),
        (&[2], Refusal::FirstByte),
        (&filter[..20], Refusal::FrameEnds),
        (b"\x01\0\0\x05", Refusal::OutOfRange),
        (&deep, Refusal::TooLarge),
        (b"\x01\0\0\0\0\0\0\0", Refusal::NoSuchColumn),
        (b"\x01\0\0\x04\0\0\0\0", Refusal::BytesAfter),
        (&few, Refusal::TooFewArguments),
        (&filter, Refusal::TooShort),
    ];
    for (bytes, refusal) in refused {
        assert_eq!(
            extract_all(bytes, &mut [], Settings::default()),
            Err(refusal)
        );
        assert_eq!(extract_all(bytes, &mut [], bad), Err(Refusal::BadSettings));
    }
}

#[test]
fn the_number_has_rounds_and_length() {
    let filter = frame(&[AND, &within(), &within()]);
    let mut out = vec![0; filter.len()];
    let answer = numbers::extract_all(&filter, &mut out, Settings::default());
    assert_eq!(answer, 2 * 65_536 + 29);
    assert_eq!(
        (numbers::rounds_of(answer), numbers::length_of(answer)),
        (2, 29)
    );
    assert_eq!(numbers::refusal_of(answer), 0);
    let answer = numbers::extract_all(&filter, &mut [], Settings::default());
    assert_eq!(answer, -9);
    assert_eq!(
        (numbers::rounds_of(answer), numbers::length_of(answer)),
        (0, 0)
    );
    assert_eq!(numbers::refusal_of(answer), 9);
}
