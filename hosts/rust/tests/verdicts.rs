//! Why each conjunct of a frame is indexed or is not: a filter for each verdict, and what the call answers.

mod common;

use common::{RECORDS, bytes, extract, levels, loaded};
use spatialjoin::{Conjuncts, Explained, Expression, Frame, Kind, Kinds, Literal, MOST_NODES};
use spatialjoin::{Operator, Record, Refusal, Settings, Side, Taken, Verdict};
use spatialjoin::{explain, extract_all, numbers, position};

const OR: u8 = 5;

fn column(index: u16) -> Expression {
    Expression::Column { index, tag: 0 }
}

fn left() -> Expression {
    column(0)
}

fn right() -> Expression {
    column(1)
}

fn mark() -> Expression {
    column(2)
}

fn call<const N: usize>(name: &str, arguments: [Expression; N]) -> Expression {
    Expression::function(name, arguments)
}

fn both() -> Expression {
    call("st_union", [left(), right()])
}

fn whole(value: i64) -> Expression {
    Literal::Int64(value).into()
}

fn flag() -> Expression {
    Literal::Boolean(true).into()
}

fn within() -> Expression {
    call("st_within", [left(), right()])
}

fn distance() -> Expression {
    call("st_distance", [left(), right()])
}

fn compared(operator: u8, one: Expression, other: Expression) -> Expression {
    let operator = Operator::from_number(operator).expect("an operator");
    Expression::binary(operator, one, other)
}

fn nearest(k: Expression) -> Expression {
    call("st_knn", [left(), right(), k])
}

/// The frame of a left column, a right and a mark column.
fn framed(filter: Expression) -> Vec<u8> {
    let record = |side| Record {
        side,
        child: 0,
        tag: 0,
    };
    let records = [Some(Side::Left), Some(Side::Right), None].map(record);
    let frame = Frame {
        records: records.to_vec(),
        filter,
    };
    frame.bytes().expect("within the limits")
}

/// Verdicts and answer, with a buffer that is just long enough and in a longer one.
fn said(frame: &[u8], settings: Settings) -> (Vec<Verdict>, Option<Taken>) {
    let mut longer = vec![7; MOST_NODES];
    let Explained { count, taken } = explain(frame, &mut longer, settings).unwrap();
    assert_eq!(longer[count..], vec![7; MOST_NODES - count]);
    let mut exact = vec![7; count];
    let again = explain(frame, &mut exact, settings);
    assert_eq!(again, Ok(Explained { count, taken }));
    assert_eq!(exact, longer[..count]);
    let known = |byte: &u8| Verdict::from_byte(*byte).expect("a verdict");
    (exact.iter().map(known).collect(), taken)
}

fn verdict(conjunct: Expression, settings: Settings) -> Verdict {
    let (verdicts, _) = said(&framed(conjunct), settings);
    assert_eq!(verdicts.len(), 1);
    verdicts[0]
}

/// A conjunct for each verdict under the default settings: all but one.
fn conjuncts() -> Vec<(Verdict, Expression)> {
    vec![
        (Verdict::AsRelation, within()),
        (Verdict::AsDistance, compared(1, distance(), whole(5))),
        (Verdict::AsKnn, nearest(whole(5))),
        (Verdict::OtherCase, call("ST_Within", [left(), right()])),
        (Verdict::OtherSide, compared(1, whole(5), distance())),
        (Verdict::OtherOperator, compared(6, distance(), whole(5))),
        (Verdict::InsideAnother, compared(OR, left(), within())),
        (Verdict::NothingOfOurs, call("f", [left()])),
        (Verdict::FewerArguments, call("st_knn", [left()])),
        (
            Verdict::MoreArguments,
            call(
                "st_knn",
                [left(), right(), whole(1), flag(), flag(), flag()],
            ),
        ),
        (
            Verdict::FirstWithoutColumns,
            call("st_within", [whole(1), right()]),
        ),
        (Verdict::FirstOfBoth, call("st_within", [both(), right()])),
        (Verdict::FirstWithMark, call("st_within", [mark(), right()])),
        (
            Verdict::SecondWithoutColumns,
            call("st_within", [left(), whole(1)]),
        ),
        (Verdict::SecondOfBoth, call("st_within", [left(), both()])),
        (Verdict::SecondWithMark, call("st_within", [left(), mark()])),
        (Verdict::BothLeft, call("st_within", [left(), left()])),
        (Verdict::BothRight, call("st_within", [right(), right()])),
        (
            Verdict::BoundOfBoth,
            call("st_dwithin", [left(), right(), both()]),
        ),
        (
            Verdict::BoundWithMark,
            call("st_dwithin", [left(), right(), mark()]),
        ),
        (Verdict::KNoNumber, nearest(left())),
        (Verdict::KBelowOne, nearest(whole(0))),
        (Verdict::KAboveGreatest, nearest(whole(4_294_967_296))),
        (
            Verdict::SpheroidNoFlag,
            call("st_knn", [left(), right(), whole(1), whole(1)]),
        ),
        (
            Verdict::TiesNoFlag,
            call("st_knn", [left(), right(), whole(1), flag(), whole(1)]),
        ),
    ]
}

/// Each as the filter's only conjunct, and all of them in one filter.
#[test]
fn a_conjunct_for_each_verdict() {
    let conjuncts = conjuncts();
    for (expected, conjunct) in &conjuncts {
        assert_eq!(verdict(conjunct.clone(), Settings::default()), *expected);
    }
    let known: Vec<Verdict> = conjuncts.iter().map(|(verdict, _)| *verdict).collect();
    let others = Verdict::ALL
        .into_iter()
        .filter(|verdict| *verdict != Verdict::KindLeftOut);
    assert_eq!(known, others.collect::<Vec<_>>());
    let filters = conjuncts.into_iter().map(|(_, conjunct)| conjunct);
    let filter = filters.reduce(Expression::and).expect("some");
    let (verdicts, taken) = said(&framed(filter), Settings::default());
    assert_eq!(verdicts, known);
    let knn = Taken {
        kind: Kind::Knn,
        position: 2,
    };
    assert_eq!(taken, Some(knn));
}

#[test]
fn settings_leave_out_a_kind_or_a_k() {
    let under = |kinds, greatest_k| Settings {
        kinds,
        default_k: 1,
        greatest_k,
    };
    let left_out = Verdict::KindLeftOut;
    assert_eq!(verdict(within(), under(Kinds::KNN, 1)), left_out);
    let dwithin = call("st_dwithin", [left(), right(), whole(5)]);
    assert_eq!(verdict(dwithin, under(Kinds::RELATIONS, 1)), left_out);
    let both = Kinds::RELATIONS | Kinds::DISTANCES;
    assert_eq!(verdict(nearest(whole(0)), under(both, 1)), left_out);
    let five = nearest(whole(5));
    assert_eq!(verdict(five.clone(), under(Kinds::KNN, 5)), Verdict::AsKnn);
    let above = Verdict::KAboveGreatest;
    assert_eq!(verdict(five, under(Kinds::KNN, 4)), above);
}

/// The first reason in the order of the bytes.
#[test]
fn the_first_reason_is_said() {
    let several = call("st_knn", [both(), mark(), whole(0), whole(1)]);
    assert_eq!(verdict(several, Settings::default()), Verdict::FirstOfBoth);
    let several = call("st_dwithin", [left(), left(), mark()]);
    assert_eq!(verdict(several, Settings::default()), Verdict::BothLeft);
    let several = compared(1, call("ST_Distance", [left(), left()]), distance());
    assert_eq!(verdict(several, Settings::default()), Verdict::OtherCase);
}

/// What is taken is what an extract takes, and the matches are all that `extract_all` writes.
#[test]
fn the_taken_one_is_extract_s() {
    let plain = || call("f", [left()]);
    let dwithin = || call("st_dwithin", [left(), right(), whole(5)]);
    let filters = [
        within(),
        plain().and(dwithin()).and(within()),
        within().and(plain().and(nearest(whole(2)))),
        dwithin().and(nearest(whole(0))),
    ];
    for filter in filters {
        let frame = framed(filter);
        let (verdicts, taken) = said(&frame, Settings::default());
        let taken = taken.expect("one of them matches");
        let (mut plan, n, table) = loaded(&frame);
        extract(&mut plan, n, &mut vec![0; n], &table).unwrap();
        assert_eq!(plan[0], taken.kind as u8);
        assert_eq!(position(&plan), Some(taken.position));
        let at = usize::from(taken.position);
        assert_eq!(verdicts[at].kind(), Some(taken.kind));
        let mut out = vec![0; frame.len()];
        let all = extract_all(&frame, &mut out, Settings::default()).unwrap();
        let mut found: Vec<(u16, Kind)> = Conjuncts::of(&out[..all.length])
            .map(|conjunct| (conjunct.position, conjunct.kind))
            .collect();
        found.sort_by_key(|(position, _)| *position);
        let matches = verdicts.iter().zip(0..);
        let matches = matches.filter_map(|(verdict, at)| Some((at, verdict.kind()?)));
        assert_eq!(matches.collect::<Vec<_>>(), found);
    }
    let (verdicts, taken) = said(&framed(plain().and(left())), Settings::default());
    assert_eq!(verdicts, [Verdict::NothingOfOurs; 2]);
    assert_eq!(taken, None);
}

/// Left and right exchanged, the verdicts are the same, but for those that name a child.
#[test]
fn exchanged_verdicts() {
    let filters = conjuncts().into_iter().map(|(_, conjunct)| conjunct);
    let frame = framed(filters.reduce(Expression::and).expect("some"));
    let mut other = frame.clone();
    // The sides of the first two of the records, of five bytes each.
    (other[3], other[8]) = (frame[8], frame[3]);
    let turned = |verdict| match verdict {
        Verdict::BothLeft => Verdict::BothRight,
        Verdict::BothRight => Verdict::BothLeft,
        same => same,
    };
    let (verdicts, taken) = said(&frame, Settings::default());
    let expected: Vec<Verdict> = verdicts.into_iter().map(turned).collect();
    assert_eq!(said(&other, Settings::default()), (expected, taken));
}

#[test]
fn refusals_in_their_order_write_nothing() {
    let filter = framed(within().and(left()).and(right()));
    for room in 0..3 {
        let mut short = vec![7; room];
        let answer = explain(&filter, &mut short, Settings::default());
        assert_eq!(answer, Err(Refusal::TooShort));
        assert_eq!(short, vec![7; room]);
    }
    let bad = Settings {
        default_k: 0,
        ..Settings::default()
    };
    let deep = [&b"\x01\0\0"[..], &levels(65)].concat();
    let few = [RECORDS, &common::call("st_within", 0)].concat();
    let refused = [
        (&[][..], Refusal::FrameLength),
        (&[2], Refusal::FirstByte),
        (&filter[..20], Refusal::FrameEnds),
        (b"\x01\0\0\x05", Refusal::OutOfRange),
        (&deep, Refusal::TooLarge),
        (b"\x01\0\0\0\0\0\0\0", Refusal::NoSuchColumn),
        (b"\x01\0\0\x04\0\0\0\0", Refusal::BytesAfter),
        (&few, Refusal::TooFewArguments),
        (&filter, Refusal::TooShort),
    ];
    for (frame, refusal) in refused {
        assert_eq!(explain(frame, &mut [], Settings::default()), Err(refusal));
        let mut buffer = [7; 4];
        assert_eq!(explain(frame, &mut buffer, bad), Err(Refusal::BadSettings));
        assert_eq!(buffer, [7; 4]);
    }
}

/// `st_within(L0, R3) AND f(L1) < 5 AND st_knn(L0, R0, 5)`, as `docs/FRAMES.md` has it.
#[test]
fn the_number_has_line_position_and_conjuncts() {
    let frame = framed(within().and(call("f", [left()])).and(nearest(whole(5))));
    let mut buffer = [7; 4];
    let answer = numbers::explain(&frame, &mut buffer, Settings::default());
    assert_eq!(buffer, [0x11, 0x24, 0x13, 7]);
    assert_eq!(answer, 81_604_509_699);
    let parts = |answer| {
        let line = numbers::line_of(answer);
        (
            line,
            numbers::taken_of(answer),
            numbers::conjuncts_of(answer),
        )
    };
    assert_eq!(parts(answer), (0x13, 2, 3));
    assert_eq!(numbers::refusal_of(answer), 0);
    let plain = framed(left().and(right()).and(left()));
    let answer = numbers::explain(&plain, &mut buffer, Settings::default());
    assert_eq!((answer, parts(answer)), (3, (0, 0, 3)));
    let answer = numbers::explain(&frame, &mut [], Settings::default());
    assert_eq!((answer, parts(answer)), (-9, (0, 0, 0)));
    assert_eq!(numbers::refusal_of(answer), 9);
}

/// Name by name, in the header's order: `AsRelation` for `SPATIALJOIN_AS_RELATION`.
#[test]
fn the_header_has_the_same_verdicts() {
    let header = include_str!("../../../include/spatialjoin.h");
    let (_, after) = header.split_once("enum spatialjoin_verdict {").unwrap();
    let (lines, _) = after.split_once("};").unwrap();
    let named = |line: &str| {
        let (name, number) = line.trim().split_once(" = 0x")?;
        let words = name.strip_prefix("SPATIALJOIN_")?.split('_');
        let word = |word: &str| [&word[..1], &word[1..].to_lowercase()].concat();
        Some((words.map(word).collect::<String>(), bytes(&number[..2])[0]))
    };
    let known: Vec<(String, u8)> = lines.lines().filter_map(named).collect();
    let ours = Verdict::ALL.map(|verdict| (format!("{verdict:?}"), verdict.byte()));
    assert_eq!(known, ours);
}

#[test]
fn every_verdict_has_its_byte_and_text() {
    for byte in 0..=255 {
        let found = Verdict::from_byte(byte);
        let known = Verdict::ALL
            .into_iter()
            .find(|verdict| verdict.byte() == byte);
        assert_eq!(found, known);
        assert_eq!(
            found.and_then(Verdict::kind).is_some(),
            (0x11..=0x13).contains(&byte)
        );
    }
    assert!(Verdict::ALL.is_sorted());
    let texts = Verdict::ALL.map(|verdict| verdict.to_string());
    for (verdict, text) in Verdict::ALL.into_iter().zip(&texts) {
        assert!(text.starts_with(&format!("{:02x}: ", verdict.byte())));
        assert!(text.len() > 5);
    }
}
