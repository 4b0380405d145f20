//! Why each AND-leaf is indexed or is not, and the call explain.

mod common;

use std::collections::BTreeSet;

use common::{and, call, frame_of, literal, other, record};
use reading::calls::{Explained, explain};
use reading::frame::operator::{GT, GT_EQ, LT};
use reading::frame::{Expr, Frame, Record, Side, literal as types};
use reading::merge::merged;
use reading::physical::{exchange_frame, extract};
use reading::refusal::Refusal;
use reading::settings::Settings;
use reading::verdicts::Verdict::*;
use reading::verdicts::{Leaf, REASONS, Verdict, verdicts};
use reading::{decode, encode};

const PROGRAM: Settings = Settings::OF_THE_PROGRAM;
/// Distances alone, and a k up to 9.
const DISTANCES: Settings = settings(2, 1, 9);
const UP_TO_9: Settings = settings(7, 1, 9);
const PLUS: u8 = 9;
const EQ: u8 = 5;
const OR: u8 = 6;

const fn settings(kinds: u8, default_k: u32, greatest_k: u32) -> Settings {
    Settings {
        kinds,
        default_k,
        greatest_k,
    }
}

/// Two columns of the left child, two of the right, and a mark column.
fn records() -> Vec<Record> {
    let sides = [
        (Side::Left, 0),
        (Side::Right, 0),
        (Side::Left, 1),
        (Side::Right, 1),
        (Side::None, 0),
    ];
    sides.map(|(side, index)| record(side, index)).into()
}

/// By the names that the price list has for them.
fn column(name: &str) -> Expr {
    let names = ["L0", "R0", "L1", "R1", "M0"];
    let index = names.iter().position(|known| *known == name).unwrap();
    Expr::Column {
        index: index as u16,
        tag: index as u16 + 1,
    }
}

fn binary(op: u8, one: Expr, two: Expr) -> Expr {
    Expr::binary(op, one, two)
}

fn plus(one: &str, two: &str) -> Expr {
    binary(PLUS, column(one), column(two))
}

fn int32(value: i64) -> Expr {
    literal(types::INT32, value)
}

fn null() -> Expr {
    literal(types::NULL, 0)
}

fn flag(value: bool) -> Expr {
    literal(types::BOOLEAN, value.into())
}

fn intersects(one: Expr, two: Expr) -> Expr {
    call("st_intersects", vec![one, two])
}

fn distance(one: &str, two: &str) -> Expr {
    call("st_distance", vec![column(one), column(two)])
}

fn dwithin(two: Expr, bound: Expr) -> Expr {
    call("st_dwithin", vec![column("L0"), two, bound])
}

/// `L0` and `R0`, and more.
fn knn(more: Vec<Expr>) -> Expr {
    call("st_knn", [vec![column("L0"), column("R0")], more].concat())
}

fn small() -> Expr {
    intersects(column("L0"), column("R0"))
}

fn capital() -> Expr {
    call("ST_Intersects", vec![column("L0"), column("R0")])
}

fn said(expr: &Expr, settings: Settings) -> Verdict {
    Leaf::new(expr, &records(), settings).verdict()
}

type Rows = Vec<(Expr, Settings, Verdict)>;

fn by_program<const N: usize>(rows: [(Expr, Verdict); N]) -> Rows {
    rows.map(|(expr, said)| (expr, PROGRAM, said)).into()
}

/// A match, and what the leaf is.
fn rows_of_names() -> Rows {
    let pair = || vec![column("L0"), column("R0")];
    let capital_distance = || call("ST_Distance", pair());
    let two_down = other(vec![other(vec![small()])]);
    by_program([
        (small(), AsRelation),
        (binary(LT, distance("R0", "L0"), column("L1")), AsDistance),
        (knn(vec![]), AsKnn),
        (capital(), OtherCase),
        (binary(LT, capital_distance(), int32(5)), OtherCase),
        (binary(LT, int32(5), distance("L0", "R0")), OtherSide),
        (binary(GT_EQ, distance("L0", "R0"), int32(5)), OtherSide),
        (binary(LT, int32(5), capital_distance()), OtherSide),
        (binary(EQ, distance("L0", "R0"), int32(5)), OtherOperator),
        (binary(EQ, int32(5), distance("L0", "R0")), OtherOperator),
        (binary(OR, small(), knn(vec![])), InsideAnother),
        (other(vec![small()]), InsideAnother),
        (binary(OR, capital(), column("L1")), InsideAnother),
        (column("L0"), NothingOfOurs),
        (call("region", vec![column("L1")]), NothingOfOurs),
        (distance("L0", "R0"), NothingOfOurs),
        // What stands two nodes down is not looked at, an And's conjuncts neither.
        (two_down, NothingOfOurs),
        (binary(OR, and(small(), small()), int32(5)), NothingOfOurs),
    ])
}

/// The settings, the number of arguments, the geometries and the bound.
fn rows_of_arguments() -> Rows {
    let five = vec![int32(5), flag(true), flag(false), int32(7)];
    let bounded = |op, bound| binary(op, bound, distance("L0", "R0"));
    let marked = call("st_knn", vec![column("L0"), plus("M0", "R0")]);
    let mut rows = by_program([
        (call("st_knn", vec![column("L0")]), TooFewArguments),
        (knn(five), TooManyArguments),
        (intersects(int32(5), column("R0")), FirstWithoutColumns),
        (intersects(plus("L0", "R1"), column("R0")), FirstOfBoth),
        (intersects(column("M0"), column("R0")), FirstWithMark),
        (intersects(plus("L0", "M0"), column("R0")), FirstWithMark),
        (intersects(column("L0"), null()), SecondWithoutColumns),
        (dwithin(plus("R0", "L1"), int32(5)), SecondOfBoth),
        (marked, SecondWithMark),
        (intersects(column("L0"), column("L1")), BothLeft),
        (intersects(column("R0"), column("R1")), BothRight),
        (dwithin(column("R0"), plus("L1", "R1")), BoundOfBoth),
        (bounded(GT, plus("R1", "L1")), BoundOfBoth),
        (dwithin(column("R0"), column("M0")), BoundWithMark),
        (bounded(GT_EQ, plus("M0", "L1")), BoundWithMark),
        (dwithin(column("R0"), plus("L1", "L0")), AsDistance),
        (dwithin(column("R0"), int32(5)), AsDistance),
    ]);
    rows.extend([
        (small(), DISTANCES, KindLeftOut),
        (dwithin(column("R0"), column("L1")), DISTANCES, AsDistance),
        (knn(vec![]), DISTANCES, KindLeftOut),
    ]);
    rows
}

/// k and the flags.
fn rows_of_literals() -> Rows {
    let of_k = |k| knn(vec![k]);
    let unsigned = literal(types::UINT64, -1);
    let long = literal(types::INT64, 4_294_967_296);
    let flags = |spheroid, ties| knn(vec![int32(5), spheroid, ties]);
    let mut rows = by_program([
        (of_k(null()), KNoNumber),
        (of_k(column("L1")), KNoNumber),
        (of_k(int32(0)), KBelowOne),
        (of_k(int32(-1)), KBelowOne),
        (of_k(unsigned), KAboveGreatest),
        (of_k(long), KAboveGreatest),
        (knn(vec![int32(5), int32(1)]), SpheroidNoFlag),
        (flags(int32(1), int32(1)), SpheroidNoFlag),
        (flags(flag(true), int32(1)), TiesNoFlag),
        (flags(flag(true), flag(false)), AsKnn),
    ]);
    rows.extend([
        (of_k(int32(10)), UP_TO_9, KAboveGreatest),
        (of_k(int32(9)), UP_TO_9, AsKnn),
    ]);
    rows
}

/// The first reason of several: kind before geometry, the first geometry before the second, geometry
/// before k.
fn rows_of_several() -> Rows {
    let nearest = vec![column("L0"), column("L1"), int32(0)];
    vec![
        (
            intersects(column("L0"), column("L1")),
            DISTANCES,
            KindLeftOut,
        ),
        (
            intersects(int32(5), column("M0")),
            PROGRAM,
            FirstWithoutColumns,
        ),
        (call("st_knn", nearest), PROGRAM, BothLeft),
    ]
}

fn all_rows() -> Rows {
    [
        rows_of_names(),
        rows_of_arguments(),
        rows_of_literals(),
        rows_of_several(),
    ]
    .concat()
}

#[test]
fn the_rows() {
    for (number, (expr, settings, verdict)) in all_rows().into_iter().enumerate() {
        assert_eq!(said(&expr, settings), verdict, "row {number}");
    }
}

#[test]
fn each_of_the_26_verdicts_is_reached() {
    let reached: BTreeSet<Verdict> = all_rows().into_iter().map(|(.., said)| said).collect();
    assert_eq!(reached.len(), 26);
}

#[test]
fn the_reasons_are_in_the_order_of_their_bytes() {
    let bytes = REASONS.map(|(reason, _)| reason.byte());
    assert!(bytes.is_sorted_by(|one, next| one < next));
    assert_eq!((bytes[0], bytes[22]), (0x20, 0x74));
}

/// All rows as the conjuncts of one frame, as far as a frame may have them.
fn frame_of_rows() -> Frame {
    let rows = all_rows().into_iter().map(|(expr, ..)| expr);
    let expr = rows.reduce(and).unwrap();
    read(&frame_of(records(), expr))
}

fn read(bytes: &[u8]) -> Frame {
    decode::physical(bytes).unwrap()
}

fn under(kinds: u8, greatest_k: u32) -> Settings {
    settings(kinds, 1, greatest_k)
}

/// Each leaf as a frame of its own: it says a match exactly where extract takes it, and of that kind.
#[test]
fn a_verdict_says_what_extract_takes() {
    let mut matched = 0;
    for (expr, ..) in all_rows() {
        let frame = read(&frame_of(records(), expr));
        for kinds in 1..=7 {
            for greatest in [1, 9, u32::MAX] {
                let settings = under(kinds, greatest);
                let said = verdicts(&frame, settings)[0];
                let taken = extract(&frame, settings);
                let first = taken.map(|taken| encode::first_byte(&taken.predicate));
                assert_eq!(said.is_match().then_some(said.byte()), first);
                matched += usize::from(said.is_match());
            }
        }
    }
    assert!(matched > 100, "{matched}");
}

/// The first KNN match, else the first match.
fn named(said: &[Verdict]) -> Option<(u8, u16)> {
    let first = |such: fn(&Verdict) -> bool| said.iter().position(such);
    let found = first(|one| *one == AsKnn).or_else(|| first(|one| one.is_match()))?;
    Some((said[found].byte(), found as u16))
}

#[test]
fn the_verdicts_name_the_taken_leaf() {
    let (mut lines, frame) = (BTreeSet::new(), frame_of_rows());
    for kinds in 1..=7 {
        let settings = under(kinds, 9);
        let taken = extract(&frame, settings).unwrap();
        let line = encode::first_byte(&taken.predicate);
        let said = named(&verdicts(&frame, settings));
        assert_eq!(said, Some((line, taken.position)));
        lines.insert(line);
    }
    assert_eq!(lines.len(), 3);
}

/// Left and right exchanged where a verdict names a child.
#[test]
fn both_machines_say_the_same() {
    let exchanged = |said: Verdict| match said {
        BothLeft => BothRight,
        BothRight => BothLeft,
        said => said,
    };
    let frame = frame_of_rows();
    for settings in [PROGRAM, DISTANCES, UP_TO_9] {
        let one = verdicts(&frame, settings);
        let other = verdicts(&exchange_frame(&frame), settings);
        let expected: Vec<Verdict> = one.iter().copied().map(exchanged).collect();
        assert_eq!(other, expected);
        assert!(settings == DISTANCES || one != other);
    }
}

#[test]
fn a_merged_frame_has_the_held_ones_and_then_the_policys() {
    let rows = frame_of_rows();
    let policy = read(&frame_of(records(), and(knn(vec![int32(7)]), capital())));
    for settings in [PROGRAM, DISTANCES, UP_TO_9] {
        let verdicts = |frame: &Frame| verdicts(frame, settings);
        let (one, two) = (verdicts(&rows), verdicts(&policy));
        assert_eq!(verdicts(&merged(&rows, &policy)), [&one[..], &two].concat());
        assert_eq!(verdicts(&merged(&policy, &rows)), [&two[..], &one].concat());
    }
}

// ---- the call

/// A relation that does not match, a relation, KNN, another relation: the KNN is taken.
fn four_conjuncts() -> Vec<u8> {
    let both_left = intersects(column("L0"), column("L1"));
    let turned = intersects(column("R0"), column("L0"));
    let expr = and(and(both_left, small()), and(knn(vec![]), turned));
    frame_of(records(), expr)
}

/// Into a buffer of this length that holds `ff`.
fn called(frame: &[u8], room: usize, settings: Settings) -> (Result<Explained, Refusal>, Vec<u8>) {
    let mut buffer = vec![0xff; room];
    (explain(frame, &mut buffer, settings), buffer)
}

#[test]
fn a_byte_for_each_conjunct_and_the_bytes_after_them_kept() {
    let answer = Ok(Explained {
        taken: Some((0x13, 2)),
        count: 4,
    });
    let written = vec![0x56, 0x11, 0x13, 0x11];
    let (given, buffer) = called(&four_conjuncts(), 6, PROGRAM);
    assert_eq!(given, answer);
    assert_eq!(buffer, [&written[..], &[0xff, 0xff]].concat());
    assert_eq!(called(&four_conjuncts(), 4, PROGRAM), (answer, written));
}

#[test]
fn without_a_match_no_line_is_named() {
    let frame = frame_of(records(), and(capital(), column("L0")));
    let (given, buffer) = called(&frame, 3, PROGRAM);
    let answer = Explained {
        taken: None,
        count: 2,
    };
    assert_eq!(given, Ok(answer));
    assert_eq!(buffer, [0x20, 0x24, 0xff]);
}

#[test]
fn refusals_come_in_their_order_and_write_nothing() {
    let bad = settings(8, 1, 9);
    let four = four_conjuncts();
    let few = frame_of(records(), call("st_within", vec![column("L0")]));
    let index = frame_of(vec![], column("L0"));
    let after = [&four[..], &[0]].concat();
    for (frame, room, settings, refusal) in [
        (&four[..], 3, PROGRAM, Refusal::NoRoom),
        (&four, 0, PROGRAM, Refusal::NoRoom),
        (&[], 3, PROGRAM, Refusal::FrameLength),
        (&[2], 0, PROGRAM, Refusal::FirstByte),
        (&four[..9], 0, PROGRAM, Refusal::Ends),
        (&[1, 9, 9], 0, PROGRAM, Refusal::Range),
        (&index, 0, PROGRAM, Refusal::ColumnIndex),
        (&after, 0, PROGRAM, Refusal::BytesAfter),
        (&few, 0, PROGRAM, Refusal::Arity),
        (&[], 3, bad, Refusal::BadSettings),
        (&few, 0, bad, Refusal::BadSettings),
        (&four, 6, bad, Refusal::BadSettings),
        (&four, 6, settings(7, 0, 9), Refusal::BadSettings),
        (&four, 6, settings(7, 10, 9), Refusal::BadSettings),
    ] {
        let (given, buffer) = called(frame, room, settings);
        assert_eq!(given, Err(refusal));
        assert_eq!(buffer, vec![0xff; room]);
    }
}
