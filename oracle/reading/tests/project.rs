//! Document 02, request 7: projected extractions, the refusals in their order.

mod common;

use common::{and, call, extract, frame, frame_of, left, literal, other, record, right};
use reading::calls::{exchange, load, project};
use reading::frame::{Expr, Extraction, Frame, Plan, Predicate, Record, Side, literal as types};
use reading::nodes::Node;
use reading::program::{hex, parse};
use reading::project::{Lists, MAX_ITEMS};
use reading::refusal::Refusal;
use reading::{decode, encode};

/// Column 5 stands first at 1 on the left and at 2 on the right, 6 at 3 and at 0.
const LISTS: Lists<'_> = Lists {
    left: &[9, 5, 5, 6],
    right: &[6, 7, 5],
};

fn column(index: u16) -> Expr {
    Expr::Column { index, tag: 40_000 }
}

/// A column below other nodes, with nodes that have none beside it.
fn deep(index: u16) -> Expr {
    let pair = Expr::binary(63, literal(types::INT64, 0x0500_0500), column(index));
    call("f", vec![other(vec![pair]), other(vec![])])
}

fn relation(left: Expr, right: Expr) -> Predicate {
    Predicate::Relation {
        relation: 3,
        left,
        right,
    }
}

fn distance(side: Side, indices: [u16; 3]) -> Predicate {
    let [left, right, bound] = indices;
    Predicate::Distance {
        form: 2,
        side,
        left: deep(left),
        right: column(right),
        distance: deep(bound),
    }
}

fn knn(probe: Side, first: u16, second: u16) -> Predicate {
    Predicate::Knn {
        k: 0x0005_0006,
        spheroid: true,
        probe,
        ties: None,
        left: column(first),
        right: deep(second),
    }
}

fn plan(predicate: Predicate, remainder: Option<Frame>) -> Vec<u8> {
    encode::plan(&Plan::Extraction(Extraction {
        position: 0x0506,
        predicate,
        remainder,
    }))
}

/// The answer; refused, nothing changes, accepted, the old plan is kept and every other byte stays.
fn answer(held: &[u8], n: usize, scratch: usize, lists: Lists<'_>) -> Result<Vec<u8>, u8> {
    let mut buffer = [held, &[0xaa; 9]].concat();
    let (mut kept, mut new) = (vec![0xbb; scratch], n);
    let before = buffer.clone();
    let given = project(&mut new, &mut buffer, &mut kept, lists);
    match given {
        Ok(length) => {
            assert_eq!((length, new), (n, n));
            assert_eq!(kept, [held, &vec![0xbb; scratch - n]].concat());
            assert_eq!(buffer[n..], before[n..]);
        }
        Err(_) => assert_eq!((new, &buffer, &kept), (n, &before, &vec![0xbb; scratch])),
    }
    given.map(|_| buffer[..n].to_vec()).map_err(Refusal::number)
}

fn projected(held: &[u8]) -> Result<Vec<u8>, u8> {
    answer(held, held.len(), held.len() + 3, LISTS)
}

#[test]
fn arguments_go_by_their_side() {
    let cases = [
        (relation(column(5), deep(6)), relation(column(1), deep(0))),
        (
            distance(Side::Left, [5, 6, 6]),
            distance(Side::Left, [1, 0, 3]),
        ),
        (
            distance(Side::Right, [5, 6, 5]),
            distance(Side::Right, [1, 0, 2]),
        ),
        (
            distance(Side::None, [5, 6, 65_535]),
            distance(Side::None, [1, 0, 65_535]),
        ),
        (knn(Side::Left, 5, 6), knn(Side::Left, 1, 0)),
        (knn(Side::Right, 5, 6), knn(Side::Right, 2, 3)),
    ];
    for (held, expected) in cases {
        assert_eq!(projected(&plan(held, None)), Ok(plan(expected, None)));
    }
}

#[test]
fn a_column_that_its_list_lacks_is_20() {
    let held = [
        relation(deep(7), column(6)),
        relation(column(5), deep(9)),
        distance(Side::Left, [7, 6, 5]),
        distance(Side::Left, [5, 9, 5]),
        distance(Side::Left, [5, 6, 7]),
        distance(Side::Right, [5, 6, 9]),
        knn(Side::Left, 7, 6),
        knn(Side::Left, 5, 9),
        knn(Side::Right, 9, 6),
        knn(Side::Right, 5, 7),
    ];
    for predicate in held {
        assert_eq!(projected(&plan(predicate, None)), Err(20));
    }
}

/// A relation without columns, and a remainder of these records that references the first alone.
fn with_records(records: &[(Side, u16)]) -> Vec<u8> {
    let record = |(side, index): &(Side, u16)| record(*side, *index);
    let records: Vec<Record> = records.iter().map(record).collect();
    let expr = and(column(0), deep(0));
    let remainder = Some(Frame { records, expr });
    plan(relation(other(vec![]), other(vec![])), remainder)
}

#[test]
fn every_record_goes_by_its_side() {
    use Side::{Left, None, Right};
    let held = [(Left, 5), (Right, 5), (None, 5), (Left, 6), (Left, 5)];
    let places = [(Left, 1), (Right, 2), (None, 5), (Left, 3), (Left, 1)];
    assert_eq!(projected(&with_records(&held)), Ok(with_records(&places)));
    for (side, number) in [(Left, 20), (Right, 20), (None, 0)] {
        let given = projected(&with_records(&[(Left, 5), (side, 8)]));
        assert_eq!(given.err().unwrap_or(0), number);
    }
}

/// Each of these states has the faults of all that come after it.
#[test]
fn refusals_in_their_order() {
    let (most, long) = ([1; MAX_ITEMS], [1; MAX_ITEMS + 1]);
    let lists = |left, right| Lists { left, right };
    let held = plan(relation(column(5), column(6)), None);
    let n = held.len();
    let answer = |held: &[u8], n, scratch, lists| answer(held, n, scratch, lists).err();
    assert_eq!(answer(&held, n + 10, 0, lists(&long, &long)), Some(10));
    assert_eq!(answer(&held, usize::MAX, 0, lists(&long, &long)), Some(10));
    assert_eq!(answer(&held, n - 1, 0, lists(&long, &long)), Some(10));
    assert_eq!(answer(&held, 0, 0, lists(&long, &long)), Some(11));
    let whole = frame(call("st_within", vec![left(), right()]));
    let given = answer(&whole, whole.len(), 0, lists(&long, &long));
    assert_eq!(given, Some(18));
    for pair in [lists(&long, &long), lists(&long, &most), lists(&[], &long)] {
        assert_eq!(answer(&held, n, 0, pair), Some(19));
    }
    assert_eq!(answer(&held, n, 0, lists(&most, &most)), Some(9));
    assert_eq!(answer(&held, n, n - 1, lists(&most, &[])), Some(9));
    assert_eq!(answer(&held, n, n, lists(&most, &[6])), Some(20));
    assert_eq!(answer(&held, n, n, lists(&[5], &most)), Some(20));
    assert_eq!(answer(&held, n, n, lists(&[5], &[6])), None);
}

#[test]
fn lists_of_the_most_items_and_of_none() {
    let mut items = [0; MAX_ITEMS];
    (items[4_095], items[4_094], items[300]) = (65_535, 256, 256);
    let held = plan(relation(column(65_535), column(256)), None);
    let lists = Lists {
        left: &items,
        right: &items,
    };
    let expected = plan(relation(column(4_095), column(300)), None);
    assert_eq!(answer(&held, held.len(), held.len(), lists), Ok(expected));
    let bare = plan(relation(other(vec![]), other(vec![])), None);
    let none = Lists {
        left: &[],
        right: &[],
    };
    assert_eq!(answer(&bare, bare.len(), bare.len(), none), Ok(bare));
}

/// A frame of these two child indices, extracted.
fn extracted(indices: [u16; 2]) -> Vec<u8> {
    let [of_left, of_right] = indices;
    let records = vec![record(Side::Left, of_left), record(Side::Right, of_right)];
    let within = call("st_within", vec![right(), left()]);
    let bytes = frame_of(records, and(within, other(vec![left(), right()])));
    let mut table = [Node::default(); 10];
    let (mut n, mut buffer, mut scratch) = (0, vec![0; bytes.len()], vec![0; bytes.len()]);
    load(&bytes, &mut n, &mut buffer, &mut table).unwrap();
    extract(&mut n, &mut buffer, &mut scratch, &table).unwrap();
    buffer.truncate(n);
    buffer
}

/// Over the new columns an extraction is that of the filter over them; an exchange changes the sides.
#[test]
fn an_extraction_over_the_new_columns() {
    let new = projected(&extracted([5, 6])).unwrap();
    assert_eq!(new, extracted([1, 0]));
    let (mut n, mut scratch) = (new.len(), vec![0; new.len()]);
    let exchanged = |bytes: &[u8]| {
        let mut buffer = bytes.to_vec();
        exchange(&mut bytes.len(), &mut buffer, &mut vec![0; bytes.len()]).unwrap();
        buffer
    };
    let before = exchanged(&extracted([5, 6]));
    let lists = Lists {
        left: LISTS.right,
        right: LISTS.left,
    };
    let after = answer(&before, before.len(), before.len(), lists).unwrap();
    assert_eq!(after, exchanged(&new));
    assert!(matches!(decode::plan(&after), Ok(Plan::Extraction(_))));
    let again = extract(&mut n, &mut after.clone(), &mut scratch, &[]);
    assert_eq!(again, Err(Refusal::Extracted));
}

#[test]
fn the_worked_run_over_narrowed_children() {
    let expected = include_str!("../../../examples/projection-answers.txt");
    let expected: Vec<&str> = expected.lines().collect();
    let bytes = parse(expected[0].strip_prefix("00").unwrap().as_bytes()).unwrap();
    let (mut n, mut buffer, mut scratch) = (0, vec![0; 64], vec![0; 64]);
    let mut table = [Node::default(); 10];
    load(&bytes, &mut n, &mut buffer, &mut table).unwrap();
    let mut lines = vec![format!("00{}", text(&buffer[..n]))];
    let lists = Lists {
        left: &[4, 0],
        right: &[3],
    };
    for step in 0..4 {
        let answer = match step {
            0 => extract(&mut n, &mut buffer, &mut scratch, &table),
            2 => exchange(&mut n, &mut buffer, &mut scratch),
            _ => project(&mut n, &mut buffer, &mut scratch, lists),
        };
        lines.push(match answer {
            Ok(length) => format!("00{}", text(&buffer[..length])),
            Err(refusal) => format!("{:02x}", refusal.number()),
        });
    }
    assert_eq!(lines, expected);
}

fn text(bytes: &[u8]) -> String {
    String::from_utf8(hex(bytes)).unwrap()
}
