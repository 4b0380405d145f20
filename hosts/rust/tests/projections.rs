//! Projections: the worked run's, the rule for every part of a plan, every refusal in its order.

mod common;

use common::{bytes, extract_plan};
use spatialjoin::{MOST_BYTES, MOST_ITEMS, MOST_NODES, Node, Refusal};
use spatialjoin::{exchange, load, position, project};

/// A column of a child, name tag 9.
fn column(index: u16) -> Vec<u8> {
    [&[0], &index.to_be_bytes()[..], &[0, 9]].concat()
}

/// An extraction: its first bytes, then columns of these indexes, and no remainder.
fn extraction(head: &[u8], indexes: &[u16]) -> Vec<u8> {
    let columns: Vec<Vec<u8>> = indexes.iter().map(|index| column(*index)).collect();
    [head, &columns.concat(), &[0]].concat()
}

const RELATION: &[u8] = b"\x11\x01\x02\x03";

fn distance(side: u8) -> [u8; 5] {
    [0x12, 0, 0, 2, side]
}

fn knn(probe: u8) -> [u8; 10] {
    [0x13, 0, 0, 0, 0, 0, 5, 1, probe, 2]
}

/// Column 5 stands first at 1 on the left and at 2 on the right, 6 at 3 and at 0.
const LEFT: [u16; 4] = [9, 5, 5, 6];
const RIGHT: [u16; 3] = [6, 7, 5];

/// What becomes of a plan, in longer buffers, whose other bytes stay, and in ones of its length.
fn projected(held: &[u8]) -> Vec<u8> {
    let n = held.len();
    let (mut plan, mut scratch) = (vec![7; MOST_BYTES], vec![7; MOST_BYTES]);
    plan[..n].copy_from_slice(held);
    assert_eq!(project(&mut plan, n, &mut scratch, &LEFT, &RIGHT), Ok(n));
    assert_eq!(&scratch[..n], held);
    let after = [&plan[n..], &scratch[n..]].concat();
    assert_eq!(after, vec![7; 2 * (MOST_BYTES - n)]);
    let (mut exact, mut kept) = (held.to_vec(), vec![7; n]);
    assert_eq!(project(&mut exact, n, &mut kept, &LEFT, &RIGHT), Ok(n));
    assert_eq!((&exact[..], &kept[..]), (&plan[..n], held));
    exact
}

#[test]
fn the_worked_run_over_narrowed_children() {
    let answers = include_str!("../../../examples/projection-answers.txt");
    let expected: Vec<Vec<u8>> = answers.lines().map(bytes).collect();
    let (mut plan, mut scratch) = (vec![0; MOST_BYTES], vec![0; MOST_BYTES]);
    let mut table = vec![Node::default(); MOST_NODES];
    let mut n = load(&expected[0][1..], &mut plan, &mut table).expect("a good frame");
    let mut answers = vec![[&[0], &plan[..n]].concat()];
    for step in 0..4 {
        let answer = match step {
            0 => extract_plan(&mut plan, n, &mut scratch, &table),
            2 => exchange(&mut plan, n, &mut scratch),
            _ => project(&mut plan, n, &mut scratch, &[4, 0], &[3]),
        };
        n = answer.unwrap_or(n);
        answers.push(match answer {
            Ok(_) => [&[0], &plan[..n]].concat(),
            Err(refusal) => vec![refusal.number()],
        });
    }
    assert_eq!(answers, expected);
}

#[test]
fn each_part_goes_by_its_side() {
    let cases: [(&[u8], &[u16], &[u16]); 6] = [
        (RELATION, &[5, 6], &[1, 0]),
        (&distance(0), &[5, 6, 5], &[1, 0, 1]),
        (&distance(1), &[5, 6, 5], &[1, 0, 2]),
        (&distance(2), &[5, 6, 5], &[1, 0, 5]),
        (&knn(0), &[5, 6], &[1, 0]),
        (&knn(1), &[5, 6], &[2, 3]),
    ];
    for (head, held, expected) in cases {
        let plan = projected(&extraction(head, held));
        assert_eq!(plan, extraction(head, expected));
    }
    let position = position(&projected(&extraction(RELATION, &[5, 6])));
    assert_eq!(position, Some(0x102));
}

/// A relation of two nodes without fields, and a remainder of these records, none of them referenced
/// but the first.
fn with_records(records: [[u8; 5]; 4]) -> Vec<u8> {
    let node = [4, 0, 0, 0];
    let rest = [&[1, 0, 4], &records.concat()[..], &column(0)].concat();
    [RELATION, &node, &node, &rest].concat()
}

#[test]
fn every_record_goes_by_its_side_and_marks_stay() {
    let records = [
        [0, 0, 5, 3, 3],
        [1, 0, 5, 4, 4],
        [2, 0, 5, 5, 5],
        [0, 0, 6, 6, 6],
    ];
    let places = [
        [0, 0, 1, 3, 3],
        [1, 0, 2, 4, 4],
        [2, 0, 5, 5, 5],
        [0, 0, 3, 6, 6],
    ];
    assert_eq!(projected(&with_records(records)), with_records(places));
}

/// What a projection of these bytes answers; refused, it changes nothing.
fn answer(held: &[u8], n: usize, scratch: usize, left: &[u16], right: &[u16]) -> Result<usize, u8> {
    let (mut plan, mut kept) = (held.to_vec(), vec![7; scratch]);
    let answer = project(&mut plan, n, &mut kept, left, right);
    assert!(answer.is_ok() || plan == held && kept == vec![7; scratch]);
    answer.map_err(Refusal::number)
}

/// Each of these states has the faults of all that come after it.
#[test]
fn refusals_in_their_order() {
    let frame = [1, 0, 0, 4, 0, 0, 0];
    let (most, long) = (vec![0; MOST_ITEMS], vec![0; MOST_ITEMS + 1]);
    let held = extraction(RELATION, &[5, 6]);
    let n = held.len();
    assert_eq!(answer(&held, n + 1, 0, &long, &long), Err(10));
    assert_eq!(answer(&held, usize::MAX, 0, &long, &long), Err(10));
    assert_eq!(answer(&held, n - 1, 0, &long, &long), Err(10));
    assert_eq!(answer(&held, 0, 0, &long, &long), Err(11));
    assert_eq!(answer(&frame, frame.len(), 0, &long, &long), Err(18));
    assert_eq!(answer(&held, n, 0, &long, &long), Err(19));
    assert_eq!(answer(&held, n, 0, &most, &long), Err(19));
    assert_eq!(answer(&held, n, 0, &long, &most), Err(19));
    assert_eq!(answer(&held, n, 0, &most, &most), Err(9));
    assert_eq!(answer(&held, n, n - 1, &[], &[]), Err(9));
    assert_eq!(answer(&held, n, n, &most, &most), Err(20));
    assert_eq!(answer(&held, n, n, &LEFT, &[5]), Err(20));
    assert_eq!(answer(&held, n, n, &[6], &RIGHT), Err(20));
    assert_eq!(answer(&held, n, n, &[], &RIGHT), Err(20));
    assert_eq!(answer(&held, n, n, &LEFT, &RIGHT), Ok(n));
}

#[test]
fn an_unreferenced_record_that_its_list_lacks_is_20() {
    let mut records = [[0, 0, 5, 0, 0]; 4];
    for (side, number) in [(0, 20), (1, 20), (2, 0)] {
        records[3] = [side, 0, 9, 0, 0];
        let held = with_records(records);
        let given = answer(&held, held.len(), held.len(), &[5], &[5]);
        assert_eq!(given.err().unwrap_or(0), number);
    }
}

/// The same list for both sides; the last place has a high byte.
#[test]
fn as_many_items_as_there_may_be() {
    let mut list: Vec<u16> = (100..).take(MOST_ITEMS).collect();
    (list[MOST_ITEMS - 1], list[256]) = (65_535, 0);
    let (mut plan, n) = (extraction(RELATION, &[65_535, 0]), 15);
    assert_eq!(project(&mut plan, n, &mut [0; 15], &list, &list), Ok(n));
    assert_eq!(plan, extraction(RELATION, &[4_095, 256]));
}

#[test]
fn a_plan_without_columns_needs_no_item() {
    let held = [RELATION, &[4, 0, 0, 0, 4, 0, 0, 0, 0]].concat();
    assert_eq!(answer(&held, 13, 13, &[], &[]), Ok(13));
}

#[test]
fn calls_go_on_from_a_projected_plan() {
    let (mut plan, mut scratch) = (extraction(RELATION, &[5, 6]), vec![0; 15]);
    let mut by = |left: &[u16], right: &[u16]| project(&mut plan, 15, &mut scratch, left, right);
    assert_eq!(by(&LEFT, &RIGHT), Ok(15));
    assert_eq!(by(&LEFT, &RIGHT), Err(Refusal::NotInList));
    assert_eq!(by(&[7, 0, 1], &[9, 0]), Ok(15));
    assert_eq!(plan, extraction(RELATION, &[2, 1]));
    let again = extract_plan(&mut plan, 15, &mut scratch, &[]);
    assert_eq!(again, Err(Refusal::AlreadyExtracted));
}
