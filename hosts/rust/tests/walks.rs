//! The walk in an extract's answer: how many And nodes and conjuncts it read. The price list's numbers
//! are those of the library.

mod common;

use common::{LEFT, RECORDS, RIGHT, bytes, call, extract, extract_plan, good, loaded, price_list};
use spatialjoin::{Extracted, MOST_BYTES, Refusal, Unextracted};
use spatialjoin::{exchange, merge, numbers};

/// What an extract of this frame answers, with its children exchanged before or not.
fn extracted(frame: &[u8]) -> Result<Extracted, Unextracted> {
    let (mut plan, n, table) = loaded(frame);
    let mut scratch = vec![0; n];
    exchange(&mut plan, n, &mut scratch).expect("a held frame");
    let exchanged = extract(&mut plan, n, &mut scratch, &table);
    let (mut plan, n, table) = loaded(frame);
    let answer = extract(&mut plan, n, &mut scratch, &table);
    assert_eq!(answer, exchanged);
    answer
}

/// Accepted or refused with 13.
fn walk_of(answer: Result<Extracted, Unextracted>) -> u32 {
    match answer {
        Ok(extracted) => extracted.walk,
        Err(unextracted) => {
            assert_eq!(unextracted.refusal, Refusal::NoMatch);
            unextracted.walk
        }
    }
}

/// A filter in the price list's words: `AND` of two, in brackets where it stands in another. `K` is a
/// KNN that matches, `a` a relation that does, any other letter a column.
fn filter(words: &str) -> Vec<u8> {
    let (mut depth, mut and) = (0, None);
    for (place, character) in words.char_indices() {
        match character {
            '(' => depth += 1,
            ')' => depth -= 1,
            'A' if depth == 0 => and = Some(place),
            _ => (),
        }
    }
    let inside = |words: &str| {
        let words = words.trim();
        let bare = words
            .strip_prefix('(')
            .and_then(|rest| rest.strip_suffix(')'));
        filter(bare.unwrap_or(words))
    };
    match (and, words) {
        (Some(place), _) => {
            let (left, right) = (inside(&words[..place]), inside(&words[place + 3..]));
            [b"\x02\0", &left[..], &right].concat()
        }
        (None, "K") => [&call("st_knn", 2), LEFT, RIGHT].concat(),
        (None, "a") => [&call("st_within", 2), LEFT, RIGHT].concat(),
        (None, _) => LEFT.to_vec(),
    }
}

fn number(cell: &str) -> u32 {
    cell.parse().expect("a number")
}

/// The cells of a row: filter, conjuncts, and the walk.
#[test]
fn walks_of_the_price_list() {
    let rows = price_list("Planning effort");
    assert!(rows.len() >= 9);
    for row in rows {
        let (words, conjuncts) = (row[0].trim_matches('`'), number(row[1]));
        let letters = words.chars().filter(|letter| "Kabc".contains(*letter));
        assert_eq!(letters.count() as u32, conjuncts);
        let walk = walk_of(extracted(&[RECORDS, &filter(words)].concat()));
        assert_eq!(walk, number(row[2]), "{words}");
        assert!(walk < 2 * conjuncts);
        assert!(words.contains('K') || walk == 2 * conjuncts - 1);
    }
}

#[test]
fn walks_of_the_worked_filters() {
    let lines = include_str!("../../../examples/price-lines.txt").lines();
    let frames: Vec<&str> = lines.filter(|line| line.starts_with("01")).collect();
    let rows = price_list("Worked filters");
    assert_eq!(frames.len(), rows.len());
    for (frame, row) in frames.into_iter().zip(rows) {
        assert_eq!(walk_of(extracted(&bytes(frame))), number(row[3]), "{row:?}");
    }
}

#[test]
fn walks_with_a_row_policy() {
    let lines = include_str!("../../../examples/row-policies.txt").lines();
    let frames: Vec<Vec<u8>> = lines.map(bytes).collect();
    let rows = price_list("With a row policy");
    assert_eq!(frames.len(), 2 * rows.len());
    for (pair, row) in frames.chunks(2).zip(rows) {
        let (mut plan, n, mut table) = loaded(&pair[0]);
        let mut scratch = vec![0; MOST_BYTES];
        let n = merge(&pair[1], &mut plan, n, &mut scratch, &mut table).expect("two good frames");
        assert_eq!(walk_of(extracted(&plan[..n])), number(row[4]), "{row:?}");
    }
}

#[test]
fn the_parts_of_an_answer() {
    let (mut plan, n, table) = loaded(&[RECORDS, &filter("a AND b")].concat());
    let mut scratch = vec![0; n];
    let refused = |refusal| Err(Unextracted { refusal, walk: 0 });
    let answer = extract(&mut plan, n, &mut scratch[1..], &table);
    assert_eq!(answer, refused(Refusal::TooShort));
    let answer = extract(&mut plan, n, &mut scratch, &[]);
    assert_eq!(answer, refused(Refusal::NoGoodPlan));
    let answer = extract(&mut plan, 0, &mut scratch, &table);
    assert_eq!(answer, refused(Refusal::PlanEmpty));
    let answer = extract(&mut plan, n, &mut scratch, &table);
    let (length, walk) = (27, 3);
    assert_eq!(answer, Ok(Extracted { length, walk }));
    let answer = extract(&mut plan, length, &mut scratch, &table);
    assert_eq!(answer, refused(Refusal::AlreadyExtracted));
    let (refusal, walk) = (Refusal::NoMatch, 5);
    let answer = extracted(&[RECORDS, &filter("b AND (b AND c)")].concat());
    assert_eq!(answer, Err(Unextracted { refusal, walk }));
}

/// As the macros of the header: the number, then length, walk and refusal.
#[test]
fn the_parts_of_a_number() {
    let parts = [
        (0, (0, 0, 0)),
        (16_384, (16_384, 0, 0)),
        (3 * 65_536 + 27, (27, 3, 0)),
        (2_047 * 65_536 + 16_384, (16_384, 2_047, 0)),
        (-9, (0, 0, 9)),
        (-20, (0, 0, 20)),
        (-24, (0, 0, 24)),
        (-(256 + 13), (0, 1, 13)),
        (-(2_047 * 256 + 13), (0, 2_047, 13)),
    ];
    for (answer, expected) in parts {
        let length = numbers::length_of(answer);
        let (walk, refusal) = (numbers::walk_of(answer), numbers::refusal_of(answer));
        assert_eq!((length, walk, refusal), expected);
    }
}

#[test]
fn an_unextracted_is_a_refusal_too() {
    let (mut plan, n, table) = loaded(&good());
    let refused = extract_plan(&mut plan, n, &mut [], &table);
    assert_eq!(refused, Err(Refusal::TooShort));
    let unextracted = extract(&mut plan, n, &mut [], &table).expect_err("no scratch");
    assert_eq!(unextracted.to_string(), Refusal::TooShort.to_string());
}
