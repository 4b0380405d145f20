//! What a site may have indexed: kinds, the default k and the greatest k. The price list's rows are
//! those of the library.

mod common;

use common::{LEFT, RECORDS, RIGHT, call, loaded, price_list};
use spatialjoin::{DEFAULT_K, Extracted, GREATEST_K, Kinds, Refusal, Settings, Unextracted};
use spatialjoin::{exchange, extract, position};

const RELATION: u8 = 0x11;
const DISTANCE: u8 = 0x12;
const KNN: u8 = 0x13;

fn settings(kinds: Kinds, default_k: u32, greatest_k: u32) -> Settings {
    Settings {
        kinds,
        default_k,
        greatest_k,
    }
}

/// A filter in the price list's words: calls of two columns and at most one number, joined by AND.
fn filter(words: &str) -> Vec<u8> {
    let expression = match words.rsplit_once(" AND ") {
        Some((left, right)) => return [b"\x02\0", &filter(left)[..], &filter(right)].concat(),
        None => words.strip_suffix(')').expect("a call"),
    };
    let (name, arguments) = expression.split_once('(').expect("a call");
    let arguments: Vec<Vec<u8>> = arguments.split(", ").map(argument).collect();
    [call(name, arguments.len() as u8), arguments.concat()].concat()
}

/// A number is an Int64.
fn argument(words: &str) -> Vec<u8> {
    match words {
        "L0" => LEFT.to_vec(),
        "R0" => RIGHT.to_vec(),
        number => [
            &b"\x01\x03"[..],
            &number.parse::<i64>().expect("a number").to_be_bytes(),
        ]
        .concat(),
    }
}

fn frame(words: &str) -> Vec<u8> {
    [RECORDS, &filter(words)].concat()
}

/// What an extract under these settings answers, and the plan after it. Exchanged before it is the same
/// answer, and the same first byte, position and k.
fn extracted(words: &str, settings: Settings) -> (Result<Extracted, Unextracted>, Vec<u8>) {
    let (mut plan, n, table) = loaded(&frame(words));
    let mut scratch = vec![0; n];
    exchange(&mut plan, n, &mut scratch).expect("a held frame");
    let exchanged = extract(&mut plan, n, &mut scratch, &table, settings);
    let first: [u8; 3] = plan[..3].try_into().expect("three bytes");
    let its_k = k(&plan);
    let (mut plan, n, table) = loaded(&frame(words));
    let answer = extract(&mut plan, n, &mut scratch, &table, settings);
    assert_eq!(answer, exchanged);
    if answer.is_ok() {
        assert_eq!((&plan[..3], k(&plan)), (&first[..], its_k));
    }
    (answer, plan)
}

/// The k of a KNN extraction.
fn k(plan: &[u8]) -> Option<u32> {
    let bytes = plan[3..7].try_into().expect("four bytes");
    (plan[0] == KNN).then_some(u32::from_be_bytes(bytes))
}

/// The first byte of the plan, or the refusal.
fn line(words: &str, settings: Settings) -> Result<u8, Refusal> {
    let (answer, plan) = extracted(words, settings);
    answer.map(|_| plan[0]).map_err(Refusal::from)
}

fn number(cell: &str) -> Option<u32> {
    let digits = cell.replace(',', "");
    (cell != "–").then(|| digits.parse().expect("a number"))
}

fn kinds(cell: &str) -> Kinds {
    let kind = |word: &str| match word {
        "all" => Kinds::ALL,
        "relations" => Kinds::RELATIONS,
        "distances" => Kinds::DISTANCES,
        "KNN" => Kinds::KNN,
        _ => panic!("{word} is no kind"),
    };
    let all = cell.split(", ").map(kind);
    all.reduce(|some, more| some | more).expect("a kind")
}

/// The cells of a row: filter, kinds, default k, greatest k, line, conjunct, k, and the walk.
#[test]
fn rows_of_the_price_list() {
    let rows = price_list("Under a site's settings");
    assert!(rows.len() >= 12);
    for row in rows {
        let [default_k, greatest_k] = [row[2], row[3]].map(|cell| number(cell).expect("a k"));
        let settings = settings(kinds(row[1]), default_k, greatest_k);
        let (answer, plan) = extracted(row[0].trim_matches('`'), settings);
        let walk = answer.map_or_else(|refused| refused.walk, |extracted| extracted.walk);
        let line = match answer.map_err(Refusal::from) {
            Err(Refusal::NoMatch) => "filtered",
            Err(Refusal::BadSettings) => "none",
            Err(refusal) => panic!("{row:?}: {refusal}"),
            Ok(_) => match plan[0] {
                RELATION => "indexed, relation",
                DISTANCE => "indexed, distance",
                _ => "indexed, KNN",
            },
        };
        assert_eq!(line, row[4], "{row:?}");
        assert_eq!(position(&plan).map(u32::from), number(row[5]), "{row:?}");
        assert_eq!(k(&plan), number(row[6]), "{row:?}");
        assert_eq!(Some(walk), number(row[7]), "{row:?}");
    }
}

#[test]
fn each_kind_has_its_bit() {
    let conjuncts = [
        ("st_within(L0, R0)", Kinds::RELATIONS, RELATION),
        ("st_dwithin(L0, R0, 5)", Kinds::DISTANCES, DISTANCE),
        ("st_knn(L0, R0, 5)", Kinds::KNN, KNN),
    ];
    for bits in 1..=7 {
        let allowed = settings(Kinds::from_bits(bits), 1, 5);
        for (words, kind, first) in conjuncts {
            let expected = match bits & kind.bits() {
                0 => Err(Refusal::NoMatch),
                _ => Ok(first),
            };
            assert_eq!(line(words, allowed), expected, "{words}, {bits}");
        }
    }
}

#[test]
fn a_kind_left_out_leaves_the_next_match() {
    let all = "st_dwithin(L0, R0, 5) AND st_knn(L0, R0) AND st_within(L0, R0)";
    let taken = |kinds| {
        let (answer, plan) = extracted(all, settings(kinds, 1, 1));
        (plan[0], position(&plan), answer.expect("it matches").walk)
    };
    assert_eq!(taken(Kinds::ALL), (KNN, Some(1), 4));
    assert_eq!(taken(Kinds::KNN), (KNN, Some(1), 4));
    let others = Kinds::RELATIONS | Kinds::DISTANCES;
    assert_eq!(taken(others), (DISTANCE, Some(0), 5));
    assert_eq!(taken(Kinds::RELATIONS), (RELATION, Some(2), 5));
}

#[test]
fn a_k_at_the_greatest_matches_and_one_above_does_not() {
    for greatest in [1, 2, 5, 255, 256, 65_536, GREATEST_K - 1] {
        let allowed = settings(Kinds::ALL, 1, greatest);
        let words = |k| format!("st_knn(L0, R0, {k})");
        assert_eq!(line(&words(u64::from(greatest)), allowed), Ok(KNN));
        let above = line(&words(u64::from(greatest) + 1), allowed);
        assert_eq!(above, Err(Refusal::NoMatch));
    }
    let words = |k: u64| format!("st_knn(L0, R0, {k})");
    let most = u64::from(GREATEST_K);
    assert_eq!(line(&words(most), Settings::default()), Ok(KNN));
    let above = line(&words(most + 1), Settings::default());
    assert_eq!(above, Err(Refusal::NoMatch));
    assert_eq!(
        line(&words(0), settings(Kinds::ALL, 3, 9)),
        Err(Refusal::NoMatch)
    );
}

#[test]
fn two_arguments_take_the_default_k_and_three_their_own() {
    for default_k in [1, 2, 255, 256, 65_536, GREATEST_K] {
        let (_, plan) = extracted("st_knn(L0, R0)", settings(Kinds::KNN, default_k, default_k));
        assert_eq!(k(&plan), Some(default_k));
        let (_, plan) = extracted(
            "st_knn(L0, R0, 3)",
            settings(Kinds::KNN, default_k, GREATEST_K),
        );
        assert_eq!(k(&plan), Some(3));
    }
}

/// Of each of these everything else is wrong too, or nothing: 24 comes first, with a walk of 0, and
/// nothing is written.
#[test]
fn bad_settings_come_first() {
    let mut bad: Vec<Settings> = [0, 8, 9, 15, 16, 128, 255]
        .map(|bits| settings(Kinds::from_bits(bits), 1, GREATEST_K))
        .to_vec();
    for (default_k, greatest_k) in [(0, 0), (0, 1), (0, GREATEST_K), (1, 0), (2, 1), (6, 5)] {
        bad.push(settings(Kinds::ALL, default_k, greatest_k));
        bad.push(settings(Kinds::RELATIONS, default_k, greatest_k));
    }
    bad.push(settings(Kinds::KNN, GREATEST_K, GREATEST_K - 1));
    let expected = Err(Unextracted {
        refusal: Refusal::BadSettings,
        walk: 0,
    });
    for settings in bad {
        let (mut plan, n, table) = loaded(&frame("st_knn(L0, R0) AND st_within(L0, R0)"));
        let before = plan.clone();
        let mut scratch = vec![7; n];
        let plans = [(n, n), (n, 0), (n - 1, n), (0, n), (usize::MAX, 0)];
        for (n, room) in plans {
            let answer = extract(&mut plan, n, &mut scratch[..room], &table, settings);
            assert_eq!(answer, expected, "{settings:?}");
            let answer = extract(&mut plan, n, &mut scratch[..room], &[], settings);
            assert_eq!(answer, expected, "{settings:?}");
        }
        assert_eq!((&plan, &scratch), (&before, &vec![7; n]));
        let n = common::extract_plan(&mut plan, n, &mut scratch, &table).expect("it matches");
        let answer = extract(&mut plan, n, &mut scratch, &table, settings);
        assert_eq!(answer, expected, "{settings:?}");
    }
}

#[test]
fn the_ends_of_the_ranges_are_good() {
    for settings in [
        settings(Kinds::from_bits(1), 1, 1),
        settings(Kinds::from_bits(7), 1, GREATEST_K),
        settings(Kinds::from_bits(7), GREATEST_K, GREATEST_K),
    ] {
        assert_eq!(line("st_within(L0, R0)", settings), Ok(RELATION));
    }
}

/// Settings concern matching alone.
#[test]
fn an_extraction_is_held_whatever_the_settings() {
    let (mut plan, n, table) = loaded(&frame("st_knn(L0, R0, 5)"));
    let mut scratch = vec![0; n];
    let n = common::extract_plan(&mut plan, n, &mut scratch, &table).expect("it matches");
    let narrow = settings(Kinds::RELATIONS, 1, 4);
    let again = extract(&mut plan, n, &mut scratch, &table, narrow);
    assert_eq!(again.map_err(Refusal::from), Err(Refusal::AlreadyExtracted));
    assert_eq!(exchange(&mut plan, n, &mut scratch), Ok(n));
}

#[test]
fn the_default_settings() {
    let defaults = Settings::default();
    assert_eq!(defaults, settings(Kinds::ALL, DEFAULT_K, GREATEST_K));
    assert_eq!((DEFAULT_K, GREATEST_K), (1, 4_294_967_295));
    let all = Kinds::RELATIONS | Kinds::DISTANCES | Kinds::KNN;
    assert_eq!((all, all.bits()), (Kinds::ALL, 7));
}
