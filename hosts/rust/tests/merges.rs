//! Merged filters: row policies and their price lines, every refusal of merge, the table of a merge.

mod common;

use common::{LEFT, STRAY, bytes, call, extract_plan, frame_of, good, levels, loaded, price_list};
use common::{table, text_of};
use spatialjoin::{MOST_BYTES, Refusal, merge};

#[test]
fn the_worked_run_with_a_row_policy() {
    let line = |text: &str| bytes(text.lines().next().expect("a frame"));
    let frame = line(include_str!("../../../examples/worked-run.txt"));
    let policy = line(include_str!("../../../examples/row-policy.txt"));
    let answers = include_str!("../../../examples/row-policy-answers.txt");
    let answers: Vec<&str> = answers.lines().collect();
    let (mut plan, n, mut table) = loaded(&frame);
    let mut scratch = vec![7; MOST_BYTES];
    assert_eq!([&[0], &plan[..n]].concat(), bytes(answers[0]));
    let merged = merge(&policy, &mut plan, n, &mut scratch, &mut table).expect("two good frames");
    assert_eq!(merged, n + policy.len() - 1);
    assert_eq!([&[0], &plan[..merged]].concat(), bytes(answers[1]));
    assert_eq!(scratch[..n], frame);
    assert_eq!(scratch[n..], vec![7; MOST_BYTES - n]);
    assert_eq!(plan[merged..], vec![0; MOST_BYTES - merged]);
    assert_eq!(text_of(&plan[..merged]), answers[2]);
    let extracted = extract_plan(&mut plan, merged, &mut scratch, &table).expect("it matches");
    assert_eq!([&[0], &plan[..extracted]].concat(), bytes(answers[3]));
}

/// The cells of a row: held filter, policy, the answer's first digits, and the line.
#[test]
fn price_lines_with_a_row_policy() {
    let lines = include_str!("../../../examples/row-policies.txt").lines();
    let frames: Vec<Vec<u8>> = lines.map(bytes).collect();
    let rows = price_list("With a row policy");
    assert_eq!(frames.len(), 2 * rows.len());
    for (pair, row) in frames.chunks(2).zip(rows) {
        let (mut plan, n, mut table) = loaded(&pair[0]);
        let mut scratch = vec![0; MOST_BYTES];
        let n = merge(&pair[1], &mut plan, n, &mut scratch, &mut table).expect("two good frames");
        let (answer, line) = match extract_plan(&mut plan, n, &mut scratch, &table) {
            Ok(length) => {
                let line = ["indexed, relation", "indexed, distance", "indexed, KNN"];
                let line = line[usize::from(plan[0] - 0x11)];
                ([&[0], &plan[..length]].concat(), line)
            }
            Err(refusal) => (vec![refusal.number()], "filtered"),
        };
        let digits: String = row[2].chars().filter(char::is_ascii_hexdigit).collect();
        assert!(answer.starts_with(&bytes(&digits)), "{row:?}");
        assert_eq!(line, row[3]);
    }
}

/// What a merge into `good()` answers with so much scratch and plan buffer; refused, it changes
/// nothing.
fn merge_into_good(frame: &[u8], scratch: usize, room: usize) -> Result<usize, Refusal> {
    let mut plan = good();
    let n = plan.len();
    plan.resize(room, 7);
    let (before, mut scratch) = (plan.clone(), vec![7; scratch]);
    let mut nodes = table();
    let answer = merge(frame, &mut plan, n, &mut scratch, &mut nodes);
    let kept = plan == before && scratch == vec![7; scratch.len()] && nodes == table();
    assert!(answer.is_ok() || kept);
    answer
}

#[test]
fn refusals_of_a_merge() {
    let (good, n) = (good(), good().len());
    let alone = |frame: &[u8]| merge_into_good(frame, 0, n);
    assert_eq!(alone(b""), Err(Refusal::FrameLength));
    assert_eq!(alone(b"\x02"), Err(Refusal::FirstByte));
    assert_eq!(alone(&good[..9]), Err(Refusal::FrameEnds));
    assert_eq!(alone(&frame_of(b"\x05")), Err(Refusal::OutOfRange));
    assert_eq!(alone(&frame_of(&levels(65))), Err(Refusal::TooLarge));
    assert_eq!(alone(&frame_of(LEFT)), Err(Refusal::NoSuchColumn));
    let longer = [&good[..], b"\0"].concat();
    assert_eq!(alone(&longer), Err(Refusal::BytesAfter));
    let fewer = frame_of(&call("st_within", 0));
    assert_eq!(alone(&fewer), Err(Refusal::TooFewArguments));
    assert_eq!(merge_into_good(&good, n, n - 1), Err(Refusal::NoGoodPlan));
    assert_eq!(alone(&frame_of(&levels(64))), Err(Refusal::MergedTooLarge));
    assert_eq!(alone(&good), Err(Refusal::TooShort));
    let merged = 2 * n - 1;
    for (scratch, room) in [(n - 1, merged), (n, merged - 1), (n, n)] {
        let refused = merge_into_good(&good, scratch, room);
        assert_eq!(refused, Err(Refusal::TooShort));
    }
    assert_eq!(merge_into_good(&good, n, merged), Ok(merged));
    let deep = frame_of(&levels(63));
    assert!(merge_into_good(&deep, n, MOST_BYTES).is_ok());
}

#[test]
fn refusals_of_a_merge_by_the_plan() {
    let (mut plan, n, mut table) = loaded(&good());
    let mut scratch = vec![0; n];
    let empty = merge(&good(), &mut plan, 0, &mut scratch, &mut table);
    assert_eq!(empty, Err(Refusal::PlanEmpty));
    let cut = merge(&good(), &mut plan, n - 1, &mut scratch, &mut table);
    assert_eq!(cut, Err(Refusal::NoGoodPlan));
    let extracted = extract_plan(&mut plan, n, &mut scratch, &table).expect("it matches");
    let late = merge(&good(), &mut plan, extracted, &mut scratch, &mut table);
    assert_eq!(late, Err(Refusal::AlreadyExtracted));
}

/// Merged, `good()` and itself have 7 nodes.
#[test]
fn the_table_of_a_merge() {
    let (mut plan, n, _) = loaded(&good());
    let mut scratch = vec![0; n];
    let mut short = [STRAY; 6];
    let refused = merge(&good(), &mut plan, n, &mut scratch, &mut short);
    assert_eq!(refused, Err(Refusal::TableTooShort));
    assert_eq!((&plan[..n], short), (&good()[..], [STRAY; 6]));
    let refused = merge(&good(), &mut plan, n, &mut scratch[1..], &mut short);
    assert_eq!(refused, Err(Refusal::TooShort));
    let mut table = [STRAY; 8];
    let merged = merge(&good(), &mut plan, n, &mut scratch, &mut table).expect("there is room");
    let (_, _, afresh) = loaded(&plan[..merged]);
    assert_eq!(table[..7], afresh[..7]);
    assert_eq!(table[7], STRAY);
    assert!(extract_plan(&mut plan, merged, &mut vec![0; merged], &table).is_ok());
}
