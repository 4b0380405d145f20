//! The worked run, every refusal of load, extract and exchange, tables of nodes, positions, and what
//! the header says. The other calls' tests are in `texts.rs`, `merges.rs`, `logical.rs`,
//! `projections.rs` and `queues.rs`, those of an extract's walk in `walks.rs`,
//! of its settings in `settings.rs`.

mod common;

use common::{LEFT, RECORDS, RIGHT, STRAY, bytes, call, extract_plan, frame_of, good, levels};
use common::{loaded, table};
use spatialjoin::{DEFAULT_K, GREATEST_K, Kinds, Node, Refusal, exchange, load, merge, position};
use spatialjoin::{MOST_BYTES, MOST_ITEMS, MOST_NODES, MOST_QUEUED, MOST_TEXT, MOST_WAITING};
use spatialjoin::{QUEUES_BYTES, Queue, STACK_BYTES};

/// What a load of the frame into a long buffer answers; refused, it changes nothing.
fn load_alone(frame: &[u8]) -> Result<usize, Refusal> {
    let (mut plan, mut nodes) = (vec![7; MOST_BYTES], table());
    let answer = load(frame, &mut plan, &mut nodes);
    assert!(answer.is_ok() || plan == vec![7; MOST_BYTES] && nodes == table());
    answer
}

#[test]
fn worked_run() {
    let run = include_str!("../../../examples/worked-run.txt").lines();
    let answers = include_str!("../../../examples/worked-run-answers.txt").lines();
    let (mut plan, mut scratch, mut n) = (vec![0; MOST_BYTES], vec![0; MOST_BYTES], 0);
    let (mut nodes, mut lines) = (table(), 0);
    for (line, answer) in run.zip(answers) {
        let given = match line {
            "21" => extract_plan(&mut plan, n, &mut scratch, &nodes),
            "22" => exchange(&mut plan, n, &mut scratch),
            _ => load(&bytes(line), &mut plan, &mut nodes),
        };
        let expected = bytes(answer);
        match given {
            Ok(length) => {
                n = length;
                assert_eq!([&[0], &plan[..n]].concat(), expected);
            }
            Err(refusal) => assert_eq!([refusal.number()], expected[..]),
        }
        lines += 1;
    }
    assert_eq!(lines, 4);
}

#[test]
fn refusals_of_a_load() {
    let deep = |count| frame_of(&levels(count));
    let long = vec![1; MOST_BYTES + 1];
    let good = good();
    assert_eq!(load_alone(&good), Ok(good.len()));
    assert_eq!(load_alone(b""), Err(Refusal::FrameLength));
    assert_eq!(load_alone(&long), Err(Refusal::FrameLength));
    assert_eq!(load_alone(b"\x02"), Err(Refusal::FirstByte));
    assert_eq!(load_alone(&good[..9]), Err(Refusal::FrameEnds));
    assert_eq!(load_alone(&frame_of(b"\x05")), Err(Refusal::OutOfRange));
    assert_eq!(load_alone(&deep(64)), Ok(3 + 64 * 4));
    assert_eq!(load_alone(&deep(65)), Err(Refusal::TooLarge));
    assert_eq!(load_alone(&frame_of(LEFT)), Err(Refusal::NoSuchColumn));
    let longer = [&good[..], b"\0"].concat();
    assert_eq!(load_alone(&longer), Err(Refusal::BytesAfter));
    let fewer = frame_of(&call("st_within", 0));
    assert_eq!(load_alone(&fewer), Err(Refusal::TooFewArguments));
    let mut short = vec![7; good.len() - 1];
    for records in [0, 3] {
        let refused = load(&good, &mut short, &mut vec![STRAY; records]);
        assert_eq!(refused, Err(Refusal::TooShort));
    }
    assert_eq!(load(&good, &mut [], &mut []), Err(Refusal::TooShort));
    let (mut plan, mut nodes) = (vec![7; good.len()], [STRAY; 2]);
    let refused = load(&good, &mut plan, &mut nodes);
    assert_eq!(refused, Err(Refusal::TableTooShort));
    assert_eq!((plan, nodes), (vec![7; good.len()], [STRAY; 2]));
}

/// The nodes of `good()`.
const GOOD_NODES: [Node; 3] = [
    Node {
        kind: 3,
        start: 13,
        end: 35,
    },
    Node {
        kind: 0,
        start: 25,
        end: 30,
    },
    Node {
        kind: 0,
        start: 30,
        end: 35,
    },
];

#[test]
fn tables_of_nodes() {
    let (_, n, table) = loaded(&good());
    assert_eq!(table[..3], GOOD_NODES);
    assert_eq!(table[3..], [STRAY; MOST_NODES - 3]);
    let mut exact = [STRAY; 3];
    assert_eq!(load(&good(), &mut vec![0; n], &mut exact), Ok(n));
    assert_eq!(exact, GOOD_NODES);
    assert_eq!(size_of::<[Node; MOST_NODES]>(), 6_144);
}

/// Of 16,384 bytes: 256 records, and functions of long names below nodes of 16 children.
#[test]
fn the_table_of_the_longest_frame() {
    let node = |length: usize, arguments| call(&"f".repeat(length), arguments);
    let mut leaves = vec![node(32, 0); 82];
    leaves.extend(vec![[node(32, 1), node(32, 0)].concat(); 173]);
    leaves.push([node(15, 1), node(32, 0)].concat());
    let parts = leaves.chunks(16).map(|sixteen| {
        let head = [4, 0, 0, 16];
        [&head[..], &sixteen.concat()].concat()
    });
    let filter = [&[4, 0, 0, 16], &parts.collect::<Vec<_>>().concat()[..]].concat();
    let frame = [&[1, 1, 0], &[0; 5 * 256][..], &filter].concat();
    assert_eq!(frame.len(), MOST_BYTES);
    let (mut plan, n, table) = loaded(&frame);
    let root = Node {
        kind: 4,
        start: 3 + 5 * 256,
        end: 16_384,
    };
    assert_eq!(table[0], root);
    let last = table.iter().rposition(|node| *node != STRAY);
    assert_eq!(table[last.expect("a node")].end, 16_384);
    let refused = extract_plan(&mut plan, n, &mut vec![0; n], &table);
    assert_eq!(refused, Err(Refusal::NoMatch));
}

/// What an extract of `good()` answers with this table, and with the filter exchanged before.
fn extracted_with(table: &[Node]) -> Result<usize, Refusal> {
    let (mut plan, n, _) = loaded(&good());
    let mut scratch = vec![0; n];
    exchange(&mut plan, n, &mut scratch).expect("a held frame");
    let exchanged = extract_plan(&mut plan, n, &mut scratch, table);
    let (mut plan, n, _) = loaded(&good());
    let answer = extract_plan(&mut plan, n, &mut scratch, table);
    assert_eq!(answer, exchanged);
    answer
}

#[test]
fn an_extract_needs_the_frame_s_table() {
    let accepted = extracted_with(&GOOD_NODES);
    assert!(accepted.is_ok());
    assert_eq!(
        extracted_with(&[&GOOD_NODES[..], &[STRAY]].concat()),
        accepted
    );
    assert_eq!(extracted_with(&GOOD_NODES[..2]), Err(Refusal::NoGoodPlan));
    assert_eq!(extracted_with(&[]), Err(Refusal::NoGoodPlan));
    for index in 0..3 {
        for field in 0..3 {
            let mut wrong = GOOD_NODES;
            match field {
                0 => wrong[index].kind += 1,
                1 => wrong[index].start += 1,
                _ => wrong[index].end += 1 << 15,
            }
            assert_eq!(extracted_with(&wrong), Err(Refusal::NoGoodPlan));
        }
    }
}

#[test]
fn refusals_of_an_extract() {
    let (mut plan, n, table) = loaded(&good());
    let mut scratch = vec![0; n];
    let past = plan.len() + 1;
    let refused = extract_plan(&mut plan, past, &mut scratch, &table);
    assert_eq!(refused, Err(Refusal::NoGoodPlan));
    let refused = extract_plan(&mut plan, n - 1, &mut scratch, &table);
    assert_eq!(refused, Err(Refusal::NoGoodPlan));
    let refused = extract_plan(&mut plan, 0, &mut scratch, &table);
    assert_eq!(refused, Err(Refusal::PlanEmpty));
    let refused = extract_plan(&mut plan, n, &mut scratch[1..], &table);
    assert_eq!(refused, Err(Refusal::TooShort));
    assert_eq!(plan[..n], good());

    let extracted = extract_plan(&mut plan, n, &mut scratch, &table).expect("it matches");
    assert_eq!(
        plan[..extracted],
        [&[0x11, 0, 0, 2], LEFT, LEFT, &[0]].concat()
    );
    assert_eq!(scratch, good());
    for table in [&table[..], &[]] {
        let again = extract_plan(&mut plan, extracted, &mut scratch, table);
        assert_eq!(again, Err(Refusal::AlreadyExtracted));
    }

    let (mut plan, n, table) = loaded(&[RECORDS, LEFT].concat());
    let refused = extract_plan(&mut plan, n, &mut scratch, &table);
    assert_eq!(refused, Err(Refusal::NoMatch));
}

/// What an extract of `st_dwithin` of a left and a right column answers with this bound; column 2 is a
/// mark column.
fn extracted_within(bound: &[u8]) -> Result<u8, Refusal> {
    let records = b"\x01\0\x03\0\0\0\0\0\x01\0\0\0\0\x02\0\0\0\0";
    let frame = [records, &call("st_dwithin", 3)[..], LEFT, RIGHT, bound].concat();
    let (mut plan, n, table) = loaded(&frame);
    extract_plan(&mut plan, n, &mut vec![0; n], &table).map(|_| plan[4])
}

#[test]
fn a_bound_with_a_mark_column_does_not_match() {
    let mark = b"\0\0\x02\0\0";
    let both = |first: &[u8], second: &[u8]| [b"\x02\x05", first, second].concat();
    assert_eq!(extracted_within(b"\x04\0\0\0"), Ok(2));
    assert_eq!(extracted_within(LEFT), Ok(0));
    assert_eq!(extracted_within(&both(RIGHT, RIGHT)), Ok(1));
    for bound in [
        mark,
        &both(mark, mark)[..],
        &both(LEFT, mark),
        &both(mark, RIGHT),
    ] {
        assert_eq!(extracted_within(bound), Err(Refusal::NoMatch));
    }
}

#[test]
fn refusals_of_an_exchange() {
    let (mut plan, n, _) = loaded(&good());
    let mut scratch = vec![0; n];
    assert_eq!(
        exchange(&mut plan, n - 1, &mut scratch),
        Err(Refusal::NoGoodPlan)
    );
    assert_eq!(
        exchange(&mut plan, 0, &mut scratch),
        Err(Refusal::PlanEmpty)
    );
    let refused = exchange(&mut plan, n, &mut scratch[1..]);
    assert_eq!(refused, Err(Refusal::TooShort));
    assert_eq!(exchange(&mut plan, n, &mut scratch), Ok(n));
    assert_eq!(scratch, good());
}

#[test]
fn the_position_of_the_conjunct_that_was_taken() {
    let (mut plan, n, mut table) = loaded(&[RECORDS, LEFT].concat());
    let mut scratch = vec![0; MOST_BYTES];
    let n = merge(&good(), &mut plan, n, &mut scratch, &mut table).expect("two good frames");
    assert_eq!(position(&plan[..n]), None);
    let n = extract_plan(&mut plan, n, &mut scratch, &table).expect("the second matches");
    assert_eq!(position(&plan[..n]), Some(1));
    plan[1..3].copy_from_slice(&[0xff, 0xfe]);
    let n = exchange(&mut plan, n, &mut scratch).expect("any position is good");
    assert_eq!(position(&plan[..n]), Some(65_534));
    assert_eq!(position(&plan[..2]), None);
    assert_eq!(position(&[]), None);
}

#[test]
fn every_refusal_has_its_number_and_text() {
    let numbers: Vec<u8> = (1..=13).chain(15..=24).collect();
    assert_eq!(Refusal::ALL.len(), numbers.len());
    for (refusal, number) in Refusal::ALL.into_iter().zip(numbers) {
        assert_eq!(refusal.number(), number);
        let text = refusal.to_string();
        assert!(text.len() > format!("refusal {number}: ").len());
        assert!(text.starts_with(&format!("refusal {number}: ")));
    }
}

#[test]
fn the_header_has_the_same_limits_and_version() {
    let header = include_str!("../../../include/spatialjoin.h");
    let defines = |name: &str, value: String| {
        let line = format!("#define SPATIALJOIN_{name} {value}");
        assert!(header.lines().any(|known| known == line), "{line}");
    };
    defines("MOST_BYTES", MOST_BYTES.to_string());
    defines("MOST_TEXT", MOST_TEXT.to_string());
    defines("MOST_NODES", MOST_NODES.to_string());
    defines("MOST_ITEMS", MOST_ITEMS.to_string());
    defines("QUEUES_BYTES", QUEUES_BYTES.to_string());
    defines("MOST_QUEUED", MOST_QUEUED.to_string());
    defines("MOST_WAITING", MOST_WAITING.to_string());
    defines("STACK_BYTES", STACK_BYTES.to_string());
    defines("DEFAULT_K", DEFAULT_K.to_string());
    defines("GREATEST_K", format!("{GREATEST_K}u"));
    for (name, number) in [
        ("CHASSIS", Queue::Chassis.number()),
        ("FIXED_UNIT", Queue::FixedUnit.number()),
        ("RELATIONS", Kinds::RELATIONS.bits()),
        ("DISTANCES", Kinds::DISTANCES.bits()),
        ("KNNS", Kinds::KNN.bits()),
        ("ALL_KINDS", Kinds::ALL.bits()),
    ] {
        let line = format!("    SPATIALJOIN_{name} = {number}");
        assert!(
            header
                .lines()
                .any(|known| known.trim_end_matches(',') == line)
        );
    }
    defines("VERSION", format!("{:?}", env!("CARGO_PKG_VERSION")));
    defines("VERSION_MAJOR", env!("CARGO_PKG_VERSION_MAJOR").to_owned());
    defines("VERSION_MINOR", env!("CARGO_PKG_VERSION_MINOR").to_owned());
    defines("VERSION_PATCH", env!("CARGO_PKG_VERSION_PATCH").to_owned());
}
