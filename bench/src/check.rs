//! Before anything is timed: ours, plain C, the original and the reading give the same bytes, and plain Rust
//! where it is timed. Of print, merge, project, put, serve, extract_all and explain, which the original has not,
//! all but the original.

use driver::make::damage::damage;
use driver::make::reasons;
use driver::rng::Rng;
use reading::frame::{MAX_BYTES, MAX_NODES, Plan};
use reading::project::{Lists, MAX_ITEMS};
use reading::queues::{MAX_QUEUED, MAX_WAITING, QUEUES_BYTES};
use reading::refusal::Refusal;
use reading::settings::Settings;
use reading::{calls, decode, encode, nodes, walk};
use spatialjoin::{Kinds, MOST_TEXT, Node};

use crate::calls::{Calls, Library, PlainC};
use crate::frames::Group;
use crate::operations::{
    Logical, Merges, Physical, exchange_extraction_bytes, exchange_frame_bytes, extract_from_bytes,
};
use crate::ours::{self, Console, Lent};
use crate::plain;
use crate::projections::Projections;
use crate::queues::Waiting;

/// An extraction's bytes without its position, which the original does not have.
fn without_position(plan: &[u8]) -> Vec<u8> {
    [&plan[..1], &plan[3..]].concat()
}

/// The extraction is the reading's; the original's is, but for the position.
fn same_extraction<C: Calls>(
    what: &str,
    given: &[u8],
    original: &[u8],
    reading: &[u8],
) -> Result<(), String> {
    same::<C>(what, given, reading, reading)?;
    let rest = without_position(reading);
    same::<C>(what, &rest, original, &rest)
}

fn same<C: Calls>(what: &str, given: &[u8], original: &[u8], reading: &[u8]) -> Result<(), String> {
    if given != reading {
        return Err(differs::<C>(what));
    }
    if original != reading {
        return Err(format!("{what}: the original differs from the reading"));
    }
    Ok(())
}

fn differs<C: Calls>(what: &str) -> String {
    format!("{what}: {} differs from the reading", C::WHO)
}

/// What the reading holds after a list of calls.
fn read(frame: &[u8], list: &[&str]) -> Vec<u8> {
    let (mut n, mut plan, mut scratch) = (0, vec![0; MAX_BYTES], vec![0; MAX_BYTES]);
    let mut table = vec![nodes::Node::default(); MAX_NODES];
    calls::load(frame, &mut n, &mut plan, &mut table).expect("the frames are good");
    for call in list {
        let answer = match *call {
            "extract" => {
                let settings = Settings::OF_THE_PROGRAM;
                calls::extract(&mut n, &mut plan, &mut scratch, &table, settings)
            }
            _ => calls::exchange(&mut n, &mut plan, &mut scratch),
        };
        answer.expect("the frames have a match");
    }
    plan.truncate(n);
    plan
}

pub fn physical(physical: &Physical) -> Result<(), String> {
    physical_by::<Library>(physical)?;
    physical_by::<PlainC>(physical)
}

fn physical_by<C: Calls>(physical: &Physical) -> Result<(), String> {
    let functions = &physical.functions;
    for (frame, extraction) in physical.group.frames.iter().zip(&physical.extractions) {
        let name = physical.group.name;
        let mut out = Vec::new();
        let mut lent = Lent::<C>::new();
        lent.load(frame);
        if !lent.table().starts_with(&of_reading(&nodes_of(frame))) {
            return Err(format!("{}, in the table", differs::<C>(name)));
        }
        lent.extract_and_return();
        same::<C>(name, lent.plan(), frame, &read(frame, &[]))?;
        lent.exchange();
        exchange_frame_bytes(frame, functions, &mut out);
        same::<C>(name, lent.plan(), &out, &read(frame, &["exchange"]))?;
        lent.load(frame);
        lent.extract();
        out.clear();
        extract_from_bytes(frame, functions, &mut out);
        same_extraction::<C>(name, lent.plan(), &out, &read(frame, &["extract"]))?;
        if lent.walk() as usize != walk_of(frame) {
            return Err(format!("{}, in the walk", differs::<C>(name)));
        }
        lent.exchange();
        out.clear();
        exchange_extraction_bytes(extraction, functions, &mut out);
        let expected = read(frame, &["extract", "exchange"]);
        same_extraction::<C>(name, lent.plan(), &out, &expected)?;
    }
    Ok(())
}

/// Plain Rust's load and extract, whose refusals are tried too.
pub fn plain(physical: &Physical) -> Result<(), String> {
    for frame in &physical.group.frames {
        if !plain_load(frame) || !plain_extract(frame, &read(frame, &["extract"])) {
            let name = physical.group.name;
            return Err(format!("{name}: plain Rust differs from the reading"));
        }
    }
    Ok(())
}

/// A load by plain Rust and by the reading, into the same buffer and table: both leave the same.
fn loaded_alike(frame: &[u8], room: usize, records: usize) -> bool {
    let mut plain = (vec![0; room], vec![Node::default(); records]);
    let mut read = (vec![0; room], vec![nodes::Node::default(); records]);
    let answer = plain::load(frame, &mut plain.0, &mut plain.1);
    let expected = calls::load(frame, &mut 0, &mut read.0, &mut read.1);
    answer == expected.map_err(Refusal::number) && plain == (read.0, of_reading(&read.1))
}

/// Accepted, and refused by the frame or the room.
fn plain_load(frame: &[u8]) -> bool {
    let (n, count) = (frame.len(), nodes_of(frame).len());
    [
        loaded_alike(frame, MAX_BYTES, MAX_NODES),
        loaded_alike(frame, n, count),
        loaded_alike(frame, n, count - 1),
        loaded_alike(frame, n - 1, count - 1),
        loaded_alike(&frame[..n - 1], n, count),
        loaded_alike(&lent(frame, n + 1), n, count),
        loaded_alike(&frame[1..], n, count),
        loaded_alike(&[], n, count),
    ]
    .into_iter()
    .all(|alike| alike)
}

/// The walk of a good frame.
fn walk_of(frame: &[u8]) -> usize {
    let walk = |frame| walk::length(&frame, Settings::OF_THE_PROGRAM);
    decode::physical(frame).map_or(0, walk)
}

/// The nodes of a frame; none of other bytes.
pub fn nodes_of(frame: &[u8]) -> Vec<nodes::Node> {
    decode::physical(frame).map_or(Vec::new(), |frame| nodes::table(&frame))
}

/// The reading's records as the library's.
pub fn of_reading(table: &[nodes::Node]) -> Vec<Node> {
    let record = |node: &nodes::Node| Node {
        kind: node.kind,
        start: node.start,
        end: node.end,
    };
    table.iter().map(record).collect()
}

/// The program's settings, each kind alone with other ks, and bad ones: kinds, default k, greatest k.
const SETTINGS: [(u8, u32, u32); 9] = [
    (7, 1, u32::MAX),
    (1, 1, 1),
    (2, 1, 1),
    (4, 3, 3),
    (7, 2, 4),
    (0, 1, u32::MAX),
    (8, 1, u32::MAX),
    (7, 0, 1),
    (7, 2, 1),
];

/// Likewise an extract, whose buffers are two, with the plan's own table and with one that lacks a
/// record, under each of these settings.
fn extracted_alike(plan: &[u8], n: usize, scratch: usize) -> bool {
    let table = nodes_of(plan.get(..n).unwrap_or_default());
    let short = table.len().saturating_sub(1);
    let settings = SETTINGS.map(|(kinds, default_k, greatest_k)| Settings {
        kinds,
        default_k,
        greatest_k,
    });
    let tables = [&table[..], &table[..short]];
    let mut pairs = tables.into_iter().flat_map(|table| {
        let with = move |settings| (table, settings);
        settings.into_iter().map(with)
    });
    pairs.all(|(table, settings)| {
        let mut plain = (plan.to_vec(), vec![0; scratch]);
        let mut read = plain.clone();
        let walk = calls::walk(n, &read.0, &read.1, table, settings);
        let (nodes, given) = (of_reading(table), to_library(settings));
        let walked = plain::extract(&mut plain.0, n, &mut plain.1, &nodes, given);
        let expected = calls::extract(&mut { n }, &mut read.0, &mut read.1, table, settings);
        let answered = walked.answer == expected.map_err(Refusal::number);
        answered && walked.walk as usize == walk && plain == read
    })
}

/// The reading's settings as the library's.
fn to_library(settings: Settings) -> spatialjoin::Settings {
    spatialjoin::Settings {
        kinds: Kinds::from_bits(settings.kinds),
        default_k: settings.default_k,
        greatest_k: settings.greatest_k,
    }
}

/// Accepted, and refused by the plan or the room, or since no conjunct of the remainder matches.
fn plain_extract(frame: &[u8], extraction: &[u8]) -> bool {
    let n = frame.len();
    let remainder = decode::plan(extraction).ok().and_then(|plan| match plan {
        Plan::Extraction(extraction) => extraction.remainder,
        Plan::Frame(_) => None,
    });
    let rest = remainder.map_or(Vec::new(), |frame| encode::physical(&frame));
    [
        extracted_alike(&lent(frame, MAX_BYTES), n, MAX_BYTES),
        extracted_alike(frame, n, n),
        extracted_alike(frame, n, n - 1),
        extracted_alike(frame, n - 1, n),
        extracted_alike(&lent(frame, n + 1), n + 1, n + 1),
        extracted_alike(frame, 0, n),
        extracted_alike(frame, n + 1, n),
        extracted_alike(extraction, extraction.len(), 0),
        extracted_alike(extraction, extraction.len() - 1, 0),
        extracted_alike(&rest, rest.len(), n),
    ]
    .into_iter()
    .all(|alike| alike)
}

/// These bytes in a buffer of this length.
fn lent(bytes: &[u8], room: usize) -> Vec<u8> {
    let mut plan = bytes.to_vec();
    plan.resize(room, 0);
    plan
}

pub fn print(physical: &Physical) -> Result<(), String> {
    for frame in &physical.group.frames {
        let name = physical.group.name;
        let mut text = vec![0; MOST_TEXT];
        let length = calls::print(frame, &mut text).expect("the frames are good");
        let mut plain = vec![0; MOST_TEXT];
        if plain::print(frame, &mut plain) != Ok(length) || plain != text {
            return Err(format!("{name}: plain Rust differs from the reading"));
        }
        printed_by::<Library>(name, frame, &text[..length])?;
        printed_by::<PlainC>(name, frame, &text[..length])?;
    }
    Ok(())
}

fn printed_by<C: Calls>(name: &str, frame: &[u8], text: &[u8]) -> Result<(), String> {
    let mut console = Console::<C>::new();
    console.print(frame);
    match console.text() == text {
        true => Ok(()),
        false => Err(differs::<C>(name)),
    }
}

/// A merge by plain Rust and by the reading, on the same buffers and tables, one of which lacks a
/// record: both leave the same.
fn merged_alike(frame: &[u8], plan: &[u8], n: usize, scratch: usize) -> bool {
    let held = nodes_of(plan.get(..n).unwrap_or_default());
    let count = held.len() + nodes_of(frame).len();
    [count, count + 1, MAX_NODES].into_iter().all(|records| {
        let mut plain = (
            plan.to_vec(),
            vec![0; scratch],
            vec![Node::default(); records],
        );
        let mut read = (plan.to_vec(), vec![0; scratch]);
        let mut table = vec![nodes::Node::default(); records];
        let answer = plain::merge(frame, &mut plain.0, n, &mut plain.1, &mut plain.2);
        let expected = calls::merge(frame, &mut { n }, &mut read.0, &mut read.1, &mut table);
        let read = (read.0, read.1, of_reading(&table));
        answer == expected.map_err(Refusal::number) && plain == read
    })
}

/// Accepted, and refused by the frame, the plan or the room.
fn plain_merge(held: &[u8], new: &[u8], extraction: &[u8]) -> bool {
    let (n, merged) = (held.len(), held.len() + new.len() - 1);
    let plan = lent(held, MAX_BYTES);
    let taken = lent(extraction, MAX_BYTES);
    let full = lent(&read_merged(held, new), MAX_BYTES);
    [
        merged_alike(new, &plan, n, MAX_BYTES),
        merged_alike(new, &lent(held, merged), n, n),
        merged_alike(new, &lent(held, merged - 1), n, n),
        merged_alike(new, &plan, n, n - 1),
        merged_alike(new, &plan, n - 1, n),
        merged_alike(new, &plan, 0, n),
        merged_alike(new, held, n + 1, n),
        merged_alike(&new[..new.len() - 1], &plan, n, n),
        merged_alike(&lent(new, new.len() + 1), &plan, n, n),
        merged_alike(new, &taken, extraction.len(), 0),
        merged_alike(new, &taken, extraction.len() - 1, 0),
        merged_alike(new, &full, merged, 0),
    ]
    .into_iter()
    .all(|alike| alike)
}

/// Ours, plain C's and plain Rust's, whose refusals are tried too: those of the others are
/// `oracle/compare-library`'s to try.
pub fn merge(merges: &Merges) -> Result<(), String> {
    let name = merges.pairs.name;
    for (held, new) in merges.pairs.held.iter().zip(&merges.pairs.new) {
        if !plain_merge(held, new, &read(held, &["extract"])) {
            return Err(format!("{name}: plain Rust differs from the reading"));
        }
        merged_by::<Library>(name, held, new)?;
        merged_by::<PlainC>(name, held, new)?;
    }
    Ok(())
}

fn merged_by<C: Calls>(name: &str, held: &[u8], new: &[u8]) -> Result<(), String> {
    let mut lent = Lent::<C>::new();
    lent.load(held);
    lent.merge(new);
    let merged = read_merged(held, new);
    if lent.plan() != merged || !lent.table().starts_with(&of_reading(&nodes_of(&merged))) {
        return Err(differs::<C>(name));
    }
    lent.load(held);
    lent.merge_and_return(new);
    match lent.plan() == held {
        true => Ok(()),
        false => Err(format!(
            "{}: the held frame is not in the scratch",
            differs::<C>(name)
        )),
    }
}

fn read_merged(held: &[u8], new: &[u8]) -> Vec<u8> {
    let (mut n, mut plan, mut scratch) = (0, vec![0; MAX_BYTES], vec![0; MAX_BYTES]);
    let mut table = vec![nodes::Node::default(); MAX_NODES];
    calls::load(held, &mut n, &mut plan, &mut table).expect("the frames are good");
    calls::merge(new, &mut n, &mut plan, &mut scratch, &mut table)
        .expect("the frames are within the limits");
    plan.truncate(n);
    plan
}

/// A projection by plain Rust and by the reading, on the same buffers: both leave the same.
fn projected_alike(plan: &[u8], n: usize, scratch: usize, left: &[u16], right: &[u16]) -> bool {
    let mut plain = (plan.to_vec(), vec![0; scratch]);
    let mut read = plain.clone();
    let answer = plain::project(&mut plain.0, n, &mut plain.1, left, right);
    let lists = Lists { left, right };
    let expected = calls::project(&mut { n }, &mut read.0, &mut read.1, lists);
    answer == expected.map_err(Refusal::number) && plain == read
}

/// Accepted, and refused by the plan, the lists or the room.
fn plain_project(plan: &[u8], [left, right]: &[Vec<u16>; 2]) -> bool {
    let n = plan.len();
    let long = vec![0; MAX_ITEMS + 1];
    let frame = [1, 0, 0, 4, 0, 0, 0];
    [
        projected_alike(&lent(plan, MAX_BYTES), n, MAX_BYTES, left, right),
        projected_alike(plan, n, n, left, right),
        projected_alike(plan, n, n - 1, left, right),
        projected_alike(plan, n - 1, n, left, right),
        projected_alike(&lent(plan, n + 1), n + 1, n + 1, left, right),
        projected_alike(plan, 0, n, left, right),
        projected_alike(plan, n + 1, n, left, right),
        projected_alike(&frame, frame.len(), n, left, right),
        projected_alike(plan, n, 0, &long, right),
        projected_alike(plan, n, 0, left, &long),
        projected_alike(plan, n, n, &left[1..], right),
        projected_alike(plan, n, n, left, &right[1..]),
        projected_alike(plan, n, n, right, left),
        projected_alike(plan, n, n, &[], &[]),
    ]
    .into_iter()
    .all(|alike| alike)
}

/// Ours, plain C's and plain Rust's, whose refusals are tried too.
pub fn project(projections: &Projections) -> Result<(), String> {
    let name = projections.name;
    for (plan, lists) in projections.plans.iter().zip(&projections.lists) {
        if !plain_project(plan, lists) {
            return Err(format!("{name}: plain Rust differs from the reading"));
        }
        let (mut read, mut scratch) = (plan.clone(), vec![0; plan.len()]);
        let [left, right] = lists;
        let answer = calls::project(
            &mut plan.len(),
            &mut read,
            &mut scratch,
            Lists { left, right },
        );
        answer.expect("the lists have all columns");
        projected_by::<Library>(name, plan, lists, &read)?;
        projected_by::<PlainC>(name, plan, lists, &read)?;
    }
    Ok(())
}

fn projected_by<C: Calls>(
    name: &str,
    plan: &[u8],
    lists: &[Vec<u16>; 2],
    read: &[u8],
) -> Result<(), String> {
    let mut lent = Lent::<C>::new();
    lent.hold(plan);
    lent.project(lists);
    if lent.plan() != read {
        return Err(differs::<C>(name));
    }
    lent.hold(plan);
    lent.project_and_return(lists);
    match lent.plan() == plan {
        true => Ok(()),
        false => Err(format!(
            "{}: the extraction is not in the scratch",
            differs::<C>(name)
        )),
    }
}

/// A put by ours, by plain C, by plain Rust and by the reading, into copies of one buffer: all leave the same.
/// The buffer is what they leave.
fn added_alike(buffer: &mut Vec<u8>, queue: u8, frame: &[u8]) -> bool {
    let [mut plain, mut plain_c, mut read] = [(); 3].map(|()| buffer.clone());
    let expected = calls::put(&mut read, queue, frame).map_err(Refusal::number);
    let answer = plain::put(&mut plain, queue, frame);
    let number = match expected {
        Ok(length) => length as i64,
        Err(number) => -i64::from(number),
    };
    let numbers = [
        Library::put(buffer, queue, frame),
        PlainC::put(&mut plain_c, queue, frame),
    ];
    answer == expected && numbers == [number; 2] && [&plain, &plain_c, &*buffer] == [&read; 3]
}

/// Likewise a serve into an output of this length.
fn served_alike(buffer: &mut Vec<u8>, room: usize) -> bool {
    let mut plain = (buffer.clone(), vec![7; room]);
    let (mut read, mut plain_c, mut out) = (plain.clone(), plain.clone(), vec![7; room]);
    let expected = calls::serve(&mut read.0, &mut read.1).map_err(Refusal::number);
    let expected = expected.map(|served| served.map(|served| (served.queue, served.length)));
    let answer = plain::serve(&mut plain.0, &mut plain.1);
    let number = match expected {
        Ok(Some((queue, length))) => (queue * 65_536 + length) as i64,
        Ok(None) => 0,
        Err(number) => -i64::from(number),
    };
    let numbers = [
        Library::serve(buffer, &mut out),
        PlainC::serve(&mut plain_c.0, &mut plain_c.1),
    ];
    answer == expected
        && numbers == [number; 2]
        && [&plain, &plain_c] == [&read; 2]
        && (&*buffer, &out) == (&read.0, &read.1)
}

/// The buffer with other bytes at some places.
fn changed(buffer: &[u8], changes: &[(usize, u8)]) -> Vec<u8> {
    let mut buffer = buffer.to_vec();
    for (index, byte) in changes {
        buffer[*index] = *byte;
    }
    buffer
}

/// Puts into both queues until they are full, with frames that are refused, and serves until both are
/// empty; then buffers that hold no queues.
fn queued_alike(waiting: &Waiting) -> bool {
    let (mut buffer, frame) = (waiting.buffer(), waiting.frame());
    let long = [7; MAX_QUEUED + 1];
    let mut alike = true;
    for step in 0..2 * MAX_WAITING + 2 {
        for frame in [&frame[..step % frame.len()], &frame, &long[..], &[]] {
            alike &= added_alike(&mut buffer, (step % 3) as u8, frame);
        }
    }
    for _ in 0..2 * MAX_WAITING + 2 {
        for room in [0, waiting.length - 1, MAX_QUEUED] {
            alike &= served_alike(&mut buffer, room);
        }
    }
    let full = waiting.buffer();
    let second = 1 + (QUEUES_BYTES - 1) / 2;
    let bad = [
        full[1..].to_vec(),
        lent(&full, QUEUES_BYTES + 1),
        changed(&full, &[(0, 3)]),
        changed(&full, &[(1, 17)]),
        changed(&full, &[(second, 17)]),
        changed(&full, &[(2, 0), (3, 0)]),
        changed(&full, &[(second, 1), (second + 1, 4), (second + 2, 1)]),
    ];
    for mut buffer in bad {
        alike &= added_alike(&mut buffer, 1, &frame) && served_alike(&mut buffer, MAX_QUEUED);
    }
    alike
}

/// Ours, plain C's, plain Rust's and the reading's, refusals too.
pub fn queues(waiting: &Waiting) -> Result<(), String> {
    match queued_alike(waiting) {
        true => Ok(()),
        false => Err(format!("{}: put or serve differs", waiting.name)),
    }
}

pub fn logical(logical: &Logical) -> Result<(), String> {
    for (i, frame) in logical.group.frames.iter().enumerate() {
        let reading = calls::logical(frame).expect("the frames are good");
        let original = logical.names_from_bytes(i);
        let name = logical.group.name;
        same::<Library>(name, &ours::logical::<Library>(frame), &original, &reading)?;
        same::<PlainC>(name, &ours::logical::<PlainC>(frame), &original, &reading)?;
    }
    Ok(())
}

/// Ours, plain C, plain Rust and the reading, under the program's settings and others, with outputs that are long
/// enough and one byte short, and of a frame that is refused.
pub fn conjuncts(group: &Group) -> Result<(), String> {
    let mut given = vec![Settings::OF_THE_PROGRAM];
    for (kinds, default_k, greatest_k) in [(1, 1, 1), (6, 3, 9), (0, 1, 1), (7, 2, 1)] {
        given.push(Settings {
            kinds,
            default_k,
            greatest_k,
        });
    }
    for frame in &group.frames {
        let leaves = decode::physical(frame).map_or(0, |good| good.expr.and_leaves().len());
        let mut whole = vec![0; frame.len()];
        let all = calls::extract_all(frame, &mut whole, Settings::OF_THE_PROGRAM);
        let rounds = all.map_or(0, |all| all.rounds);
        if rounds != 1 && rounds != leaves {
            return Err(format!("{}: {rounds} of {leaves} match", group.name));
        }
        for settings in &given {
            let mut whole = vec![0; frame.len()];
            let length =
                calls::extract_all(frame, &mut whole, *settings).map_or(0, |all| all.length);
            let cut = &frame[..frame.len() - 1];
            let same = [frame.len(), length, length.saturating_sub(1)]
                .iter()
                .all(|room| all_alike(frame, *room, *settings))
                && all_alike(cut, frame.len(), *settings);
            if !same {
                return Err(format!("{}: all conjuncts differ", group.name));
            }
        }
    }
    Ok(())
}

fn all_alike(frame: &[u8], room: usize, settings: Settings) -> bool {
    let given = spatialjoin::Settings {
        kinds: spatialjoin::Kinds::from_bits(settings.kinds),
        default_k: settings.default_k,
        greatest_k: settings.greatest_k,
    };
    let [mut ours, mut plain, mut plain_c, mut read] = [(); 4].map(|()| vec![7; room]);
    let answer = calls::extract_all(frame, &mut read, settings);
    let number = match answer {
        Ok(all) => (all.rounds * 65_536 + all.length) as i64,
        Err(refusal) => -i64::from(refusal.number()),
    };
    let expected = answer.map(|all| (all.rounds as u32, all.length));
    Library::extract_all(frame, &mut ours, given) == number
        && PlainC::extract_all(frame, &mut plain_c, given) == number
        && plain::extract_all(frame, &mut plain, given) == expected.map_err(Refusal::number)
        && [ours, plain, plain_c].iter().all(|out| *out == read)
}

/// Likewise explain, on the frames that are timed and on ones whose conjuncts have many reasons, some of
/// them damaged.
pub fn verdicts(group: &Group) -> Result<(), String> {
    let mut frames = group.frames.clone();
    frames.extend((0..400).map(reasoned));
    for frame in &frames {
        let leaves = decode::physical(frame).map_or(3, |good| good.expr.and_leaves().len());
        let rooms = [0, leaves.saturating_sub(1), leaves, leaves + 3, MAX_NODES];
        for (kinds, default_k, greatest_k) in SETTINGS {
            let settings = Settings {
                kinds,
                default_k,
                greatest_k,
            };
            let cut = &frame[..frame.len() - 1];
            let same = rooms
                .iter()
                .all(|room| explained_alike(frame, *room, settings))
                && explained_alike(cut, leaves, settings);
            if !same {
                return Err(format!("{}: explain differs", group.name));
            }
        }
    }
    Ok(())
}

fn reasoned(number: u64) -> Vec<u8> {
    let mut rng = Rng::new(35, number);
    let mut frame = reasons::frame(&mut rng);
    if number % 16 == 0 {
        damage(&mut rng, &mut frame);
    }
    frame
}

fn explained_alike(frame: &[u8], room: usize, settings: Settings) -> bool {
    let given = to_library(settings);
    let [mut ours, mut plain, mut plain_c, mut read] = [(); 4].map(|()| vec![7; room]);
    let answer = calls::explain(frame, &mut read, settings);
    let expected = answer.map_err(Refusal::number).map(|explained| {
        let (line, position) = explained.taken.unwrap_or_default();
        u64::from(line) << 32 | u64::from(position) << 16 | explained.count as u64
    });
    let number = match expected {
        Ok(bill) => bill as i64,
        Err(refusal) => -i64::from(refusal),
    };
    Library::explain(frame, &mut ours, given) == number
        && PlainC::explain(frame, &mut plain_c, given) == number
        && plain::explain(frame, &mut plain, given) == expected
        && [ours, plain, plain_c]
            .iter()
            .all(|verdicts| *verdicts == read)
}
