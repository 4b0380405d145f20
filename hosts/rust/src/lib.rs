//! The join filter planner's calls for Rust hosts, on slices. The functions behind them are proved
//! to give what the definitions of the same names give, for every input.
//!
//! The host lends a buffer and keeps `n`: the plan stands in the buffer's first `n` bytes, and at
//! the start, when there is none, `n` is 0. After an accepted call `n` is the length that the call
//! gave, after a refused one what it was. A refused call changes no byte of any buffer.
//! [`MOST_BYTES`] are enough for every frame, plan and scratch, [`MOST_TEXT`] for every text.
//! `docs/FRAMES.md` of the repository has their bytes.
//!
//! The host lends a table too, of [`MOST_NODES`] records at most, 6,144 bytes: [`load`] and [`merge`]
//! fill it with the nodes of the new plan, and [`extract`] takes it as they left it. [`exchange`]
//! moves no node.
//!
//! What a site may have indexed are [`Settings`], which [`extract`], [`extract_all`] and [`explain`] take:
//! the kinds allowed, the k of an `st_knn` call that has none, and the greatest k. [`Settings::default`]
//! changes no answer.
//!
//! A host that has filters as a tree of its own builds a [`Frame`], by [`Records`] and [`Expression`], and
//! has its bytes tested for every limit ([`FrameError`]); what an extract leaves, [`Extraction`] reads.
//!
//! [`extract_all`] writes all indexable conjuncts of a frame, for a price list for one; [`Conjuncts`]
//! reads them. It takes no plan, no scratch and no table.
//!
//! [`explain`] says of every conjunct of a frame why it is indexed or is not, a byte each, which a
//! [`Verdict`] reads, and which one sets the line. It takes neither of them too.
//!
//! Where jobs of two machines reach one planner, [`Queues`] holds those that wait, a queue of each
//! machine, and gives them in turn; [`put`] and [`serve`] are the same on a buffer of the host's own.
//!
//! The calls have no state and allocate nothing, so any number of threads may make them. A call
//! needs at most [`STACK_BYTES`] of stack, which is measured and not proved.
//!
//! The archive is linked by its path, and nothing in that path says its version: a host asks
//! [`version_matches`] at its start, before it makes a call.

mod conjuncts;
mod extracted;
mod frames;
pub mod numbers;
mod queues;
mod refusal;
mod settings;
mod verdicts;
mod version;

use std::mem::offset_of;

pub use conjuncts::{AllExtracted, Conjunct, Conjuncts, Kind};
pub use extracted::{Extracted, Unextracted};
pub use frames::{
    DistanceForm, Expression, Extraction, Frame, FrameError, Literal, LogicalFrame, Operator,
    Predicate, Record, Records, RelationType,
};
pub use queues::{MOST_QUEUED, MOST_WAITING, QUEUES_BYTES, Queue, Queues, Served, put, serve};
pub use refusal::Refusal;
pub use settings::{DEFAULT_K, GREATEST_K, Kinds, Settings};
pub use verdicts::{Explained, Taken, Verdict};
pub use version::{VERSION, Version, version, version_matches};

/// The most bytes of a frame or plan.
pub const MOST_BYTES: usize = 16_384;

/// The most bytes of a text that [`print()`] writes.
pub const MOST_TEXT: usize = 26_620;

/// The most nodes of a frame, a merged one too: a table of so many records is never too short.
pub const MOST_NODES: usize = 1_024;

/// The most items of a list of [`project`].
pub const MOST_ITEMS: usize = 4_096;

/// The most levels of an expression, its root being the first.
pub const MOST_LEVELS: usize = 64;

/// The most records of a frame.
pub const MOST_RECORDS: usize = 256;

/// The most bytes of a function's name.
pub const MOST_NAME: usize = 32;

/// The most arguments of a function, or children of another node.
pub const MOST_ARGUMENTS: usize = 16;

/// A node of a frame: six bytes, that after the kind of no field.
#[repr(C)]
#[derive(Clone, Copy, Debug, Default, PartialEq, Eq)]
pub struct Node {
    /// Its kind byte, 0 to 4.
    pub kind: u8,
    /// Where it starts, the frame's first byte being 0.
    pub start: u16,
    /// Where it ends: one past the whole node.
    pub end: u16,
}

// As the archive fills it, and as the header has it.
const _: () = {
    assert!(size_of::<Node>() == 6 && align_of::<Node>() == 2);
    assert!(offset_of!(Node, kind) == 0);
    assert!(offset_of!(Node, start) == 2);
    assert!(offset_of!(Node, end) == 4);
    assert!(MOST_BYTES <= u16::MAX as usize);
};

/// The most bytes of stack that a call needs.
pub const STACK_BYTES: usize = 65_536;

/// The names in the order of their bits in [`Names::mask`], bit 0 first: that of the original's
/// `collect_spatial_predicate_names`.
pub const NAMES: [&str; 15] = [
    "st_intersects",
    "st_contains",
    "st_within",
    "st_covers",
    "st_covered_by",
    "st_coveredby",
    "st_touches",
    "st_crosses",
    "st_overlaps",
    "st_equals",
    "st_dwithin",
    "st_knn",
    "rs_intersects",
    "rs_contains",
    "rs_within",
];

/// What a logical frame has of spatial names, and the side of its KNN query.
#[derive(Clone, Copy, Debug, PartialEq, Eq)]
pub struct Names {
    /// A bit for each of [`NAMES`] that occurs.
    pub mask: u16,
    /// How many of them occur.
    pub count: u8,
    /// The child that the query geometry of the first `st_knn` call is of, if it is of one.
    pub query_side: Option<Side>,
}

/// A child of the join.
#[derive(Clone, Copy, Debug, PartialEq, Eq, Hash)]
pub enum Side {
    Left,
    Right,
}

/// Loads a physical frame as the new plan and gives its length. The table's first records become
/// those of the frame's nodes, in the order in which they stand in the frame; the others stay. What
/// was held before plays no part.
///
/// # Errors
///
/// Refusals 1 to 9 and 17.
pub fn load(frame: &[u8], plan: &mut [u8], table: &mut [Node]) -> Result<usize, Refusal> {
    length(numbers::load(frame, plan, table))
}

/// The position, from 0, of the conjunct that was taken among those of the filter as it was loaded
/// or merged, read off the plan's bytes. `None` where the plan is no extraction.
pub fn position(plan: &[u8]) -> Option<u16> {
    match *plan {
        [0x11..=0x13, high, low, ..] => Some(u16::from_be_bytes([high, low])),
        _ => None,
    }
}

/// Pulls the spatial predicate out of the filter in the plan's first `n` bytes and gives the new
/// plan's length and the walk. The old plan is copied to the scratch's first `n` bytes. The table is
/// the one that the last accepted [`load`] or [`merge`] filled. What may be taken the settings say:
/// [`Settings::default`] for one.
///
/// # Errors
///
/// Refusals 9 to 13, a 13 with the walk; and 24, before all of these.
pub fn extract(
    plan: &mut [u8],
    n: usize,
    scratch: &mut [u8],
    table: &[Node],
    settings: Settings,
) -> Result<Extracted, Unextracted> {
    extracted::extracted(numbers::extract(plan, n, scratch, table, settings))
}

/// Exchanges the join's children in the plan in the first `n` bytes and gives the new plan's
/// length. The old plan is copied to the scratch's first `n` bytes.
///
/// # Errors
///
/// Refusals 9 to 11.
pub fn exchange(plan: &mut [u8], n: usize, scratch: &mut [u8]) -> Result<usize, Refusal> {
    length(numbers::exchange(plan, n, scratch))
}

/// The spatial names of a logical frame and its KNN query side.
///
/// # Errors
///
/// Refusals 1 to 5 and 7.
pub fn logical(frame: &[u8]) -> Result<Names, Refusal> {
    let answer = accepted(numbers::logical(frame))?;
    let [mask_high, mask_low, count, side] = (answer as u32).to_be_bytes();
    Ok(Names {
        mask: u16::from_be_bytes([mask_high, mask_low]),
        count,
        query_side: match side {
            0 => Some(Side::Left),
            1 => Some(Side::Right),
            _ => None,
        },
    })
}

/// Writes a physical frame's filter as text at the buffer's start and gives the text's length. The
/// bytes after it stay as they were. Its characters are from 32 to 126.
///
/// # Errors
///
/// Refusals 1 to 8 and 15.
pub fn print(frame: &[u8], text: &mut [u8]) -> Result<usize, Refusal> {
    length(numbers::print(frame, text))
}

/// Joins the filter of a physical frame, a row policy for one, to the filter in the plan's first
/// `n` bytes by And, the held one on the left, and gives the new plan's length. The frame's records
/// follow the held ones, equal ones too, and its columns are renumbered to stay with them. The old
/// plan is copied to the scratch's first `n` bytes. The table is filled with the nodes of the new
/// plan, whatever it held.
///
/// # Errors
///
/// Refusals 1 to 12, 16 and 17.
pub fn merge(
    frame: &[u8],
    plan: &mut [u8],
    n: usize,
    scratch: &mut [u8],
    table: &mut [Node],
) -> Result<usize, Refusal> {
    length(numbers::merge(frame, plan, n, scratch, table))
}

/// Has the extraction in the plan's first `n` bytes follow its children, each of which was narrowed
/// to a list of its columns, and gives the new plan's length, which is `n`. The lists have the child
/// indexes of the columns that stay, in their new order, [`MOST_ITEMS`] at most. A child index of the
/// plan becomes the position, from 0, of the first equal item in the list of its side, in every record
/// of the remainder too. A bound of neither side and mark columns stay as they are. The old plan is
/// copied to the scratch's first `n` bytes.
///
/// # Errors
///
/// Refusals 9 to 11 and 18 to 20.
pub fn project(
    plan: &mut [u8],
    n: usize,
    scratch: &mut [u8],
    left: &[u16],
    right: &[u16],
) -> Result<usize, Refusal> {
    length(numbers::project(plan, n, scratch, left, right))
}

/// Writes all indexable conjuncts of a physical frame at the output's start, then what is left, and
/// gives the length and the rounds. It extracts, loads the remainder and extracts again, until there is
/// no remainder or nothing in it matches: every conjunct that matches under the settings is taken exactly
/// once, the KNN ones in their order, then the others in theirs, each with its position in this frame.
/// Without a match there are 0 rounds, and the frame itself is left, unpruned. [`Conjuncts`] reads what
/// was written; the bytes after it stay as they were. An output as long as the frame is always enough.
///
/// # Errors
///
/// Refusal 24, then 1 to 8, then 9.
pub fn extract_all(
    frame: &[u8],
    out: &mut [u8],
    settings: Settings,
) -> Result<AllExtracted, Refusal> {
    conjuncts::all_extracted(numbers::extract_all(frame, out, settings))
}

/// Says of each conjunct of a physical frame why it is indexed or is not: a byte each, one of [`Verdict`],
/// is written at the buffer's start, in their order, and the bytes after them stay as they were. Gives how
/// many there are, and the conjunct that an [`extract`] under the same settings takes, if one matches. A
/// buffer of [`MOST_NODES`] bytes is always enough.
///
/// # Errors
///
/// Refusal 24, then 1 to 8, then 9 for a buffer of fewer bytes than there are conjuncts.
pub fn explain(
    frame: &[u8],
    verdicts: &mut [u8],
    settings: Settings,
) -> Result<Explained, Refusal> {
    verdicts::explained(numbers::explain(frame, verdicts, settings))
}

fn length(answer: i64) -> Result<usize, Refusal> {
    accepted(answer).map(|length| length as usize)
}

/// An answer that is no refusal.
fn accepted(answer: i64) -> Result<u64, Refusal> {
    u64::try_from(answer).map_err(|_| Refusal::from_number(answer.unsigned_abs()))
}
