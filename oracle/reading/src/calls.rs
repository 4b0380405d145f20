//! The calls, on lent buffers. Of those that change the plan an accepted one gives the new plan's
//! length, which `n` then holds too; a refused call leaves `n`, the table and all buffers as they were.

use crate::conjuncts::conjuncts;
use crate::frame::{Frame, Plan};
use crate::merge::{merged, within_limits};
use crate::nodes::{self, Node};
use crate::project::{self as projection, Lists};
use crate::queues::{MAX_QUEUED, MAX_WAITING, Queues, Served};
use crate::refusal::Refusal;
use crate::settings::Settings;
use crate::verdicts::verdicts as verdicts_of;
use crate::{decode, encode, logical as logical_half, physical, print as console, walk as walks};

/// Nothing of the old plan is read: `n` is only set. Request 6 of document 02: the table is filled.
pub fn load(
    frame: &[u8],
    n: &mut usize,
    buffer: &mut [u8],
    table: &mut [Node],
) -> Result<usize, Refusal> {
    let new = decode::physical(frame)?;
    let plan = buffer.get_mut(..frame.len()).ok_or(Refusal::NoRoom)?;
    nodes::fill(table, &nodes::table(&new)).ok_or(Refusal::TableRoom)?;
    plan.copy_from_slice(frame);
    *n = frame.len();
    Ok(*n)
}

pub fn extract(
    n: &mut usize,
    buffer: &mut [u8],
    scratch: &mut [u8],
    table: &[Node],
    settings: Settings,
) -> Result<usize, Refusal> {
    let frame = extractable(*n, buffer, scratch, table, settings)?;
    let extraction = physical::extract(&frame, settings).ok_or(Refusal::NoMatch)?;
    Ok(replace(&Plan::Extraction(extraction), n, buffer, scratch))
}

/// Request 10 of document 02: the walk that an extract with these carries. A 13 carries it too, other
/// refusals 0.
pub fn walk(n: usize, buffer: &[u8], scratch: &[u8], table: &[Node], settings: Settings) -> usize {
    let frame = extractable(n, buffer, scratch, table, settings);
    frame.map_or(0, |frame| walks::length(&frame, settings))
}

/// The held frame, where no refusal comes before 13. Request 6 of document 02: it needs a table that
/// begins with its nodes. Request 13: 24 comes before every other check.
fn extractable(
    n: usize,
    buffer: &[u8],
    scratch: &[u8],
    table: &[Node],
    settings: Settings,
) -> Result<Frame, Refusal> {
    if settings.get_24() {
        return Err(Refusal::BadSettings);
    }
    let Plan::Frame(frame) = held(n, buffer)? else {
        return Err(Refusal::Extracted);
    };
    if !table.starts_with(&nodes::table(&frame)) {
        return Err(Refusal::BadPlan);
    }
    if scratch.len() < n {
        return Err(Refusal::NoRoom);
    }
    Ok(frame)
}

pub fn exchange(n: &mut usize, buffer: &mut [u8], scratch: &mut [u8]) -> Result<usize, Refusal> {
    let plan = held(*n, buffer)?;
    if scratch.len() < *n {
        return Err(Refusal::NoRoom);
    }
    Ok(replace(&physical::exchange(&plan), n, buffer, scratch))
}

/// Mask, count and query side of a logical frame.
pub fn logical(frame: &[u8]) -> Result<[u8; 4], Refusal> {
    decode::logical(frame).map(|expr| logical_half::answer(&expr))
}

/// Request 1 of document 02: the filter's text at the buffer's start, and its length.
pub fn print(frame: &[u8], buffer: &mut [u8]) -> Result<usize, Refusal> {
    let text = console::text(&decode::physical(frame)?.expr);
    let start = buffer.get_mut(..text.len()).ok_or(Refusal::TextRoom)?;
    start.copy_from_slice(&text);
    Ok(text.len())
}

/// Request 2 of document 02: the held filter And this one. 9 is for either buffer. Request 6: the
/// table is filled anew, whatever it held.
pub fn merge(
    frame: &[u8],
    n: &mut usize,
    buffer: &mut [u8],
    scratch: &mut [u8],
    table: &mut [Node],
) -> Result<usize, Refusal> {
    let new = decode::physical(frame)?;
    let Plan::Frame(held) = held(*n, buffer)? else {
        return Err(Refusal::Extracted);
    };
    let merged = merged(&held, &new);
    if !within_limits(&merged) {
        return Err(Refusal::MergedLimit);
    }
    if scratch.len() < *n || buffer.len() < encode::physical(&merged).len() {
        return Err(Refusal::NoRoom);
    }
    nodes::fill(table, &nodes::table(&merged)).ok_or(Refusal::TableRoom)?;
    Ok(replace(&Plan::Frame(merged), n, buffer, scratch))
}

/// Request 7 of document 02: the held extraction over narrowed children.
pub fn project(
    n: &mut usize,
    buffer: &mut [u8],
    scratch: &mut [u8],
    lists: Lists<'_>,
) -> Result<usize, Refusal> {
    let Plan::Extraction(extraction) = held(*n, buffer)? else {
        return Err(Refusal::NotExtracted);
    };
    if !lists.within_limit() {
        return Err(Refusal::ListLength);
    }
    if scratch.len() < *n {
        return Err(Refusal::NoRoom);
    }
    let projected = projection::project(&extraction, lists).ok_or(Refusal::NotInList)?;
    Ok(replace(&Plan::Extraction(projected), n, buffer, scratch))
}

/// Request 12 of document 02: the frame at the end of a queue; its length.
pub fn put(buffer: &mut [u8], queue: u8, frame: &[u8]) -> Result<usize, Refusal> {
    if queue > 1 {
        return Err(Refusal::NoQueue);
    }
    let mut queues = Queues::read(buffer).ok_or(Refusal::BadPlan)?;
    if frame.is_empty() {
        return Err(Refusal::FrameLength);
    }
    if frame.len() > MAX_QUEUED {
        return Err(Refusal::QueuedLength);
    }
    let waiting = &mut queues.waiting[usize::from(queue)];
    if waiting.len() == MAX_WAITING {
        return Err(Refusal::QueueFull);
    }
    waiting.push_back(frame.to_vec());
    queues.write(buffer);
    Ok(frame.len())
}

/// Request 12 of document 02: the frame that is due at the output's start; `None` with both queues
/// empty.
pub fn serve(buffer: &mut [u8], out: &mut [u8]) -> Result<Option<Served>, Refusal> {
    let mut queues = Queues::read(buffer).ok_or(Refusal::BadPlan)?;
    let Some((queue, frame)) = queues.take_due() else {
        return Ok(None);
    };
    let start = out.get_mut(..frame.len()).ok_or(Refusal::NoRoom)?;
    start.copy_from_slice(&frame);
    queues.write(buffer);
    Ok(Some(Served {
        queue,
        length: frame.len(),
    }))
}

/// What an accepted extract of all conjuncts gives.
#[derive(Clone, Copy, Debug, PartialEq, Eq)]
pub struct All {
    pub rounds: usize,
    pub length: usize,
}

/// Request 14 of document 02: all indexable conjuncts at the output's start. 24, then 1 to 8, then 9.
pub fn extract_all(frame: &[u8], out: &mut [u8], settings: Settings) -> Result<All, Refusal> {
    if settings.get_24() {
        return Err(Refusal::BadSettings);
    }
    let all = conjuncts(&decode::physical(frame)?, settings);
    let bytes = encode::conjuncts(&all);
    let start = out.get_mut(..bytes.len()).ok_or(Refusal::NoRoom)?;
    start.copy_from_slice(&bytes);
    Ok(All {
        rounds: all.taken.len(),
        length: bytes.len(),
    })
}

/// What an accepted explain gives: the first byte and the position of what extract would take, and how
/// many AND-leaves there are.
#[derive(Clone, Copy, Debug, PartialEq, Eq)]
pub struct Explained {
    pub taken: Option<(u8, u16)>,
    pub count: usize,
}

/// The verdict of each AND-leaf at the start of the lent buffer. 24, then 1 to 8, then 9.
pub fn explain(
    frame: &[u8],
    verdicts: &mut [u8],
    settings: Settings,
) -> Result<Explained, Refusal> {
    if settings.get_24() {
        return Err(Refusal::BadSettings);
    }
    let frame = decode::physical(frame)?;
    let found = verdicts_of(&frame, settings);
    let start = verdicts.get_mut(..found.len()).ok_or(Refusal::NoRoom)?;
    for (byte, verdict) in start.iter_mut().zip(&found) {
        *byte = verdict.byte();
    }
    let extraction = physical::extract(&frame, settings);
    Ok(Explained {
        taken: extraction.map(|taken| (encode::first_byte(&taken.predicate), taken.position)),
        count: found.len(),
    })
}

/// Refusals 10 and 11.
fn held(n: usize, buffer: &[u8]) -> Result<Plan, Refusal> {
    match buffer.get(..n) {
        None => Err(Refusal::BadPlan),
        Some([]) => Err(Refusal::EmptyPlan),
        Some(bytes) => decode::plan(bytes),
    }
}

/// The old plan goes to the scratch, the new one to the buffer. Only a merged one is longer, and for
/// that the buffer was measured.
fn replace(plan: &Plan, n: &mut usize, buffer: &mut [u8], scratch: &mut [u8]) -> usize {
    scratch[..*n].copy_from_slice(&buffer[..*n]);
    let bytes = encode::plan(plan);
    buffer[..bytes.len()].copy_from_slice(&bytes);
    *n = bytes.len();
    *n
}
