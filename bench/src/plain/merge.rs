//! The yardstick for merge: copies the parts to their places and raises the new columns in a loop
//! over the nodes.

use reading::frame::{MAX_BYTES, MAX_DEPTH, MAX_NODES, MAX_RECORDS, operator};
use spatialjoin::Node;

use super::check::{self, Checked};
use super::nodes::{self, renumber};

/// The new plan's length, or the refusal's number.
pub fn merge(
    frame: &[u8],
    plan: &mut [u8],
    n: usize,
    scratch: &mut [u8],
    table: &mut [Node],
) -> Result<usize, u8> {
    let new = check::frame::<false>(frame)?;
    let held = check::held(plan, n)?;
    let length = n + frame.len() - 1;
    if length > MAX_BYTES
        || held.records + new.records > MAX_RECORDS
        || held.nodes + new.nodes + 1 > MAX_NODES
        || held.depth.max(new.depth) + 1 > MAX_DEPTH
    {
        return Err(16);
    }
    let scratch = scratch.get_mut(..n).ok_or(9)?;
    let plan = plan.get_mut(..length).ok_or(9)?;
    let table = table.get_mut(..held.nodes + new.nodes + 1).ok_or(17)?;
    scratch.copy_from_slice(&plan[..n]);
    write(plan, &scratch[held.start..], &held, frame, &new);
    let start = held.start + new.start - 3;
    nodes::each(plan, start, |index, node| table[index] = node);
    Ok(length)
}

/// The held records stay where they are.
fn write(plan: &mut [u8], held_expr: &[u8], held: &Checked, frame: &[u8], new: &Checked) {
    let count = (held.records + new.records) as u16;
    plan[1..3].copy_from_slice(&count.to_be_bytes());
    let rest = put(&mut plan[held.start..], &frame[3..new.start]);
    let rest = put(rest, &[2, operator::AND]);
    let rest = put(rest, held_expr);
    rest.copy_from_slice(&frame[new.start..]);
    renumber(rest, |index| index + held.records as u16);
}

/// Writes at the start and gives what comes after.
fn put<'a>(to: &'a mut [u8], bytes: &[u8]) -> &'a mut [u8] {
    let (start, rest) = to.split_at_mut(bytes.len());
    start.copy_from_slice(bytes);
    rest
}
