//! The yardstick for load: tests the frame, copies it, and fills the table in a loop over the nodes.

use spatialjoin::Node;

use super::{check, nodes};

/// The plan's length, or the refusal's number.
pub fn load(frame: &[u8], plan: &mut [u8], table: &mut [Node]) -> Result<usize, u8> {
    let checked = check::frame::<false>(frame)?;
    let plan = plan.get_mut(..frame.len()).ok_or(9)?;
    let table = table.get_mut(..checked.nodes).ok_or(17)?;
    plan.copy_from_slice(frame);
    nodes::each(frame, checked.start, |index, node| table[index] = node);
    Ok(frame.len())
}
