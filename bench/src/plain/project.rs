//! The yardstick for project: looks every place up in a walk over the plan, and writes them in another.

use reading::frame::{DISTANCE, MAX_NODES, MAX_RECORDS, PHYSICAL, RELATION};
use reading::project::MAX_ITEMS;

use super::check;
use super::nodes::{self, two};
use super::pick::{LEFT, NEITHER, RIGHT};

/// The new plan's length, or the refusal's number.
pub fn project(
    plan: &mut [u8],
    n: usize,
    scratch: &mut [u8],
    left: &[u16],
    right: &[u16],
) -> Result<usize, u8> {
    check::extracted(plan, n)?;
    if left.len() > MAX_ITEMS || right.len() > MAX_ITEMS {
        return Err(19);
    }
    let scratch = scratch.get_mut(..n).ok_or(9)?;
    let old = &plan[..n];
    let (start, sides) = arguments(old);
    let mut places = Places::new([left, right]);
    let mut end = start;
    for side in sides.into_iter().flatten() {
        end = nodes::end(old, end, |index| places.look_up(side, index));
    }
    let count = match old[end] {
        PHYSICAL => usize::from(two(old, end + 1)),
        _ => 0,
    };
    let records = n.min(end + 3)..n.min(end + 3 + 5 * count);
    for record in old[records.clone()].chunks_exact(5) {
        places.look_up(record[0], two(record, 1));
    }
    if places.lacks {
        return Err(20);
    }
    scratch.copy_from_slice(old);
    let mut next = places.found.into_iter();
    let mut place = || next.next().unwrap_or(0);
    nodes::renumber(&mut plan[start..end], |_| place());
    for record in plan[records].chunks_exact_mut(5) {
        record[1..3].copy_from_slice(&place().to_be_bytes());
    }
    Ok(n)
}

/// Where the arguments start, and the side that each goes by.
fn arguments(plan: &[u8]) -> (usize, [Option<u8>; 3]) {
    match plan[0] {
        RELATION => (4, [Some(LEFT), Some(RIGHT), None]),
        DISTANCE => (5, [Some(LEFT), Some(RIGHT), Some(plan[4])]),
        _ => (10, [Some(plan[8]), Some(1 - plan[8]), None]),
    }
}

/// The places of a plan's columns and records, in the order in which they stand.
struct Places<'a> {
    lists: [&'a [u16]; 2],
    found: [u16; MAX_NODES + MAX_RECORDS],
    count: usize,
    lacks: bool,
}

impl<'a> Places<'a> {
    fn new(lists: [&'a [u16]; 2]) -> Self {
        Places {
            lists,
            found: [0; MAX_NODES + MAX_RECORDS],
            count: 0,
            lacks: false,
        }
    }

    fn look_up(&mut self, side: u8, index: u16) {
        let place = match side {
            NEITHER => Some(usize::from(index)),
            side => {
                let mut list = self.lists[usize::from(side)].iter();
                list.position(|item| *item == index)
            }
        };
        self.lacks |= place.is_none();
        self.found[self.count] = place.unwrap_or(0) as u16;
        self.count += 1;
    }
}
