use driver::rng::Rng;
use spatialjoin::Node;

use crate::tables::any_node;

/// Bytes on either side of a lent buffer that no call may change.
const GUARD: usize = 64;

/// Records on either side of a lent table.
const GUARD_RECORDS: usize = 6;

/// Items on either side of a lent list.
const GUARD_ITEMS: usize = 32;

/// A buffer or table to lend, with guards on both sides.
pub struct Lent<T> {
    memory: Vec<T>,
    as_lent: Vec<T>,
    start: usize,
    len: usize,
}

impl Lent<u8> {
    /// With any alignment.
    pub fn bytes(rng: &mut Rng, bytes: &[u8]) -> Self {
        let start = GUARD + rng.below(16);
        let before = likely_bytes(rng, start);
        let after = likely_bytes(rng, GUARD);
        Lent::between(before, bytes, after)
    }
}

impl Lent<Node> {
    pub fn records(rng: &mut Rng, records: &[Node]) -> Self {
        let guard = |_| any_node(rng);
        let mut before: Vec<Node> = (0..2 * GUARD_RECORDS).map(guard).collect();
        let after = before.split_off(GUARD_RECORDS);
        Lent::between(before, records, after)
    }
}

impl Lent<u16> {
    /// Beside it stand indices that a plan may well have, and the list lack.
    pub fn list(rng: &mut Rng, items: &[u16]) -> Self {
        let start = GUARD_ITEMS + rng.below(8);
        let guard = |_| rng.below(10) as u16;
        let mut before: Vec<u16> = (0..start + GUARD_ITEMS).map(guard).collect();
        let after = before.split_off(start);
        Lent::between(before, items, after)
    }
}

impl<T: Copy + PartialEq> Lent<T> {
    fn between(before: Vec<T>, items: &[T], after: Vec<T>) -> Self {
        let memory = [&before[..], items, &after].concat();
        Lent {
            as_lent: memory.clone(),
            memory,
            start: before.len(),
            len: items.len(),
        }
    }

    pub fn items(&self) -> &[T] {
        &self.memory[self.start..self.start + self.len]
    }

    pub fn items_mut(&mut self) -> &mut [T] {
        &mut self.memory[self.start..self.start + self.len]
    }

    pub fn guards_hold(&self) -> bool {
        let end = self.start + self.len;
        self.memory[..self.start] == self.as_lent[..self.start]
            && self.memory[end..] == self.as_lent[end..]
    }
}

/// Bytes that could go on with a frame, so that a call which reads past a buffer's end is led on.
fn likely_bytes(rng: &mut Rng, count: usize) -> Vec<u8> {
    (0..count).map(|_| rng.below(6) as u8).collect()
}
