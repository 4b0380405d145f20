//! The yardstick for extract: finds the conjunct in a walk over the held frame, counts what it reads,
//! and writes the extraction from the old plan's copy in the scratch.

use reading::frame::{MAX_RECORDS, PHYSICAL};
use spatialjoin::{Kinds, Node, Settings};

use super::check;
use super::nodes::{self, two};
use super::pick::{NEITHER, Predicate, Taken, pick};

/// An extract's answer: the new plan's length, or the refusal's number; and the walk.
pub struct Walked {
    pub answer: Result<usize, u8>,
    pub walk: u32,
}

pub fn extract(
    plan: &mut [u8],
    n: usize,
    scratch: &mut [u8],
    table: &[Node],
    settings: Settings,
) -> Walked {
    let checked = match are_good(settings) {
        true => extractable(plan, n, scratch.len(), table),
        false => Err(24),
    };
    let start = match checked {
        Ok(start) => start,
        Err(number) => {
            let answer = Err(number);
            return Walked { answer, walk: 0 };
        }
    };
    let (taken, walk) = pick(&plan[..n], start, settings);
    let taken = taken.ok_or(13);
    let answer = taken.map(|taken| write(plan, &mut scratch[..n], start, &taken));
    Walked { answer, walk }
}

pub(super) fn are_good(settings: Settings) -> bool {
    let kinds = 1..=Kinds::ALL.bits();
    kinds.contains(&settings.kinds.bits())
        && (1..=settings.greatest_k).contains(&settings.default_k)
}

/// Where the held frame's filter starts, unless a refusal comes before 13.
fn extractable(plan: &[u8], n: usize, scratch: usize, table: &[Node]) -> Result<usize, u8> {
    let checked = check::held(plan, n)?;
    let table = table.get(..checked.nodes).ok_or(10)?;
    let mut same = true;
    nodes::each(&plan[..n], checked.start, |index, node| {
        same &= table[index] == node
    });
    if !same {
        return Err(10);
    }
    if scratch < n {
        return Err(9);
    }
    Ok(checked.start)
}

/// The new plan's length.
fn write(plan: &mut [u8], scratch: &mut [u8], start: usize, taken: &Taken) -> usize {
    scratch.copy_from_slice(&plan[..scratch.len()]);
    let mut writer = Writer::new(scratch, plan);
    writer.predicate(taken.position, &taken.predicate);
    writer.remainder(start, taken);
    writer.end
}

/// Writes the new plan from the old one.
pub(super) struct Writer<'a> {
    pub old: &'a [u8],
    pub plan: &'a mut [u8],
    pub end: usize,
}

impl<'a> Writer<'a> {
    pub fn new(old: &'a [u8], plan: &'a mut [u8]) -> Self {
        Writer { old, plan, end: 0 }
    }

    /// Gives the bytes where they are now.
    pub fn put(&mut self, bytes: &[u8]) -> &mut [u8] {
        let place = &mut self.plan[self.end..self.end + bytes.len()];
        place.copy_from_slice(bytes);
        self.end += bytes.len();
        place
    }

    pub fn predicate(&mut self, position: u16, predicate: &Predicate) {
        self.put(&[predicate.first]);
        self.put(&position.to_be_bytes());
        self.put(predicate.fields());
        let old = self.old;
        for argument in predicate.arguments() {
            let expr = self.put(&old[argument.start..argument.end]);
            if argument.side != NEITHER {
                nodes::renumber(expr, |index| two(old, 4 + 5 * usize::from(index)));
            }
        }
    }

    /// All nodes but the conjunct's and those of the And above it.
    fn remainder(&mut self, start: usize, taken: &Taken) {
        let Some(and) = taken.and else {
            self.put(&[0]);
            return;
        };
        let old = self.old;
        let parts = [
            &old[start..and],
            &old[and + 2..taken.leaf.start],
            &old[taken.leaf.end..],
        ];
        let new = self.records(&old[3..start], parts);
        for part in parts {
            let nodes = self.put(part);
            nodes::renumber(nodes, |index| u16::from(new[usize::from(index)]));
        }
    }

    /// The records that equal a referenced one in side and child index; gives their new indexes.
    fn records(&mut self, records: &[u8], parts: [&[u8]; 3]) -> [u8; MAX_RECORDS] {
        let mut marked = [false; MAX_RECORDS];
        let mut keys = [0; MAX_RECORDS];
        let mut key_count = 0;
        for part in parts {
            nodes::columns(part, |index| {
                let index = usize::from(index);
                if !marked[index] {
                    marked[index] = true;
                    keys[key_count] = key(&records[5 * index..]);
                    key_count += 1;
                }
            });
        }
        self.put(&[PHYSICAL]);
        let count_at = self.end;
        self.put(&[0; 2]);
        let mut new = [0; MAX_RECORDS];
        let mut count: u16 = 0;
        for (index, record) in records.chunks_exact(5).enumerate() {
            if marked[index] || keys[..key_count].contains(&key(record)) {
                new[index] = count as u8;
                count += 1;
                self.put(record);
            }
        }
        self.plan[count_at..count_at + 2].copy_from_slice(&count.to_be_bytes());
        new
    }
}

/// Side and child index.
pub(super) fn key(record: &[u8]) -> u32 {
    u32::from_be_bytes([0, record[0], record[1], record[2]])
}
