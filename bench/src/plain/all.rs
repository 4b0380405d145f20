//! The yardstick for extract_all: one walk over the conjuncts, which writes KNN predicates to the output and
//! the others beside it, then these after them and what is left.

use reading::frame::{KNN, MAX_BYTES, MAX_NODES, MAX_RECORDS, PHYSICAL, operator};
use spatialjoin::Settings;

use super::check;
use super::extract::{Writer, are_good, key};
use super::nodes::{self, BINARY};
use super::pick::matched_leaf;

/// Rounds and length, or the refusal's number.
pub fn extract_all(frame: &[u8], out: &mut [u8], settings: Settings) -> Result<(u32, usize), u8> {
    if !are_good(settings) {
        return Err(24);
    }
    let start = check::frame::<false>(frame)?.start;
    let write = match frame.len() {
        ..=96 => write::<96>,
        97..=1_024 => write::<1_024>,
        _ => write::<MAX_BYTES>,
    };
    if frame.len() <= out.len() {
        return Ok(write(frame, start, out, settings));
    }
    let mut own = [0; MAX_BYTES];
    let (rounds, length) = write(frame, start, &mut own, settings);
    out.get_mut(..length)
        .ok_or(9)?
        .copy_from_slice(&own[..length]);
    Ok((rounds, length))
}

/// Into an output that is as long as the frame, which has at most so many bytes.
fn write<const BYTES: usize>(
    frame: &[u8],
    start: usize,
    out: &mut [u8],
    settings: Settings,
) -> (u32, usize) {
    let mut others = [0; BYTES];
    let mut walk = Walk {
        frame,
        settings,
        at: start,
        leaves: 0,
        ands: 0,
        rounds: 0,
        gone: [false; MAX_NODES],
        joins: [false; MAX_NODES],
        knns: Writer::new(frame, out),
        others: Writer::new(frame, &mut others),
    };
    let stays = walk.list();
    let Walk {
        rounds,
        gone,
        joins,
        knns: mut writer,
        others,
        ..
    } = walk;
    if rounds == 0 {
        writer.put(frame);
        return (0, writer.end);
    }
    writer.put(&others.plan[..others.end]);
    if stays {
        rest(&mut writer, start, &gone, &joins);
    } else {
        writer.put(&[0]);
    }
    (rounds, writer.end)
}

struct Walk<'a> {
    frame: &'a [u8],
    settings: Settings,
    at: usize,
    leaves: usize,
    ands: usize,
    rounds: u32,
    /// Which conjuncts are taken, and which Ands keep both sides.
    gone: [bool; MAX_NODES],
    joins: [bool; MAX_NODES],
    knns: Writer<'a>,
    others: Writer<'a>,
}

impl Walk<'_> {
    /// Whether anything stays of the expression that starts here.
    fn list(&mut self) -> bool {
        let start = self.at;
        if self.frame[start] == BINARY && self.frame[start + 1] == operator::AND {
            let index = self.ands;
            self.ands += 1;
            self.at += 2;
            let (left, right) = (self.list(), self.list());
            self.joins[index] = left && right;
            return left || right;
        }
        self.at = nodes::end(self.frame, start, |_| ());
        let position = self.leaves;
        self.leaves += 1;
        let Some(predicate) = matched_leaf(self.frame, self.settings, start) else {
            return true;
        };
        let writer = match predicate.first {
            KNN => &mut self.knns,
            _ => &mut self.others,
        };
        writer.predicate(position as u16, &predicate);
        self.gone[position] = true;
        self.rounds += 1;
        false
    }
}

/// What is left, with the records that equal a referenced one.
fn rest(writer: &mut Writer<'_>, start: usize, gone: &[bool], joins: &[bool]) {
    let frame = writer.old;
    let (mut marked, mut keys, mut count) = ([false; MAX_RECORDS], [0; MAX_RECORDS], 0);
    let records = &frame[3..start];
    each_kept(frame, start, gone, joins, |part| {
        nodes::columns(part, |index| {
            let index = usize::from(index);
            if !marked[index] {
                marked[index] = true;
                keys[count] = key(&records[5 * index..]);
                count += 1;
            }
        });
    });
    writer.put(&[PHYSICAL]);
    let count_at = writer.end;
    writer.put(&[0; 2]);
    let (mut new, mut kept) = ([0; MAX_RECORDS], 0u16);
    for (index, record) in records.chunks_exact(5).enumerate() {
        if marked[index] || keys[..count].contains(&key(record)) {
            new[index] = kept;
            kept += 1;
            writer.put(record);
        }
    }
    writer.plan[count_at..count_at + 2].copy_from_slice(&kept.to_be_bytes());
    each_kept(frame, start, gone, joins, |part| {
        let part = writer.put(part);
        nodes::renumber(part, |index| new[usize::from(index)]);
    });
}

/// The bytes that stay: Ands that keep both sides, and the conjuncts that were not taken.
fn each_kept(
    frame: &[u8],
    start: usize,
    gone: &[bool],
    joins: &[bool],
    mut told: impl FnMut(&[u8]),
) {
    let (mut at, mut leaves, mut ands) = (start, 0, 0);
    while at < frame.len() {
        let is_and = frame[at] == BINARY && frame[at + 1] == operator::AND;
        let end = match is_and {
            true => at + 2,
            false => nodes::end(frame, at, |_| ()),
        };
        let stays = match is_and {
            true => joins[ands],
            false => !gone[leaves],
        };
        ands += usize::from(is_and);
        leaves += usize::from(!is_and);
        if stays {
            told(&frame[at..end]);
        }
        at = end;
    }
}
