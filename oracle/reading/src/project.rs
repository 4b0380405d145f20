//! Document 02, request 7: each child is narrowed to a list of its columns, and an extraction follows.

use crate::frame::{Expr, Extraction, Frame, Predicate, Record, Side};
use crate::physical::{collect_columns, renumber};

/// The most items of a list.
pub const MAX_ITEMS: usize = 4_096;

/// The child indices that stay, in their new order.
#[derive(Clone, Copy)]
pub struct Lists<'a> {
    pub left: &'a [u16],
    pub right: &'a [u16],
}

impl Lists<'_> {
    /// Refusal 19's condition, the other way round.
    pub fn within_limit(&self) -> bool {
        self.left.len() <= MAX_ITEMS && self.right.len() <= MAX_ITEMS
    }

    /// What a child index becomes; `None` where its list lacks it.
    fn place(&self, side: Side, index: u16) -> Option<u16> {
        let list = match side {
            Side::Left => self.left,
            Side::Right => self.right,
            Side::None => return Some(index),
        };
        let first = list.iter().position(|item| *item == index)?;
        Some(first as u16)
    }

    fn argument(&self, side: Side, expr: &Expr) -> Option<Expr> {
        let mut lacks = false;
        collect_columns(expr, &mut |index| {
            lacks |= self.place(side, index).is_none()
        });
        let place = |index| self.place(side, index).expect("no list lacks one");
        (!lacks).then(|| renumber(expr, &place))
    }

    fn record(&self, record: &Record) -> Option<Record> {
        Some(Record {
            index: self.place(record.side, record.index)?,
            ..*record
        })
    }

    /// Every record, whether a column references it or not.
    fn frame(&self, frame: &Frame) -> Option<Frame> {
        let records: Option<Vec<Record>> = frame.records.iter().map(|r| self.record(r)).collect();
        Some(Frame {
            records: records?,
            expr: frame.expr.clone(),
        })
    }

    /// Each argument by its side; KNN's first by the probe side, its second by the other.
    fn predicate(&self, predicate: &Predicate) -> Option<Predicate> {
        let mut new = predicate.clone();
        match &mut new {
            Predicate::Relation { left, right, .. } => {
                *left = self.argument(Side::Left, left)?;
                *right = self.argument(Side::Right, right)?;
            }
            Predicate::Distance {
                side,
                left,
                right,
                distance,
                ..
            } => {
                *left = self.argument(Side::Left, left)?;
                *right = self.argument(Side::Right, right)?;
                *distance = self.argument(*side, distance)?;
            }
            Predicate::Knn {
                probe, left, right, ..
            } => {
                *left = self.argument(*probe, left)?;
                *right = self.argument(probe.negate(), right)?;
            }
        }
        Some(new)
    }
}

/// The extraction over the narrowed children; `None` where a list lacks an index.
pub fn project(extraction: &Extraction, lists: Lists<'_>) -> Option<Extraction> {
    Some(Extraction {
        position: extraction.position,
        predicate: lists.predicate(&extraction.predicate)?,
        remainder: match &extraction.remainder {
            Some(frame) => Some(lists.frame(frame)?),
            None => None,
        },
    })
}
