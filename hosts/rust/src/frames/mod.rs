//! Frames that a host builds, and frames and extractions that it reads, as objects.

mod error;
mod expression;
mod extraction;
mod reader;
mod writer;

pub use error::FrameError;
pub use expression::{Expression, Literal, Operator};
pub use extraction::{DistanceForm, Extraction, Predicate, RelationType};

use crate::{MOST_LEVELS, MOST_NODES, Side};
use reader::Reader;
use writer::Writer;

/// The first byte of a physical frame, and of a logical one.
const PHYSICAL: u8 = 1;
const LOGICAL: u8 = 2;

/// What a column of a physical frame is.
#[derive(Clone, Copy, Debug, PartialEq, Eq, Hash)]
pub struct Record {
    /// The child that it is of; `None` of a mark column.
    pub side: Option<Side>,
    /// Its index there.
    pub child: u16,
    /// The host's number for the field in its schema.
    pub tag: u16,
}

/// The records of a frame that is built, each once: a column is asked for by what it is.
#[derive(Clone, Debug, Default, PartialEq, Eq)]
pub struct Records(Vec<Record>);

impl Records {
    pub fn new() -> Self {
        Records::default()
    }

    /// The column that this record is of, with a name tag; the record is added where none is equal.
    pub fn column(&mut self, record: Record, tag: u16) -> Expression {
        let found = self.0.iter().position(|other| *other == record);
        let index = found.unwrap_or_else(|| {
            self.0.push(record);
            self.0.len() - 1
        });
        // Of so many records that an index does not fit no frame is written.
        let index = u16::try_from(index).unwrap_or(u16::MAX);
        Expression::Column { index, tag }
    }

    /// The frame of these records and a filter over their columns.
    pub fn frame(self, filter: Expression) -> Frame {
        Frame {
            records: self.0,
            filter,
        }
    }
}

/// A physical frame: records, and the filter over their columns.
#[derive(Clone, Debug, PartialEq, Eq)]
pub struct Frame {
    pub records: Vec<Record>,
    pub filter: Expression,
}

impl Frame {
    /// The bytes, for [`load`](crate::load) and the other calls that take a frame. All limits of a frame
    /// are tested; that a conjunct lacks arguments (refusal 8) the call says.
    ///
    /// # Errors
    ///
    /// The first limit that is passed.
    pub fn bytes(&self) -> Result<Vec<u8>, FrameError> {
        let mut writer = Writer::default();
        writer.frame(self)?;
        writer.end()
    }

    /// The frame that the bytes are, all of them.
    ///
    /// # Errors
    ///
    /// What is wrong with them, in the order of the planner's refusals 1 to 7.
    pub fn of(bytes: &[u8]) -> Result<Self, FrameError> {
        let mut reader = Reader::of(bytes)?;
        reader.first(|first| first == PHYSICAL)?;
        let frame = reader.frame()?;
        reader.end(frame)
    }
}

/// A logical frame, for [`logical`](crate::logical): its filter has logical columns in the place of others.
#[derive(Clone, Debug, PartialEq, Eq)]
pub struct LogicalFrame {
    pub filter: Expression,
}

impl LogicalFrame {
    /// The bytes.
    ///
    /// # Errors
    ///
    /// The first limit that is passed.
    pub fn bytes(&self) -> Result<Vec<u8>, FrameError> {
        let mut writer = Writer::default();
        writer.logical_frame(self)?;
        writer.end()
    }

    /// The frame that the bytes are, all of them.
    ///
    /// # Errors
    ///
    /// As of [`Frame::of`].
    pub fn of(bytes: &[u8]) -> Result<Self, FrameError> {
        let mut reader = Reader::of(bytes)?;
        reader.first(|first| first == LOGICAL)?;
        let filter = reader.expression(Columns::Logical)?;
        reader.end(LogicalFrame { filter })
    }
}

/// Which columns an expression may have.
#[derive(Clone, Copy)]
enum Columns {
    /// Those of a physical frame with so many records.
    Records(usize),
    /// A child's, in a predicate: any index.
    Child,
    Logical,
}

impl Columns {
    /// Whether a column with this index may stand.
    fn has(self, index: u16) -> bool {
        match self {
            Columns::Records(count) => usize::from(index) < count,
            Columns::Child => true,
            Columns::Logical => false,
        }
    }
}

/// The nodes of a frame or of an extraction, in both of whose parts they are counted together.
#[derive(Default)]
struct Nodes(usize);

impl Nodes {
    /// One more, at this level; the root is at level 1.
    fn one_more(&mut self, level: usize) -> Result<(), FrameError> {
        self.0 += 1;
        match (self.0, level) {
            (..=MOST_NODES, ..=MOST_LEVELS) => Ok(()),
            (..=MOST_NODES, _) => Err(FrameError::Levels),
            _ => Err(FrameError::Nodes),
        }
    }
}

/// The byte of a side, a mark column's or a bound's being `None`.
fn side_number(side: Option<Side>) -> u8 {
    match side {
        Some(Side::Left) => 0,
        Some(Side::Right) => 1,
        None => 2,
    }
}
