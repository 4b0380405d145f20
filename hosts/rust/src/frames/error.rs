use std::error::Error;
use std::fmt;

use crate::{
    MOST_ARGUMENTS, MOST_BYTES, MOST_LEVELS, MOST_NAME, MOST_NODES, MOST_RECORDS, Refusal,
};

/// Why a frame or an extraction has no bytes, or why bytes are none. A later version may have more.
#[derive(Clone, Debug, PartialEq, Eq)]
#[non_exhaustive]
pub enum FrameError {
    /// So many bytes: none, or over [`MOST_BYTES`].
    Length(usize),
    /// The first byte is that of something else.
    FirstByte(u8),
    /// The bytes end inside a field.
    Ends,
    /// The field of this name has a value that it may not have.
    OutOfRange(&'static str),
    /// So many records, over [`MOST_RECORDS`].
    Records(usize),
    /// A name that is empty, has over [`MOST_NAME`] bytes, or one outside 33 to 126.
    Name(String),
    /// So many arguments or children, over [`MOST_ARGUMENTS`].
    Arguments(usize),
    /// Over [`MOST_NODES`] nodes.
    Nodes,
    /// Over [`MOST_LEVELS`] levels.
    Levels,
    /// A logical column where only others may stand, or another where only logical ones may.
    OtherColumn,
    /// There is no record with this index.
    NoSuchColumn(u16),
    /// So many bytes stand after the end.
    BytesAfter(usize),
}

impl FrameError {
    /// What a call says of bytes of which this is the first that is wrong; of an extraction that is held
    /// every call says [`Refusal::NoGoodPlan`].
    pub fn refusal(&self) -> Refusal {
        match self {
            FrameError::Length(_) => Refusal::FrameLength,
            FrameError::FirstByte(_) => Refusal::FirstByte,
            FrameError::Ends => Refusal::FrameEnds,
            FrameError::OutOfRange(_)
            | FrameError::Records(_)
            | FrameError::Name(_)
            | FrameError::Arguments(_)
            | FrameError::OtherColumn => Refusal::OutOfRange,
            FrameError::Nodes | FrameError::Levels => Refusal::TooLarge,
            FrameError::NoSuchColumn(_) => Refusal::NoSuchColumn,
            FrameError::BytesAfter(_) => Refusal::BytesAfter,
        }
    }
}

impl fmt::Display for FrameError {
    fn fmt(&self, f: &mut fmt::Formatter<'_>) -> fmt::Result {
        match self {
            FrameError::Length(bytes) => {
                write!(f, "{bytes} bytes in the place of 1 to {MOST_BYTES}")
            }
            FrameError::FirstByte(first) => write!(f, "it begins with {first:02x}"),
            FrameError::Ends => f.write_str("the bytes end inside a field"),
            FrameError::OutOfRange(field) => write!(f, "{field} out of range"),
            FrameError::Records(count) => write!(f, "{count} records, over {MOST_RECORDS}"),
            FrameError::Name(name) => {
                write!(
                    f,
                    "{name:?} is no name of 1 to {MOST_NAME} bytes from 33 to 126"
                )
            }
            FrameError::Arguments(count) => {
                write!(f, "{count} arguments or children, over {MOST_ARGUMENTS}")
            }
            FrameError::Nodes => write!(f, "over {MOST_NODES} nodes"),
            FrameError::Levels => write!(f, "over {MOST_LEVELS} levels"),
            FrameError::OtherColumn => f.write_str("a column of another sort of frame"),
            FrameError::NoSuchColumn(index) => write!(f, "column {index} has no record"),
            FrameError::BytesAfter(count) => write!(f, "{count} bytes after the end"),
        }
    }
}

impl Error for FrameError {}
