use std::error::Error;
use std::fmt;

/// Why a call was refused. [`Refusal::number`] is the number of the scope document. A later version may
/// have more.
#[derive(Clone, Copy, Debug, PartialEq, Eq, Hash)]
#[non_exhaustive]
pub enum Refusal {
    /// 1: the frame is empty or over 16,384 bytes; of a put: empty.
    FrameLength = 1,
    /// 2: wrong first byte.
    FirstByte = 2,
    /// 3: the frame ends inside a field.
    FrameEnds = 3,
    /// 4: a field is out of its range.
    OutOfRange = 4,
    /// 5: over 1,024 nodes, or over 64 levels.
    TooLarge = 5,
    /// 6: a column's index is not below the column count.
    NoSuchColumn = 6,
    /// 7: bytes after the frame's end.
    BytesAfter = 7,
    /// 8: a conjunct lacks arguments.
    TooFewArguments = 8,
    /// 9: the plan buffer (load, merge), the scratch or the output (serve, extract_all, explain) is too
    /// short.
    TooShort = 9,
    /// 10: `n` is over the buffer's length, or its first `n` bytes are no good plan; of an extract also:
    /// they are a frame, and the table does not begin with its nodes. Of put and serve: the buffer holds
    /// no good queues.
    NoGoodPlan = 10,
    /// 11: `n` is 0.
    PlanEmpty = 11,
    /// 12: the plan is an extraction already.
    AlreadyExtracted = 12,
    /// 13: no conjunct matches; the join stays filtered.
    NoMatch = 13,
    /// 15: the text buffer is shorter than the text. (14 is no call's, but of the program's lines.)
    TextTooShort = 15,
    /// 16: the merged frame is over a limit.
    MergedTooLarge = 16,
    /// 17: the table is shorter than the frame's node count.
    TableTooShort = 17,
    /// 18: the plan is no extraction but a frame.
    NotExtracted = 18,
    /// 19: a list has over 4,096 items.
    ListTooLong = 19,
    /// 20: the plan has a child index that the list of its side lacks.
    NotInList = 20,
    /// 21: the queue's number is neither 0 nor 1.
    NoSuchQueue = 21,
    /// 22: the frame has over 1,024 bytes and is put into a queue.
    QueuedTooLong = 22,
    /// 23: 16 frames wait in the queue already.
    QueueFull = 23,
    /// 24: settings without a kind or with a bit that is none, a default k of 0, or one above the
    /// greatest.
    BadSettings = 24,
}

impl Refusal {
    /// All of them, by number.
    pub const ALL: [Refusal; 23] = [
        Refusal::FrameLength,
        Refusal::FirstByte,
        Refusal::FrameEnds,
        Refusal::OutOfRange,
        Refusal::TooLarge,
        Refusal::NoSuchColumn,
        Refusal::BytesAfter,
        Refusal::TooFewArguments,
        Refusal::TooShort,
        Refusal::NoGoodPlan,
        Refusal::PlanEmpty,
        Refusal::AlreadyExtracted,
        Refusal::NoMatch,
        Refusal::TextTooShort,
        Refusal::MergedTooLarge,
        Refusal::TableTooShort,
        Refusal::NotExtracted,
        Refusal::ListTooLong,
        Refusal::NotInList,
        Refusal::NoSuchQueue,
        Refusal::QueuedTooLong,
        Refusal::QueueFull,
        Refusal::BadSettings,
    ];

    /// 1 to 13, or 15 to 24.
    pub fn number(self) -> u8 {
        self as u8
    }

    /// # Panics
    ///
    /// On a number that no call gives: another library was linked.
    pub(crate) fn from_number(number: u64) -> Self {
        let known = |refusal: &Refusal| u64::from(refusal.number()) == number;
        let found = Self::ALL.into_iter().find(known);
        found.unwrap_or_else(|| panic!("{number} is no refusal of the library"))
    }

    fn text(self) -> &'static str {
        match self {
            Refusal::FrameLength => "frame empty or over 16,384 bytes",
            Refusal::FirstByte => "wrong first byte",
            Refusal::FrameEnds => "frame ends inside a field",
            Refusal::OutOfRange => "field out of its range",
            Refusal::TooLarge => "over 1,024 nodes, or over 64 levels",
            Refusal::NoSuchColumn => "no such column",
            Refusal::BytesAfter => "bytes after the end",
            Refusal::TooFewArguments => "a conjunct lacks arguments",
            Refusal::TooShort => "plan buffer, scratch or output too short",
            Refusal::NoGoodPlan => {
                "no good plan in the first n bytes, not the frame's table, or no good queues"
            }
            Refusal::PlanEmpty => "plan empty",
            Refusal::AlreadyExtracted => "plan already extracted",
            Refusal::NoMatch => "no conjunct matches",
            Refusal::TextTooShort => "text buffer shorter than the text",
            Refusal::MergedTooLarge => "merged frame over a limit",
            Refusal::TableTooShort => "table shorter than the node count",
            Refusal::NotExtracted => "plan not extracted",
            Refusal::ListTooLong => "a list of over 4,096 items",
            Refusal::NotInList => "a list lacks an index",
            Refusal::NoSuchQueue => "no such queue",
            Refusal::QueuedTooLong => "a frame of over 1,024 bytes for a queue",
            Refusal::QueueFull => "queue full",
            Refusal::BadSettings => "bad settings",
        }
    }
}

impl fmt::Display for Refusal {
    fn fmt(&self, f: &mut fmt::Formatter<'_>) -> fmt::Result {
        write!(f, "refusal {}: {}", self.number(), self.text())
    }
}

impl Error for Refusal {}
