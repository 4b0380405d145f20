/// The numbered refusals of document 01, and those that document 02 adds.
#[derive(Clone, Copy, Debug, PartialEq, Eq)]
pub enum Refusal {
    /// Frame empty or over 16,384 bytes.
    FrameLength = 1,
    /// Wrong first byte.
    FirstByte = 2,
    /// Frame ends inside a field.
    Ends = 3,
    /// Field out of its range.
    Range = 4,
    /// Over 1,024 nodes, or depth over 64.
    Limit = 5,
    /// A column node's index is not below the column count.
    ColumnIndex = 6,
    /// Bytes after the end.
    BytesAfter = 7,
    /// An AND-leaf with too few arguments.
    Arity = 8,
    /// Plan buffer, scratch or output too short.
    NoRoom = 9,
    /// The held bytes are no plan, or the buffer holds no queues.
    BadPlan = 10,
    /// Plan empty.
    EmptyPlan = 11,
    /// Plan already extracted.
    Extracted = 12,
    /// No leaf matches.
    NoMatch = 13,
    /// A line that is no hexadecimal frame.
    BadLine = 14,
    /// Text buffer shorter than the text.
    TextRoom = 15,
    /// Merged frame over a limit.
    MergedLimit = 16,
    /// Table shorter than the node count.
    TableRoom = 17,
    /// Plan not extracted.
    NotExtracted = 18,
    /// A list over 4,096 items.
    ListLength = 19,
    /// An index that its list lacks.
    NotInList = 20,
    /// Queue not 0 or 1.
    NoQueue = 21,
    /// Frame over 1,024 bytes, for a queue.
    QueuedLength = 22,
    /// Queue full.
    QueueFull = 23,
    /// Kinds 0 or above 7, a default k of 0, or a default above the greatest.
    BadSettings = 24,
}

impl Refusal {
    pub fn number(self) -> u8 {
        self as u8
    }
}
