use std::fmt;

use crate::{Kind, Refusal, numbers};

/// What an accepted [`explain`](crate::explain) gives.
#[derive(Clone, Copy, Debug, PartialEq, Eq)]
pub struct Explained {
    /// How many conjuncts there are, and so bytes that were written at the buffer's start.
    pub count: usize,
    /// The conjunct that an extract under the same settings takes; `None` where nothing matches.
    pub taken: Option<Taken>,
}

/// The conjunct that sets the line.
#[derive(Clone, Copy, Debug, PartialEq, Eq, Hash)]
pub struct Taken {
    /// Its line: what it is indexed by.
    pub kind: Kind,
    /// From 0, among the conjuncts of the frame.
    pub position: u16,
}

/// The answer of an explain, taken apart.
pub(crate) fn explained(answer: i64) -> Result<Explained, Refusal> {
    if answer < 0 {
        return Err(Refusal::from_number(answer.unsigned_abs()));
    }
    let taken = match numbers::line_of(answer) {
        0 => None,
        line => Some(Taken {
            kind: Kind::from_number(line),
            position: numbers::taken_of(answer),
        }),
    };
    Ok(Explained {
        count: numbers::conjuncts_of(answer) as usize,
        taken,
    })
}

/// What [`explain`](crate::explain) says of a conjunct, a byte each: that it matches, and as what, or the
/// first reason in this order why it does not. `docs/PRICE-LIST.md` of the repository has what to change
/// for each. A later version may have more.
#[derive(Clone, Copy, Debug, PartialEq, Eq, PartialOrd, Ord, Hash)]
#[non_exhaustive]
pub enum Verdict {
    /// It matches, and this is the first byte of its extraction.
    AsRelation = 0x11,
    /// Likewise.
    AsDistance = 0x12,
    /// Likewise.
    AsKnn = 0x13,
    /// It would be one of these with its name in small letters.
    OtherCase = 0x20,
    /// `st_distance` stands on the side of a comparison that is not looked at.
    OtherSide = 0x21,
    /// `st_distance` beside an operator other than `<`, `<=`, `>` and `>=`.
    OtherOperator = 0x22,
    /// Directly below it (an OR, a NOT, a function) stands what could be one.
    InsideAnother = 0x23,
    /// Any other expression.
    NothingOfOurs = 0x24,
    /// The settings leave its kind out.
    KindLeftOut = 0x30,
    /// An `st_knn` of fewer than two arguments.
    FewerArguments = 0x40,
    /// An `st_knn` of more than five.
    MoreArguments = 0x41,
    /// Its first geometry has no column.
    FirstWithoutColumns = 0x50,
    /// Its first geometry has columns of both children.
    FirstOfBoth = 0x51,
    /// Its first geometry has a mark column.
    FirstWithMark = 0x52,
    /// Its second geometry has no column.
    SecondWithoutColumns = 0x53,
    /// Its second geometry has columns of both children.
    SecondOfBoth = 0x54,
    /// Its second geometry has a mark column.
    SecondWithMark = 0x55,
    /// Both geometries are of the left child.
    BothLeft = 0x56,
    /// Both geometries are of the right child.
    BothRight = 0x57,
    /// The bound of a distance has columns of both children.
    BoundOfBoth = 0x60,
    /// The bound of a distance has a mark column.
    BoundWithMark = 0x61,
    /// k is no whole-number literal.
    KNoNumber = 0x70,
    /// k is below 1.
    KBelowOne = 0x71,
    /// k is above the greatest k of the settings.
    KAboveGreatest = 0x72,
    /// The first flag is no Boolean literal.
    SpheroidNoFlag = 0x73,
    /// The second flag is no Boolean literal.
    TiesNoFlag = 0x74,
}

impl Verdict {
    /// All of them, in their order, which is that of their bytes.
    pub const ALL: [Verdict; 26] = [
        Verdict::AsRelation,
        Verdict::AsDistance,
        Verdict::AsKnn,
        Verdict::OtherCase,
        Verdict::OtherSide,
        Verdict::OtherOperator,
        Verdict::InsideAnother,
        Verdict::NothingOfOurs,
        Verdict::KindLeftOut,
        Verdict::FewerArguments,
        Verdict::MoreArguments,
        Verdict::FirstWithoutColumns,
        Verdict::FirstOfBoth,
        Verdict::FirstWithMark,
        Verdict::SecondWithoutColumns,
        Verdict::SecondOfBoth,
        Verdict::SecondWithMark,
        Verdict::BothLeft,
        Verdict::BothRight,
        Verdict::BoundOfBoth,
        Verdict::BoundWithMark,
        Verdict::KNoNumber,
        Verdict::KBelowOne,
        Verdict::KAboveGreatest,
        Verdict::SpheroidNoFlag,
        Verdict::TiesNoFlag,
    ];

    /// `11` to `13` for a match, a greater one for a reason.
    pub fn byte(self) -> u8 {
        self as u8
    }

    /// The verdict of a byte that [`explain`](crate::explain) wrote; `None` of any other byte.
    pub fn from_byte(byte: u8) -> Option<Self> {
        Self::ALL.into_iter().find(|verdict| verdict.byte() == byte)
    }

    /// What the conjunct can be indexed by, if it matches.
    pub fn kind(self) -> Option<Kind> {
        match self {
            Verdict::AsRelation => Some(Kind::Relation),
            Verdict::AsDistance => Some(Kind::Distance),
            Verdict::AsKnn => Some(Kind::Knn),
            _ => None,
        }
    }

    fn text(self) -> &'static str {
        match self {
            Verdict::AsRelation => "a relation",
            Verdict::AsDistance => "a distance",
            Verdict::AsKnn => "a KNN",
            Verdict::OtherCase => "a name that is looked for, but for the case of its letters",
            Verdict::OtherSide => "st_distance on the side that is not looked at",
            Verdict::OtherOperator => "st_distance beside an operator other than <, <=, > and >=",
            Verdict::InsideAnother => "what could be indexed stands inside another expression",
            Verdict::NothingOfOurs => "no function and no comparison that could be indexed",
            Verdict::KindLeftOut => "a kind that the settings leave out",
            Verdict::FewerArguments => "an st_knn of fewer than two arguments",
            Verdict::MoreArguments => "an st_knn of more than five arguments",
            Verdict::FirstWithoutColumns => "a first geometry without columns",
            Verdict::FirstOfBoth => "a first geometry with columns of both children",
            Verdict::FirstWithMark => "a first geometry with a mark column",
            Verdict::SecondWithoutColumns => "a second geometry without columns",
            Verdict::SecondOfBoth => "a second geometry with columns of both children",
            Verdict::SecondWithMark => "a second geometry with a mark column",
            Verdict::BothLeft => "both geometries of the left child",
            Verdict::BothRight => "both geometries of the right child",
            Verdict::BoundOfBoth => "a bound with columns of both children",
            Verdict::BoundWithMark => "a bound with a mark column",
            Verdict::KNoNumber => "a k that is no whole-number literal",
            Verdict::KBelowOne => "a k below 1",
            Verdict::KAboveGreatest => "a k above the greatest k",
            Verdict::SpheroidNoFlag => "a fourth argument that is no Boolean literal",
            Verdict::TiesNoFlag => "a fifth argument that is no Boolean literal",
        }
    }
}

/// Its byte, as the documents have it, and words.
impl fmt::Display for Verdict {
    fn fmt(&self, f: &mut fmt::Formatter<'_>) -> fmt::Result {
        write!(f, "{:02x}: {}", self.byte(), self.text())
    }
}
