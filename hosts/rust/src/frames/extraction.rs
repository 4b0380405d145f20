use super::reader::Reader;
use super::writer::Writer;
use super::{Expression, Frame, FrameError};
use crate::{Kind, Side};

/// A plan that was extracted: what the join is indexed by, and what is left of the filter.
#[derive(Clone, Debug, PartialEq, Eq)]
pub struct Extraction {
    /// That of the conjunct that was taken, from 0.
    pub position: u16,
    pub predicate: Predicate,
    /// `None` where the conjunct was the whole filter.
    pub remainder: Option<Frame>,
}

/// A spatial predicate. Its columns have their indexes in their children, and not those of records.
#[derive(Clone, Debug, PartialEq, Eq)]
pub enum Predicate {
    Relation {
        relation: RelationType,
        left: Expression,
        right: Expression,
    },
    Distance {
        form: DistanceForm,
        /// The child that the bound's columns are of, if it has some.
        side: Option<Side>,
        left: Expression,
        right: Expression,
        bound: Expression,
    },
    Knn {
        /// At least 1.
        k: u32,
        spheroid: bool,
        /// The child that the query is of; the object is of the other one.
        side: Side,
        /// `None` where the call does not say.
        ties: Option<bool>,
        query: Expression,
        object: Expression,
    },
}

impl Extraction {
    /// What a plan holds after an accepted [`extract`](crate::extract), exchange or projection: its first
    /// `n` bytes, all of them.
    ///
    /// # Errors
    ///
    /// What is wrong with them; of a frame, that it begins with 1.
    pub fn of(plan: &[u8]) -> Result<Self, FrameError> {
        let mut reader = Reader::of(plan)?;
        let mut extraction = reader.predicate()?;
        extraction.remainder = reader.remainder()?;
        reader.end(extraction)
    }

    /// A predicate's bytes alone, with nothing left.
    pub(crate) fn of_predicate(bytes: &[u8]) -> Result<Self, FrameError> {
        let mut reader = Reader::of(bytes)?;
        let extraction = reader.predicate()?;
        reader.end(extraction)
    }

    /// The plan's bytes, for [`exchange`](crate::exchange) and [`project`](crate::project). All limits are
    /// tested, but not that a conjunct of what is left has its arguments.
    ///
    /// # Errors
    ///
    /// The first limit that is passed.
    pub fn bytes(&self) -> Result<Vec<u8>, FrameError> {
        let mut writer = Writer::default();
        writer.extraction(self)?;
        writer.end()
    }
}

impl Predicate {
    pub fn kind(&self) -> Kind {
        match self {
            Predicate::Relation { .. } => Kind::Relation,
            Predicate::Distance { .. } => Kind::Distance,
            Predicate::Knn { .. } => Kind::Knn,
        }
    }

    /// Its expressions, in the order of their bytes.
    pub fn arguments(&self) -> Vec<&Expression> {
        match self {
            Predicate::Relation { left, right, .. } => vec![left, right],
            Predicate::Distance {
                left, right, bound, ..
            } => vec![left, right, bound],
            Predicate::Knn { query, object, .. } => vec![query, object],
        }
    }
}

/// The type of a relation.
#[derive(Clone, Copy, Debug, PartialEq, Eq, Hash)]
pub enum RelationType {
    Intersects = 0,
    Contains = 1,
    Within = 2,
    Covers = 3,
    CoveredBy = 4,
    Touches = 5,
    Crosses = 6,
    Overlaps = 7,
    Equals = 8,
}

impl RelationType {
    /// All of them, by number.
    pub const ALL: [RelationType; 9] = [
        RelationType::Intersects,
        RelationType::Contains,
        RelationType::Within,
        RelationType::Covers,
        RelationType::CoveredBy,
        RelationType::Touches,
        RelationType::Crosses,
        RelationType::Overlaps,
        RelationType::Equals,
    ];

    pub(super) fn from_number(number: u8) -> Option<Self> {
        Self::ALL.get(usize::from(number)).copied()
    }
}

/// The form of a distance: `st_dwithin`, or the operator that compares `st_distance` with the bound.
#[derive(Clone, Copy, Debug, PartialEq, Eq, Hash)]
pub enum DistanceForm {
    Dwithin = 0,
    Lt = 1,
    LtEq = 2,
    Gt = 3,
    GtEq = 4,
}

impl DistanceForm {
    /// All of them, by number.
    pub const ALL: [DistanceForm; 5] = [
        DistanceForm::Dwithin,
        DistanceForm::Lt,
        DistanceForm::LtEq,
        DistanceForm::Gt,
        DistanceForm::GtEq,
    ];

    pub(super) fn from_number(number: u8) -> Option<Self> {
        Self::ALL.get(usize::from(number)).copied()
    }
}
