use std::ops::BitOr;

/// The k of an `st_knn` call of two arguments under the default settings.
pub const DEFAULT_K: u32 = 1;

/// The greatest k under the default settings, and the greatest that there is.
pub const GREATEST_K: u32 = u32::MAX;

/// What a site may have indexed, for [`extract`](crate::extract), [`extract_all`](crate::extract_all) and
/// [`explain`](crate::explain). [`Settings::default`] is what the program gives: under it every answer is
/// what it was without settings.
///
/// The kinds must be some, and nothing but kinds; the default k is at least 1 and at most the
/// greatest: other settings are refused with 24.
#[derive(Clone, Copy, Debug, PartialEq, Eq, Hash)]
pub struct Settings {
    /// A conjunct of another kind does not match.
    pub kinds: Kinds,
    /// The k of an `st_knn` call of two arguments; one of more has its own.
    pub default_k: u32,
    /// A KNN conjunct with a k above it does not match.
    pub greatest_k: u32,
}

impl Default for Settings {
    /// All kinds, [`DEFAULT_K`] and [`GREATEST_K`].
    fn default() -> Self {
        Settings {
            kinds: Kinds::ALL,
            default_k: DEFAULT_K,
            greatest_k: GREATEST_K,
        }
    }
}

/// The kinds of conjuncts that may be indexed: `Kinds::RELATIONS | Kinds::KNN`, for one.
#[derive(Clone, Copy, Debug, PartialEq, Eq, Hash)]
pub struct Kinds(u8);

impl Kinds {
    pub const RELATIONS: Kinds = Kinds(1);
    pub const DISTANCES: Kinds = Kinds(2);
    pub const KNN: Kinds = Kinds(4);
    pub const ALL: Kinds = Kinds(7);

    /// The kinds of a byte with a bit for each, from a site's own file, for one: any byte.
    pub const fn from_bits(bits: u8) -> Self {
        Kinds(bits)
    }

    /// A byte with a bit for each kind.
    pub const fn bits(self) -> u8 {
        self.0
    }
}

impl BitOr for Kinds {
    type Output = Kinds;

    fn bitor(self, other: Kinds) -> Kinds {
        Kinds(self.0 | other.0)
    }
}

const _: () = {
    let (relations, distances, knn) = (Kinds::RELATIONS, Kinds::DISTANCES, Kinds::KNN);
    assert!(Kinds::ALL.bits() == relations.bits() | distances.bits() | knn.bits());
    assert!(DEFAULT_K == 1 && GREATEST_K == 4_294_967_295);
};
