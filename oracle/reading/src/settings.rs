//! Document 02, request 13: what a site may have indexed.

use crate::frame::Predicate;

#[derive(Clone, Copy, Debug, PartialEq, Eq)]
pub struct Settings {
    /// Bit 0 relation, bit 1 distance, bit 2 KNN.
    pub kinds: u8,
    /// Of a two-argument KNN call.
    pub default_k: u32,
    pub greatest_k: u32,
}

impl Settings {
    /// Those that the program gives, and the only ones under which the Rust is the oracle.
    pub const OF_THE_PROGRAM: Settings = Settings {
        kinds: 7,
        default_k: 1,
        greatest_k: 4_294_967_295,
    };

    /// Kinds 0 or above 7, a default k of 0, or a default above the greatest get 24.
    pub fn get_24(self) -> bool {
        self.kinds == 0 || self.kinds > 7 || self.default_k == 0 || self.default_k > self.greatest_k
    }

    /// A leaf of a kind not allowed, or with a k above the greatest, does not match.
    pub fn allow(self, predicate: &Predicate) -> bool {
        let bit = match predicate {
            Predicate::Relation { .. } => 0,
            Predicate::Distance { .. } => 1,
            Predicate::Knn { k, .. } if *k > self.greatest_k => return false,
            Predicate::Knn { .. } => 2,
        };
        self.kinds & (1 << bit) != 0
    }
}
