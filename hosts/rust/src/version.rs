use std::fmt;

use crate::numbers;

/// A version of the library.
#[derive(Clone, Copy, Debug, PartialEq, Eq, PartialOrd, Ord, Hash)]
pub struct Version {
    pub major: u8,
    pub minor: u8,
    pub patch: u8,
}

/// The version of this package, from its `Cargo.toml`.
pub const VERSION: Version = Version {
    major: part(env!("CARGO_PKG_VERSION_MAJOR")),
    minor: part(env!("CARGO_PKG_VERSION_MINOR")),
    patch: part(env!("CARGO_PKG_VERSION_PATCH")),
};

const fn part(digits: &str) -> u8 {
    match u8::from_str_radix(digits, 10) {
        Ok(number) => number,
        Err(_) => panic!("a version's parts are below 256"),
    }
}

/// The version of the archive that was linked.
///
/// # Panics
///
/// On a number that no archive gives: another library was linked.
pub fn version() -> Version {
    let number = numbers::version();
    match u32::try_from(number).map(u32::to_be_bytes) {
        Ok([0, major, minor, patch]) => Version {
            major,
            minor,
            patch,
        },
        _ => panic!("{number} is no version of the library"),
    }
}

/// Whether the archive that was linked is of this package's version. A host asks this at its start,
/// before it makes a call: an archive of another version may take other arguments, fill other
/// records and give other answers. No call asks it.
pub fn version_matches() -> bool {
    version() == VERSION
}

impl fmt::Display for Version {
    fn fmt(&self, f: &mut fmt::Formatter<'_>) -> fmt::Result {
        write!(f, "{}.{}.{}", self.major, self.minor, self.patch)
    }
}
