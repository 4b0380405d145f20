//! The archive's version is the package's, which is that of `Cargo.toml`.

use spatialjoin::{VERSION, Version, numbers, version, version_matches};

#[test]
fn the_archive_is_of_the_package_s_version() {
    assert_eq!(version().to_string(), env!("CARGO_PKG_VERSION"));
    assert_eq!(version(), VERSION);
    assert!(version_matches());
}

#[test]
fn the_number_has_the_three_parts() {
    let Version {
        major,
        minor,
        patch,
    } = VERSION;
    let number = i64::from(major) * 65_536 + i64::from(minor) * 256 + i64::from(patch);
    assert_eq!(numbers::version(), number);
}

#[test]
fn versions_are_in_their_order() {
    let version = |major, minor, patch| Version {
        major,
        minor,
        patch,
    };
    assert!(version(0, 8, 1) < version(0, 10, 0));
    assert!(version(0, 10, 0) < version(1, 0, 0));
    assert_eq!(version(0, 10, 1).to_string(), "0.10.1");
}
