//! Finds the archive and has it linked: the file that `SPATIALJOIN_LIB` names; or else the repository's
//! `target/staticlib/libspatialjoin_c.a`, which `scripts/build-library` builds; or else, where that is not
//! there, the one of this version that `hosts/c/install` installed and that pkg-config finds.

use std::path::{Path, PathBuf};
use std::process::Command;
use std::{env, fs};

/// What pkg-config reads; `PKG_CONFIG` is its name.
const PKG_CONFIG: [&str; 4] = [
    "PKG_CONFIG",
    "PKG_CONFIG_PATH",
    "PKG_CONFIG_LIBDIR",
    "PKG_CONFIG_SYSROOT_DIR",
];

fn main() {
    println!("cargo::rerun-if-changed=build.rs");
    println!("cargo::rerun-if-env-changed=SPATIALJOIN_LIB");
    let target = env::var("TARGET").expect("cargo sets it");
    if !target.starts_with("x86_64-") || !target.contains("linux") {
        return println!("cargo::error=the archive is for x86-64 Linux, not for {target}");
    }
    if let Err(error) = archive().and_then(|archive| link(&archive)) {
        println!("cargo::error={error}");
        println!("cargo::error=run `scripts/build-library` in the repository's folder");
        println!("cargo::error=or set SPATIALJOIN_LIB to the path of the archive");
        println!("cargo::error=or PKG_CONFIG_PATH to the folder of an installed spatialjoin.pc");
    }
}

fn archive() -> Result<PathBuf, String> {
    if let Some(named) = env::var_os("SPATIALJOIN_LIB") {
        return Ok(named.into());
    }
    let ours = PathBuf::from("../../target/staticlib/libspatialjoin_c.a");
    if ours.exists() {
        return Ok(ours);
    }
    installed().map_err(|error| format!("{} is not there; {error}", ours.display()))
}

/// The installed archive of this package's version.
fn installed() -> Result<PathBuf, String> {
    for name in PKG_CONFIG {
        println!("cargo::rerun-if-env-changed={name}");
    }
    let name = format!("spatialjoin = {}", env!("CARGO_PKG_VERSION"));
    pkg_config(&["--print-errors", "--exists", &name])?;
    let folder = pkg_config(&["--variable=libdir", "spatialjoin"])?;
    Ok(Path::new(&folder).join("libspatialjoin_c.a"))
}

/// What pkg-config says; where it fails, why.
fn pkg_config(arguments: &[&str]) -> Result<String, String> {
    let program = env::var_os("PKG_CONFIG").unwrap_or("pkg-config".into());
    let output = Command::new(&program).args(arguments).output();
    let output = output.map_err(|error| format!("{}: {error}", Path::new(&program).display()))?;
    let words = |bytes: &[u8]| String::from_utf8_lossy(bytes).trim().replace('\n', "; ");
    if output.status.success() {
        Ok(words(&output.stdout))
    } else {
        Err(words(&output.stderr))
    }
}

/// The archive may have any name; the linker looks for it under its own.
fn link(archive: &Path) -> Result<(), String> {
    println!("cargo::rerun-if-changed={}", archive.display());
    let out = PathBuf::from(env::var_os("OUT_DIR").expect("cargo sets it"));
    fs::copy(archive, out.join("libspatialjoin_c.a"))
        .map_err(|error| format!("{}: {error}", archive.display()))?;
    println!("cargo::rustc-link-search=native={}", out.display());
    println!("cargo::rustc-link-lib=static=spatialjoin_c");
    Ok(())
}
