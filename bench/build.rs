//! Links plain C: the archive that `PLAIN_C` names, which `run` builds.

use std::path::Path;
use std::{env, fs};

fn main() {
    println!("cargo::rerun-if-changed=build.rs");
    println!("cargo::rerun-if-env-changed=PLAIN_C");
    let Some(archive) = env::var_os("PLAIN_C") else {
        return println!("cargo::error=PLAIN_C names no archive; bench/run builds it");
    };
    println!("cargo::rerun-if-changed={}", Path::new(&archive).display());
    let out = env::var("OUT_DIR").expect("cargo sets it");
    fs::copy(&archive, Path::new(&out).join("libplain_c.a")).expect("the archive can be read");
    println!("cargo::rustc-link-search=native={out}");
    println!("cargo::rustc-link-lib=static=plain_c");
}
