//! Fetches a package's original files into the build folder, so that none is kept here. The
//! folder is `SEDONA_DB_SRC`, or else `../shared/docs/src` beside the repository's root: a checkout
//! of the original's repository, or a folder with files named after their paths there.

use std::path::PathBuf;
use std::{env, fs};

fn main() {
    let variable = |name| env::var(name).expect("cargo sets it");
    let package = variable("CARGO_PKG_NAME");
    let here = PathBuf::from(variable("CARGO_MANIFEST_DIR"));
    let default = here.join("../../../../shared/docs/src");
    let source = env::var("SEDONA_DB_SRC").map_or(default, PathBuf::from);
    let out = PathBuf::from(variable("OUT_DIR"));
    let modules = match package.as_str() {
        "sedona-expr" => &["utils"][..],
        _ => &["spatial_expr_utils", "spatial_predicate"][..],
    };
    println!("cargo::rerun-if-env-changed=SEDONA_DB_SRC");
    for module in modules {
        let flat = source.join(format!("src--rust--{package}--src--{module}.rs.txt"));
        let file = match flat.exists() {
            true => flat,
            false => source.join(format!("rust/{package}/src/{module}.rs")),
        };
        println!("cargo::rerun-if-changed={}", file.display());
        let text = fs::read(&file).unwrap_or_else(|e| panic!("{}: {e}", file.display()));
        fs::write(out.join(format!("{module}.rs")), text).expect("the build folder is writable");
    }
}
