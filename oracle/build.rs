//! Links the static library of the kernels that `tools/build` writes, and hands `ORACLE_SHIFT` on to the
//! program. The door comes with the package `rust/manulsek`, which links it.

use std::env;
use std::path::Path;
use std::process::exit;

/// Seen from this package's folder, where cargo runs both this script and the compiler. A full path
/// would be kept in oracle/target, and a copy of the repository would link the first one's library.
const FOLDER: &str = "../target/staticlib";

/// The Rattle crate of this name.
const LIBRARY: &str = "leaf_door";

fn main() {
    println!("cargo:rustc-link-search=native={FOLDER}");
    let shift = env::var("ORACLE_SHIFT").unwrap_or_else(|_| "0".to_string());
    println!("cargo:rerun-if-env-changed=ORACLE_SHIFT");
    println!("cargo:rustc-env=ORACLE_SHIFT={shift}");
    let archive = Path::new(FOLDER).join(format!("lib{LIBRARY}.a"));
    // Without this line cargo would keep the program that was linked with an older archive.
    println!("cargo:rerun-if-changed={}", archive.display());
    println!("cargo:rustc-link-lib=static={LIBRARY}");
    if !archive.is_file() {
        eprintln!("{} (seen from oracle/) is not there.", archive.display());
        eprintln!("Run `tools/build {LIBRARY}` in the repository's root, or use `oracle/run`.");
        exit(1);
    }
}
