//! Links the static library that `tools/build door` writes.

use std::env::{self, VarError};
use std::fs;
use std::path::{Path, PathBuf};
use std::process::exit;

/// Names the folder that has the archive. Who takes this package by `git = ".."` needs it: cargo keeps the
/// package in a folder of its own then, where nobody runs `rt`.
const VARIABLE: &str = "MANULSEK_LIB_DIR";

const NAME: &str = "libdoor.a";

const WRITTEN: &str = "`tools/build door`, in the root of Manulsek's repository, writes it to target/staticlib there.";

/// Where the archive is if the variable is not set, seen from this package's folder, where cargo runs this script.
const FOLDER: &str = "../../target/staticlib";

/// The compiler is not always run in this folder: the program that is linked in the end may be another
/// package's. So it cannot be told this path. Nor can it be told a full one, which cargo keeps: a copy of
/// the repository would link the first one's library. The folder that cargo gives to this script is good
/// for both, since cargo knows it again when it has moved; so the library is copied there.
fn main() {
    println!("cargo:rerun-if-env-changed={VARIABLE}");
    let named = named();
    let archive = Path::new(named.as_deref().unwrap_or(FOLDER)).join(NAME);
    // Without this line cargo would keep what was linked with an older archive.
    println!("cargo:rerun-if-changed={}", archive.display());
    if archive.is_file() {
        let folder = PathBuf::from(env::var_os("OUT_DIR").expect("cargo sets it"));
        if let Err(why) = fs::copy(&archive, folder.join(NAME)) {
            fail(&format!("{} cannot be copied: {why}.", archive.display()));
        }
        println!("cargo:rustc-link-search=native={}", folder.display());
        println!("cargo:rustc-link-lib=static=door");
    } else if let Some(folder) = named {
        fail(&format!(
            "{VARIABLE} is {folder:?}, and {NAME} is not there. {WRITTEN}"
        ));
    } else {
        warn();
    }
}

/// What the variable says. It is then the only place that is looked at.
fn named() -> Option<String> {
    let folder = match env::var(VARIABLE) {
        Err(VarError::NotPresent) => return None,
        Err(VarError::NotUnicode(folder)) => {
            fail(&format!("{VARIABLE} is {folder:?}, which is no UTF-8."))
        }
        Ok(folder) => folder,
    };
    // Seen from where? Cargo runs this script in the package's folder, which is not where its caller stands.
    if Path::new(&folder).is_relative() {
        fail(&format!(
            "{VARIABLE} is {folder:?}; it has to be a full path, which begins with \"/\"."
        ));
    }
    Some(folder)
}

/// Neither `cargo doc` nor `cargo check` links, so they go on without the archive. `cargo build` has to fail: the
/// compiler is told to link what is nowhere. It says so by that name, which has the remedy in it, since cargo
/// keeps these lines to itself if it is told to be quiet (`-q`); else it shows them with the failure, those of
/// a package by `git = ".."` too.
fn warn() {
    let root = fs::canonicalize("../..").unwrap_or_else(|_| PathBuf::from("../.."));
    let folder = root.join("target/staticlib");
    println!(
        "cargo:warning={NAME} is not in {}: nothing can be linked.",
        folder.display()
    );
    println!("cargo:warning={WRITTEN}");
    println!("cargo:warning=Where manulsek comes by git = \"..\", set {VARIABLE} to that folder's full path.");
    println!("cargo:rustc-link-lib=static=door (`tools/build door` writes it, {VARIABLE} names its folder)");
}

fn fail(why: &str) -> ! {
    eprintln!("{why}");
    exit(1);
}
