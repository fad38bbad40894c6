//! Programs in C, built with the archive that this package was built with.

use std::env;
use std::fs;
use std::path::{Path, PathBuf};
use std::process::{Command, Output};

/// The copy that `build.rs` has made, whichever folder it took it from. Cargo tells where that is when it runs the
/// tests. What it told the compiler may be another's: that of the folder that this one was copied from.
pub fn archive() -> PathBuf {
    let folder = env::var_os("OUT_DIR").expect("cargo runs the tests");
    Path::new(&folder).join("libdoor.a")
}

/// Those that are there; else `cc`, by which Rust itself links. Without it the tests fail.
pub fn compilers() -> Vec<&'static str> {
    let there = |name: &&str| Command::new(name).arg("--version").output().is_ok();
    let found: Vec<&str> = ["gcc", "clang"].into_iter().filter(there).collect();
    if found.is_empty() {
        return vec!["cc"];
    }
    found
}

/// Runs what has to end well.
pub fn run(command: &mut Command) -> Output {
    let output = command
        .output()
        .unwrap_or_else(|why| panic!("{command:?}\n{why}"));
    let said = String::from_utf8_lossy(&output.stderr);
    assert!(output.status.success(), "{command:?}\n{said}");
    output
}

/// A place for a file of the tests: beside the tests themselves.
pub fn place(name: &str) -> PathBuf {
    let folder = env::current_exe().unwrap().with_file_name("tmp");
    fs::create_dir_all(&folder).unwrap();
    folder.join(name)
}

/// The program that a compiler makes of this source; tests run in the package's folder.
pub fn built(compiler: &str, source: &Path) -> PathBuf {
    let name = source
        .file_stem()
        .expect("a source has a name")
        .to_string_lossy();
    let program = place(&format!("{name}-{compiler}"));
    run(Command::new(compiler)
        .args([
            "-std=c99",
            "-pedantic",
            "-Wall",
            "-Wextra",
            "-Werror",
            "-O1",
            "-Iinclude",
        ])
        .arg(source)
        .arg(archive())
        .arg("-o")
        .arg(&program));
    program
}
