//! Where the package looks for the library's archive, and what it says where there is none: cargo, run on a
//! copy of the package.

// Only its places are of use here.
#[allow(dead_code)]
mod c;

use c::{archive, place};
use std::fs;
use std::path::{Path, PathBuf};
use std::process::Command;

/// A copy of the package, in a repository that has no archive.
fn repository() -> PathBuf {
    let root = place("repository");
    if root.exists() {
        fs::remove_dir_all(&root).unwrap();
    }
    let package = root.join("rust/manulsek");
    fs::create_dir_all(package.join("src")).unwrap();
    let sources = fs::read_dir("src")
        .unwrap()
        .map(|entry| entry.unwrap().path());
    for file in sources.chain(["Cargo.toml", "build.rs"].map(PathBuf::from)) {
        fs::copy(&file, package.join(&file)).unwrap();
    }
    root.canonicalize().unwrap()
}

/// Whether cargo ends well there, and what it says.
fn cargo(command: &str, root: &Path, variable: Option<&str>) -> (bool, String) {
    let mut cargo = Command::new(env!("CARGO"));
    let words = command.split(' ').chain(["--offline"]);
    cargo.args(words).current_dir(root.join("rust/manulsek"));
    cargo.arg("--target-dir").arg(root.join("built"));
    match variable {
        Some(folder) => cargo.env("MANULSEK_LIB_DIR", folder),
        None => cargo.env_remove("MANULSEK_LIB_DIR"),
    };
    let output = cargo.output().unwrap();
    let said = String::from_utf8_lossy(&output.stderr);
    (output.status.success(), said.into_owned())
}

#[test]
fn the_archive_is_looked_for_in_one_place() {
    let root = repository();
    let own = root.join("target/staticlib");
    let own_name = own.to_str().unwrap();
    let fails = |command, variable, words: &[&str]| {
        let (well, said) = cargo(command, &root, variable);
        let all = words.iter().all(|word| said.contains(word));
        assert!(!well && all, "{command} {variable:?} {words:?}\n{said}");
    };
    let works = |command, variable| {
        let (well, said) = cargo(command, &root, variable);
        assert!(well, "{command} {variable:?}\n{said}");
    };

    // What links nothing works without the archive. What links fails, and says what to do.
    works("check", None);
    works("doc", None);
    fails(
        "build",
        None,
        &[own_name, "`tools/build door`", "MANULSEK_LIB_DIR"],
    );
    fails(
        "build -q",
        None,
        &["`tools/build door`", "MANULSEK_LIB_DIR"],
    );
    let other = archive();
    works("build", other.parent().unwrap().to_str());
    fails("build", None, &[own_name]);

    // The repository's own archive is found, but not where the variable names another place.
    fs::create_dir_all(&own).unwrap();
    fs::copy(archive(), own.join("libdoor.a")).unwrap();
    works("build", None);
    let empty = root.join("built");
    let empty = empty.to_str().unwrap();
    fails(
        "check",
        Some(empty),
        &[empty, "libdoor.a", "`tools/build door`"],
    );
    fails(
        "check",
        Some("../../target/staticlib"),
        &["MANULSEK_LIB_DIR", "full path"],
    );
    fails("check", Some(""), &["MANULSEK_LIB_DIR", "full path"]);
    works("build", Some(own_name));
}
