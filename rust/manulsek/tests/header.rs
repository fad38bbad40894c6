//! That `include/manulsek.h` and `src/raw.rs` declare the same functions, that the header is good C and C++,
//! and that header and package say at each entry how rows are turned.

mod c;

use c::{built, compilers, place, run};
use manulsek::Schur;
use std::fs;
use std::process::Command;

const HEADER: &str = include_str!("../include/manulsek.h");
const RAW: &str = include_str!("../src/raw.rs");

/// A function's name, the names and types of its arguments, and the type of its answer.
type Function = (String, Vec<(String, String)>, String);

/// The text up to the first of these, and what comes behind it.
fn cut<'a>(text: &'a str, at: &str) -> (&'a str, &'a str) {
    text.split_once(at)
        .unwrap_or_else(|| panic!("`{at}` in {text}"))
}

/// Those of the Rust block: `pub fn NAME(NAME: TYPE, ..) -> TYPE;`.
fn of_rust() -> Vec<Function> {
    let function = |text: &str| {
        let (name, rest) = cut(text, "(");
        let (arguments, rest) = cut(rest, ")");
        let argument = |text: &str| {
            let (name, kind) = cut(text, ":");
            (name.trim().to_string(), kind.trim().to_string())
        };
        let words = arguments.split(',').filter(|text| !text.trim().is_empty());
        let answer = cut(cut(rest, "->").1, ";").0.trim();
        (
            name.to_string(),
            words.map(argument).collect(),
            answer.to_string(),
        )
    };
    RAW.split("pub fn ").skip(1).map(function).collect()
}

/// Those of the header: `uint64_t NAME(TYPE NAME, ..);`, each at the head of a line.
fn of_c() -> Vec<Function> {
    let function = |text: &str| {
        let (name, rest) = cut(text, "(");
        let argument = |text: &str| {
            let text = text.trim();
            let first = text.rfind(|c: char| !c.is_alphanumeric() && c != '_');
            let (kind, name) = text.split_at(first.expect("a type and a name") + 1);
            (name.to_string(), in_rust(kind))
        };
        let arguments = cut(rest, ");").0.split(',').map(argument).collect();
        (name.to_string(), arguments, in_rust("uint64_t"))
    };
    HEADER.split("\nuint64_t ").skip(1).map(function).collect()
}

fn in_rust(kind: &str) -> String {
    let same = match kind
        .split_whitespace()
        .collect::<Vec<_>>()
        .join(" ")
        .as_str()
    {
        "size_t" => "usize",
        "uint32_t" => "u32",
        "uint64_t" => "u64",
        "uint8_t *" => "*mut u8",
        "const uint8_t *" => "*const u8",
        other => panic!("a new type: {other}"),
    };
    same.to_string()
}

#[test]
fn header_and_raw_declare_the_same() {
    assert_eq!(of_c(), of_rust());
    assert_eq!(of_c().len(), 5);
}

/// The line that turns rows, in C and in Rust.
const IN_C: &str = "for (size_t k = 0; k < n * n; k++) columns[k] = rows[k % n * n + k / n];";
const IN_RUST: &str =
    "let columns: Vec<f64> = (0..n * n).map(|k| rows[k % n * n + k / n]).collect();";

/// The functions that take a matrix or a T, by their names, each with what is said just before it.
fn entries<'a>(text: &'a str, function: &str) -> Vec<(&'a str, &'a str)> {
    let entry = |(at, _): (usize, &str)| {
        let (name, rest) = cut(&text[at + function.len()..], "(");
        let arguments = cut(rest, ")").0;
        let takes = |word: &&str| arguments.contains(*word);
        let wanted = ["matrix", "entries", "*t,", "t: &["].iter().any(takes);
        let from = text[..at].rfind("\n\n").expect("an empty line before it");
        wanted.then_some((name, &text[from..at]))
    };
    text.match_indices(function).filter_map(entry).collect()
}

/// Each says how rows are turned, by the line that is run below and in the package's documentation.
#[test]
fn each_entry_turns_rows() {
    let (lib, schur) = (
        include_str!("../src/lib.rs"),
        include_str!("../src/schur.rs"),
    );
    let all = [
        (entries(HEADER, "\nuint64_t "), IN_C, 4),
        (entries(lib, "\npub fn "), IN_RUST, 4),
        (entries(schur, "\n    pub fn "), IN_RUST, 1),
    ];
    for (entries, line, count) in all {
        assert_eq!(entries.len(), count, "{entries:?}");
        for (name, said) in entries {
            assert!(said.contains(line), "{name}: {said}");
        }
    }
    assert!(cut(HEADER, "#ifndef").0.contains(IN_C));
    assert!(lib.contains(&format!("//! {IN_RUST}\n")));
}

/// That line in C makes of rows what Rust makes of columns, bit for bit; rows as they are make another T.
#[test]
fn the_line_in_c_turns_rows() {
    let program = r#"
#include <float.h>
#include <stdio.h>
#include "manulsek.h"

static const double rows[9] = {1, 2, 3, 4, 5, 6, 7, 8, 10};
static double columns[9], t[9];

static int show(const double *matrix) {
    uint64_t answer = manulsek_decompose(3, (const uint8_t *)matrix, sizeof t, manulsek_pattern(DBL_EPSILON),
                                         1000, 0, (uint8_t *)t, sizeof t, NULL, 0);
    for (size_t k = 0; k < 9; k++) printf("%016llx ", (unsigned long long)manulsek_pattern(t[k]));
    puts("");
    return manulsek_accepted(answer);
}

int main(void) {
    size_t n = 3;
    LINE
    return show(columns) && show(rows) ? 0 : 1;
}
"#;
    let source = place("turned.c");
    fs::write(&source, program.replace("LINE", IN_C)).unwrap();
    let rows = [1.0, 2.0, 3.0, 4.0, 5.0, 6.0, 7.0, 8.0, 10.0];
    let columns = [1.0, 4.0, 7.0, 2.0, 5.0, 8.0, 3.0, 6.0, 10.0];
    let shown = |matrix: &[f64]| {
        let schur = Schur::try_new(3, matrix, f64::EPSILON, 1000).unwrap();
        let words = schur.t().iter().map(|x| format!("{:016x} ", x.to_bits()));
        words.collect::<String>() + "\n"
    };
    assert_ne!(shown(&columns), shown(&rows));
    for compiler in compilers() {
        let output = run(&mut Command::new(built(compiler, &source)));
        let said = String::from_utf8(output.stdout).unwrap();
        assert_eq!(said, shown(&columns) + &shown(&rows), "{compiler}");
    }
}

#[test]
fn the_header_is_good_cpp() {
    for compiler in compilers() {
        run(Command::new(compiler)
            .args([
                "-x",
                "c++",
                "-std=c++11",
                "-pedantic",
                "-Wall",
                "-Wextra",
                "-Werror",
            ])
            .args(["-fsyntax-only", "include/manulsek.h"])
            // A header that is compiled by itself is said to have functions that nobody uses.
            .args(["-Wno-unused-function", "-Wno-pragma-once-outside-header"]));
    }
}
