//! Command `leaves`: what the program `leaf_runs` has to print, made with the plain functions of
//! `model.rs`, which hold the formulas of `docs/SUMS.md`. The stored file `crates/leaf_runs/stdout` is
//! compared with it; `--write` stores it anew. The program's own output never gets there: `rt ci` holds the
//! program to the file.
//!
//! The calls are those of `crates/leaf_runs/stdin`, which the program is run on too and which says what
//! their numbers mean; a line that is no call is an error. Numbers are drawn as
//! `crates/leaf_runs/src/draw.rt` says. What `model.rs` has no function for stands in `leaves/plain.rs`.

mod blocks;
mod case;
mod crates_own;
mod draw;
mod plain;
mod read;
mod reductions;
mod reflections;
mod rotations;
mod say;
mod slices;
mod vectors;

use std::fs;

/// Seen from this package's folder, where cargo runs the program.
const CALLS: &str = "../crates/leaf_runs/stdin";
const ANSWERS: &str = "../crates/leaf_runs/stdout";

pub fn run(arguments: &[String]) -> Result<usize, String> {
    let write = match arguments {
        [] => false,
        [only] if only == "--write" => true,
        _ => return Err("takes `--write` or nothing".to_string()),
    };
    let calls = fs::read_to_string(CALLS).map_err(|why| format!("{CALLS}: {why}"))?;
    let made = page(&calls)?;
    if write {
        fs::write(ANSWERS, &made).map_err(|why| format!("{ANSWERS}: {why}"))?;
    }
    let stored = fs::read_to_string(ANSWERS).map_err(|why| format!("{ANSWERS}: {why}"))?;
    let mut differences = stored.lines().count().abs_diff(made.lines().count());
    for (line, right) in stored.lines().zip(made.lines()) {
        if line != right {
            differences += 1;
            println!("stored {line}\n right {right}");
        }
    }
    println!("{} lines, {differences} differences", made.lines().count());
    Ok(differences + crates_own::compare(0x5eed, 100_000))
}

/// All that the program prints.
fn page(calls: &str) -> Result<String, String> {
    if calls.len() >= read::ROOM {
        return Err(format!("{CALLS}: more text than the program has room for"));
    }
    let mut page = String::new();
    for (place, line) in (1..).zip(calls.split('\n')) {
        if line.is_empty() || line.starts_with('#') {
            continue;
        }
        page += &answer(line).ok_or(format!("{CALLS}, line {place}: not understood: {line}"))?;
    }
    Ok(page)
}

/// The line of a call.
fn answer(line: &str) -> Option<String> {
    let (name, wholes) = read::call(line)?;
    let found = slices::answer(name, &wholes)
        .or_else(|| vectors::answer(name, &wholes))
        .or_else(|| blocks::answer(name, &wholes))
        .or_else(|| rotations::answer(name, &wholes))
        .or_else(|| case::answer(name, &wholes))
        .or_else(|| reductions::answer(name, &wholes))?;
    Some(say::head(name, &wholes) + &found + "\n")
}

#[cfg(test)]
mod tests {
    use super::{answer, page};

    #[test]
    fn calls_are_answered() {
        let norm = "norm 1 0 3ff0000000000000\n";
        assert_eq!(answer("norm 1 0").as_deref(), Some(norm));
        assert_eq!(page("# a comment\n\nnorm 1 0").as_deref(), Ok(norm));
        assert!(answer("block_fits 3 9 18446744073709551615 1 0 3").is_some());
    }

    #[test]
    fn other_lines_are_refused() {
        for line in [
            "",
            "nor 1 0",
            "norm",
            "norm 1",
            "norm 1 0 0",
            "norm 1 0 ",
            "norm  1 0",
            "norm 1 -0",
            "norm +1 0",
            "norm 1 0\r",
            "norm 1 18446744073709551616",
            "norm 82 0",
            "clear_column 2 4 82 0 0",
            "reduce, matrix 10 0",
            "reduce, column 2 0 2",
        ] {
            assert_eq!(answer(line), None, "{line}");
        }
        assert!(page("norm 1 0\nnor 1 0\n").is_err_and(|why| why.contains("line 2")));
        assert!(page(&"#\n".repeat(32_768)).is_err());
    }
}
