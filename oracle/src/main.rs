//! Compares the Rattle port of nalgebra's real Schur decomposition with the crate itself.
//!
//! `oracle/run COMMAND` builds what is needed and runs one command of the table below. The exit
//! status is 0 if the two agree, 1 if a difference was found, 2 if the command could not be run.

mod accuracy;
mod bench;
mod budgets;
mod call;
mod compare;
mod crate_side;
mod door;
mod jobs;
mod judge;
mod leaves;
#[allow(dead_code)]
#[rustfmt::skip]
mod model;
mod numbers;
mod options;
mod patterns;
mod random;
mod records;
mod replay;
mod root;
mod scalar;
mod speed;
mod sums;
mod times;
mod versions;

use std::arch::global_asm;
use std::process::ExitCode;

// So many bytes in front of our functions. Where they lie, to 16 bytes, is worth up to a third of a kernel's time,
// and any change of this program moves them: so times are taken at several shifts (docs/SPEED.md).
global_asm!(
    ".section .text.shift, \"axR\", @progbits",
    concat!(".skip ", env!("ORACLE_SHIFT")),
    ".text"
);

/// Runs a command on its arguments. It answers the number of differences, or why it could not run.
type Run = fn(&[String]) -> Result<usize, String>;

/// Each command with its arguments. README.md says what it does.
const COMMANDS: &[(&str, &str, Run)] = &[
    ("accuracy", "[--count COUNT] [--seed HEX]", accuracy::run),
    (
        "bench",
        "[--count THOUSANDS] [--seed HEX] [--repeat TIMES]",
        bench::run,
    ),
    ("budgets", "[--count COUNT] [--seed HEX]", budgets::run),
    (
        "compare",
        "[--count THOUSANDS] [--large COUNT] [--seed HEX] [--file FILE]",
        compare::run,
    ),
    ("leaves", "[--write]", leaves::run),
    (
        "records",
        "[--write] | --damaged COUNT [--seed HEX]",
        records::run,
    ),
    ("replay", "[--write]", replay::run),
    ("root", "[--count MILLIONS] [--seed HEX]", root::run),
    ("scalar", "[--write]", scalar::run),
    ("speed", "[--repeat TIMES] [--seed HEX]", speed::run),
    ("sums", "", sums::run),
    ("versions", "", versions::run),
];

fn main() -> ExitCode {
    let arguments: Vec<String> = std::env::args().skip(1).collect();
    let Some((name, rest)) = arguments.split_first() else {
        return usage("no command");
    };
    let Some((_, _, run)) = COMMANDS.iter().find(|command| command.0 == name) else {
        return usage(&format!("no command `{name}`"));
    };
    match run(rest) {
        Ok(0) => ExitCode::SUCCESS,
        Ok(_) => ExitCode::from(1),
        Err(why) => usage(&format!("{name}: {why}")),
    }
}

fn usage(why: &str) -> ExitCode {
    eprintln!("oracle: {why}\nusage:");
    for (name, arguments, _) in COMMANDS {
        eprintln!("  oracle/run {name} {arguments}");
    }
    ExitCode::from(2)
}
