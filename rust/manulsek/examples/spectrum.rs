//! Eigenvalues of a matrix that is read from standard input, a row on each line:
//!
//!     printf '0 -1 5\n1 0 6\n0 0 2\n' | cargo run --example spectrum
//!
//! Exit status: 0, the eigenvalues are printed. Else nothing is printed but the reason, on standard error:
//! 1, the input is no square of numbers that an f64 can hold; 2, there is an argument; 3, the library refused;
//! 4, the eigenvalues could not be written (some may have been). An input or output that is closed is none of these:
//! Rust opens /dev/null in its place, so the first is an empty matrix, and the second takes all.

use manulsek::{Refusal, Schur};
use std::env;
use std::io::{read_to_string, stdin, stdout, Write};
use std::process::ExitCode;

const UNREAD: u8 = 1;
const MISCALLED: u8 = 2;
const REFUSED: u8 = 3;
const UNWRITTEN: u8 = 4;

fn main() -> ExitCode {
    match spectrum() {
        Ok(()) => ExitCode::SUCCESS,
        Err((status, why)) => {
            eprintln!("spectrum: {why}");
            ExitCode::from(status)
        }
    }
}

fn spectrum() -> Result<(), (u8, String)> {
    if env::args_os().len() > 1 {
        return Err((
            MISCALLED,
            "the matrix comes by standard input, and no argument is taken".into(),
        ));
    }
    let text = read_to_string(stdin()).map_err(|why| (UNREAD, why.to_string()))?;
    let (order, entries) = matrix(&text).map_err(|why| (UNREAD, why))?;
    let said = report(order, &entries)
        .map_err(|why| (REFUSED, format!("refused with {}: {why}", why.number)))?;
    let mut out = stdout();
    let written = out.write_all(said.as_bytes()).and_then(|()| out.flush());
    written.map_err(|why| (UNWRITTEN, why.to_string()))
}

/// The order, and the entries column by column, which is how the library has them.
fn matrix(text: &str) -> Result<(usize, Vec<f64>), String> {
    let lines = text.lines().zip(1..);
    let rows: Vec<Vec<f64>> = lines
        .map(|(line, at)| row(line, at))
        .collect::<Result<_, _>>()?;
    let order = rows.len();
    if let Some(at) = rows.iter().position(|row| row.len() != order) {
        let (line, found) = (at + 1, rows[at].len());
        return Err(format!(
            "numbers on line {line}: {found}; there have to be as many as lines, {order}"
        ));
    }
    Ok((
        order,
        (0..order * order)
            .map(|k| rows[k % order][k / order])
            .collect(),
    ))
}

fn row(line: &str, at: usize) -> Result<Vec<f64>, String> {
    let told = |(word, place): (&str, usize)| {
        number(word).map_err(|why| {
            let most: String = word.chars().take(40).collect();
            let cut = if most.len() < word.len() { ".." } else { "" };
            format!("line {at}, word {place}, {most:?}{cut}, {why}")
        })
    };
    line.split_whitespace().zip(1..).map(told).collect()
}

/// A number that is not 0 must not become 0, nor a finite one infinite. `nan` and `inf`, which have no digit,
/// are numbers here: the library refuses them.
fn number(word: &str) -> Result<f64, &'static str> {
    let number: f64 = word.parse().map_err(|_| "is no number")?;
    let digits = word.split(['e', 'E']).next().unwrap_or_default();
    if number == 0.0 && digits.contains(|c| ('1'..='9').contains(&c)) {
        return Err("is not 0, but too small for an f64");
    }
    if number.is_infinite() && digits.contains(|c: char| c.is_ascii_digit()) {
        return Err("is too large for an f64");
    }
    Ok(number)
}

fn report(order: usize, entries: &[f64]) -> Result<String, Refusal> {
    let schur = Schur::try_new(order, entries, f64::EPSILON, 10_000)?;
    let mut said = format!("passes {}\n", schur.passes());
    for (re, im) in schur.complex_eigenvalues()? {
        said += &format!("{re} {im:+}i\n");
    }
    Ok(said)
}
