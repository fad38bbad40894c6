//! The parts of a line.

use crate::door;

/// The call.
pub fn head(name: &str, wholes: &[usize]) -> String {
    let mut text = name.to_string();
    for n in wholes {
        text += &format!(" {n}");
    }
    text
}

/// Numbers by their bits, every NaN as ours.
pub fn numbers(numbers: &[f64]) -> String {
    let said = numbers
        .iter()
        .map(|x| format!(" {:016x}", door::one_nan(*x)));
    said.collect()
}

/// A number, a 1 or 0, and numbers.
pub fn told(norm: f64, flag: bool, rest: &[f64]) -> String {
    numbers(&[norm]) + if flag { " 1" } else { " 0" } + &numbers(rest)
}
