//! Whether a block lies in a matrix; entries read and put.

use super::draw::{drawn, many};
use super::plain;
use super::say::numbers;

pub fn answer(name: &str, wholes: &[usize]) -> Option<String> {
    match (name, wholes) {
        ("block_fits", &[n, len, row, rows, col, cols]) => {
            let answer = usize::from(plain::fits(n, len, row, rows, col, cols));
            Some(format!(" {answer}"))
        }
        ("entry", &[n, len, i, j]) => {
            let t = many(len, 15)?;
            let there = plain::fits(n, len, i, 1, j, 1);
            Some(numbers(&[if there { t[j * n + i] } else { f64::NAN }]))
        }
        ("put", &[n, len, i, j]) => {
            let mut t = many(len, 7)?;
            if plain::fits(n, len, i, 1, j, 1) {
                t[j * n + i] = drawn(4, 1);
            }
            Some(numbers(&t))
        }
        _ => None,
    }
}
