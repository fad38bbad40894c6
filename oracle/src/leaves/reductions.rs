//! A matrix reduced column by column, and Q put together from what that leaves.

use super::draw::many;
use super::plain;
use super::say::numbers;

pub fn answer(name: &str, wholes: &[usize]) -> Option<String> {
    match (name, wholes) {
        ("clear_column", &[n, len, k, icol, seed]) => {
            let (norm, w, _) = cleared(n, len, k, icol, seed)?;
            Some(numbers(&[norm]) + &numbers(&w))
        }
        ("clear_column, matrix", &[n, len, k, icol, seed]) => {
            let (_, _, t) = cleared(n, len, k, icol, seed)?;
            Some(numbers(&t))
        }
        ("reduce, column", &[n, seed, icol]) if icol < n => {
            let (norms, _) = reduced(n, seed, icol + 1)?;
            Some(numbers(&norms[icol..]))
        }
        ("reduce, matrix", &[n, seed]) => {
            let (_, t) = reduced(n, seed, n)?;
            Some(numbers(&t))
        }
        ("reduce, Q", &[n, seed]) => {
            let (norms, t) = reduced(n, seed, n)?;
            let mut q = many(n * n, 48)?;
            plain::assemble_q(&t, n, &norms, &mut q);
            Some(numbers(&q))
        }
        ("assemble_q", &[n, len, qlen, k, seed]) => {
            let mut q = many(qlen, 48)?;
            plain::assemble_q(&many(len, seed)?, n, &many(k, 13)?, &mut q);
            Some(numbers(&q))
        }
        _ => None,
    }
}

/// The norm, the workspace and the matrix.
fn cleared(
    n: usize,
    len: usize,
    k: usize,
    icol: usize,
    seed: usize,
) -> Option<(f64, Vec<f64>, Vec<f64>)> {
    let (mut t, mut w) = (many(len, seed)?, many(k, 40)?);
    let norm = plain::clear_column(&mut t, n, icol, &mut w);
    Some((norm, w, t))
}

/// The norms of the first columns, and the matrix with these cleared.
fn reduced(n: usize, seed: usize, columns: usize) -> Option<(Vec<f64>, Vec<f64>)> {
    let mut t = many(n.checked_mul(n)?, seed)?;
    let mut w = many(9, 40)?;
    let norms = (0..columns).map(|icol| plain::clear_column(&mut t, n, icol, &mut w));
    let norms = norms.collect();
    Some((norms, t))
}
