//! What the port's functions do and `model.rs` has no function for: the formulas that it writes in line,
//! by their numbers in `docs/SUMS.md`, and the answers to calls that the crate would not take.

use crate::model;

/// Length 0 has no axis.
pub fn axis(c: &mut [f64], small: bool) -> (f64, bool) {
    if c.is_empty() {
        return (0.0, false);
    }
    model::axis(c, small)
}

/// Slices of different lengths have no dot product.
pub fn dot(x: &[f64], y: &[f64]) -> f64 {
    if x.len() != y.len() {
        return f64::NAN;
    }
    model::dot(x, y)
}

/// 2.1, and 0 for no number.
pub fn camax(v: &[f64]) -> f64 {
    if v.is_empty() {
        return 0.0;
    }
    model::largest(v)
}

/// 2.5, by the dot of a run-time length or of the static lengths 2 and 3.
pub fn norm_squared(v: &[f64], small: bool) -> f64 {
    if small {
        0.0 + model::dot_small(v, v)
    } else {
        0.0 + model::dot(v, v)
    }
}

pub fn norm(v: &[f64], small: bool) -> f64 {
    norm_squared(v, small).sqrt()
}

/// 2.7
pub fn scale(v: &mut [f64], f: f64) {
    for e in v {
        *e *= f;
    }
}

pub fn unscale(v: &mut [f64], f: f64) {
    for e in v {
        *e /= f;
    }
}

/// 2.6
pub fn normalize(v: &mut [f64], small: bool) {
    let n = norm(v, small);
    unscale(v, n);
}

/// Whether a block lies in a matrix of order n, at most 64, that has `len` entries.
pub fn fits(n: usize, len: usize, row: usize, rows: usize, col: usize, cols: usize) -> bool {
    let within = |a: usize, count: usize| a.checked_add(count).is_some_and(|end| end <= n);
    n <= 64 && len == n * n && within(row, rows) && within(col, cols)
}

/// 5.1 with the norm, which is what the sine was divided by.
pub fn try_new(x: f64, y: f64, eps: f64) -> Option<(f64, f64, f64)> {
    let (c, s) = model::givens(x, y, eps)?;
    let (m, sign) = model::to_exp(x);
    Some((c, s, sign * (m * m + y * y).sqrt()))
}

/// 5.2
pub fn new(x: f64, y: f64) -> (f64, f64, f64) {
    try_new(x, y, 0.0).unwrap_or((1.0, 0.0, 0.0))
}

/// 5.3
pub fn cancel_y(x: f64, y: f64) -> Option<(f64, f64, f64)> {
    if y == 0.0 {
        return None;
    }
    let (m, sign) = model::to_exp(x);
    let den = (m * m + y * y).sqrt();
    Some((m / den, -y / (sign * den), sign * den))
}

/// 3.4, with the workspace: it holds the axis where there is a reflection. NaN, and nothing done, where
/// there is no row below row k or the workspace is shorter than n.
pub fn clear_column(t: &mut [f64], n: usize, k: usize, work: &mut [f64]) -> f64 {
    if !fits(n, t.len(), k, 2, k, 2) || n > work.len() {
        return f64::NAN;
    }
    let below = k + 1 + k * n..n + k * n;
    let (norm, reflected) = model::axis(&mut t[below.clone()], false);
    if reflected {
        let a = t[below].to_vec();
        work[..a.len()].copy_from_slice(&a);
        let sign = model::signum(norm);
        model::reflect_rows(t, n, &a, n, k + 1, sign, &mut vec![0.0; n]);
        model::reflect_cols(t, n, &a, k + 1, k + 1, n, sign, false);
    }
    norm
}

/// 3.5. Nothing is done at order 0, where m or q is no matrix of order n, or where a sign is missing.
pub fn assemble_q(m: &[f64], n: usize, signs: &[f64], q: &mut [f64]) {
    let square = |len: usize| fits(n, len, 0, n, 0, n);
    if n > 0 && square(m.len()) && square(q.len()) && n - 1 <= signs.len() {
        q.copy_from_slice(&model::assemble_q(m, n, signs));
    }
}
