//! The blocks that rotations and reflections are run on.

use super::draw::many;
use super::say::numbers;
use super::{reflections, rotations};

pub struct Case {
    /// Order and number of entries of the matrix.
    pub n: usize,
    pub len: usize,
    /// Length of the axis, where it is a slice.
    pub k: usize,
    /// First row, number of rows, first column, column behind the last.
    pub row: usize,
    pub rows: usize,
    pub c0: usize,
    pub c1: usize,
    /// Seed of the matrix; seed of the axis, or of the rotation.
    pub seed: usize,
    pub other: usize,
}

pub fn answer(name: &str, wholes: &[usize]) -> Option<String> {
    let &[n, len, k, row, rows, c0, c1, seed, other] = wholes else {
        return None;
    };
    let c = Case {
        n,
        len,
        k,
        row,
        rows,
        c0,
        c1,
        seed,
        other,
    };
    let mut t = many(c.len, c.seed)?;
    let axis = many(c.k, c.other)?;
    rotations::rotate(name, &c, &mut t)
        .or_else(|| reflections::reflect(name, &c, &axis, &mut t))?;
    Some(numbers(&t))
}
