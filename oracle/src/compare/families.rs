//! The families of matrices. Each draws one of a given order, column by column; all are finite.

use crate::numbers::{between, normal, ordinary, power};
use crate::random::Random;

pub struct Family {
    pub name: &'static str,
    pub entries: fn(&mut Random, usize) -> Vec<f64>,
}

/// A line of the table below.
const fn family(name: &'static str, entries: fn(&mut Random, usize) -> Vec<f64>) -> Family {
    Family { name, entries }
}

pub const FAMILIES: &[Family] = &[
    family("normal", |random, n| matrix(n, |_, _| normal(random))),
    family("integer", integer),
    family("sparse", sparse),
    family("permutation", permutation),
    family("companion", companion),
    family("graded", graded),
    family("subnormal", subnormal),
    family("signed zeros", signed_zeros),
    family("block", block),
    family("triangular", triangular),
    family("symmetric", |random, n| mirrored(random, n, 1.0)),
    family("skew", |random, n| mirrored(random, n, -1.0)),
    family("Jordan", jordan),
    family("rank one", rank_one),
    family("huge", huge),
    family("vanishing squares", vanishing),
    family("near decoupled", near_decoupled),
    family("any finite bits", |random, n| matrix(n, |_, _| any(random))),
];

/// A matrix by its entry at each row and column.
pub fn matrix(n: usize, mut entry: impl FnMut(usize, usize) -> f64) -> Vec<f64> {
    let places = (0..n).flat_map(|column| (0..n).map(move |row| (row, column)));
    places.map(|(row, column)| entry(row, column)).collect()
}

/// Any number but those that are not finite.
fn any(random: &mut Random) -> f64 {
    loop {
        let x = f64::from_bits(random.word());
        if x.is_finite() {
            return x;
        }
    }
}

pub fn one_in(random: &mut Random, many: u64) -> bool {
    random.below(many) == 0
}

pub fn sign(random: &mut Random) -> f64 {
    [1.0, -1.0][random.below(2) as usize]
}

/// A whole number of at most this magnitude.
fn whole(random: &mut Random, most: u64) -> f64 {
    random.below(2 * most + 1) as f64 - most as f64
}

/// Normal numbers or small whole ones, whichever a matrix has.
fn plain(random: &mut Random) -> fn(&mut Random) -> f64 {
    [normal as fn(&mut Random) -> f64, |random| whole(random, 4)][random.below(2) as usize]
}

fn transposed(entries: &[f64], n: usize) -> Vec<f64> {
    matrix(n, |row, column| entries[column + row * n])
}

fn integer(random: &mut Random, n: usize) -> Vec<f64> {
    let most = 1 + random.below(9);
    matrix(n, |_, _| whole(random, most))
}

fn sparse(random: &mut Random, n: usize) -> Vec<f64> {
    let many = 2 + random.below(7);
    let number = plain(random);
    matrix(n, |_, _| match one_in(random, many) {
        true => number(random),
        false => 0.0,
    })
}

/// Any permutation, or one cycle, on which the passes stand still; with signs or without.
fn permutation(random: &mut Random, n: usize) -> Vec<f64> {
    let mut row: Vec<usize> = (0..n).collect();
    if one_in(random, 4) {
        row.rotate_left(1);
    } else {
        for last in (1..n).rev() {
            row.swap(last, between(random, 0, last));
        }
    }
    let signed = one_in(random, 2);
    let mut entries = vec![0.0; n * n];
    for (column, row) in row.into_iter().enumerate() {
        entries[row + column * n] = if signed { sign(random) } else { 1.0 };
    }
    entries
}

/// Coefficients in the first row or the last column, ones below the diagonal; or the transpose.
fn companion(random: &mut Random, n: usize) -> Vec<f64> {
    let number = plain(random);
    let in_row = one_in(random, 2);
    let entries = matrix(n, |row, column| {
        let coefficient = if in_row { row == 0 } else { column + 1 == n };
        match () {
            () if coefficient => number(random),
            () if row == column + 1 => 1.0,
            () => 0.0,
        }
    });
    match one_in(random, 3) {
        true => transposed(&entries, n),
        false => entries,
    }
}

/// Each row, or column, or both, by a power of two times the one before; or such a similarity.
fn graded(random: &mut Random, n: usize) -> Vec<f64> {
    let step = between(random, 1, 60) as i32 * sign(random) as i32;
    let kind = random.below(4);
    matrix(n, |row, column| {
        let (row, column) = (row as i32, column as i32);
        let steps = [row, column, row + column, row - column][kind as usize];
        normal(random) * power((step * steps).clamp(-1074, 1000))
    })
}

/// Subnormals of any size, some zeros, and in some matrices the least normal numbers.
fn subnormal(random: &mut Random, n: usize) -> Vec<f64> {
    let with_normal = one_in(random, 3);
    matrix(n, |_, _| match random.below(4) {
        0 => sign(random) * 0.0,
        1 if with_normal => normal(random) * f64::MIN_POSITIVE,
        _ => sign(random) * f64::from_bits(random.of_any_size(52)),
    })
}

/// Zeros of both signs, and some ones.
fn signed_zeros(random: &mut Random, n: usize) -> Vec<f64> {
    let many = 1 + random.below(2 * n as u64);
    matrix(n, |_, _| match one_in(random, many) {
        true => sign(random),
        false => sign(random) * 0.0,
    })
}

/// Blocks on the diagonal, of one entry up to four rows: in some matrices J, rows (0 -1), (1 0), or
/// its transpose wherever there are two. Outside the blocks +0, or zeros of both signs.
fn block(random: &mut Random, n: usize) -> Vec<f64> {
    let signed = one_in(random, 4);
    let mut entries = matrix(n, |_, _| if signed { sign(random) * 0.0 } else { 0.0 });
    let (number, turns, most) = (plain(random), one_in(random, 2), between(random, 2, 4));
    let mut first = 0;
    while first < n {
        let size = between(random, 1, most).min(n - first);
        let turn = sign(random);
        for column in 0..size {
            for row in 0..size {
                entries[first + row + (first + column) * n] = match (row, column) {
                    (0, 0) | (1, 1) if turns && size == 2 => 0.0,
                    (1, 0) if turns && size == 2 => turn,
                    (0, 1) if turns && size == 2 => -turn,
                    _ => number(random),
                };
            }
        }
        first += size;
    }
    entries
}

/// Upper triangular, with blocks of two on the diagonal in half of the cases; or the transpose.
fn triangular(random: &mut Random, n: usize) -> Vec<f64> {
    let number = plain(random);
    let mut entries = matrix(n, |row, column| match row <= column {
        true => number(random),
        false => 0.0,
    });
    if one_in(random, 2) {
        let mut k = 0;
        while k + 1 < n {
            let two = one_in(random, 2);
            if two {
                entries[k + 1 + k * n] = number(random);
            }
            k += if two { 2 } else { 1 };
        }
    }
    match one_in(random, 4) {
        true => transposed(&entries, n),
        false => entries,
    }
}

/// The entries below the diagonal are those above it times this sign.
fn mirrored(random: &mut Random, n: usize, times: f64) -> Vec<f64> {
    let number = plain(random);
    let mut entries = matrix(n, |_, _| number(random));
    for column in 0..n {
        if times < 0.0 {
            entries[column + column * n] *= 0.0;
        }
        for row in column + 1..n {
            entries[row + column * n] = times * entries[column + row * n];
        }
    }
    entries
}

/// Blocks with one whole eigenvalue each and ones above it, or below; then whole numbers of rows are
/// added to others, and the columns are taken off, which leaves the blocks similar.
fn jordan(random: &mut Random, n: usize) -> Vec<f64> {
    let mut entries = vec![0.0; n * n];
    let mut value = whole(random, 3);
    for k in 0..n {
        entries[k + k * n] = value;
        if one_in(random, 4) {
            value = whole(random, 3);
        } else if k + 1 < n {
            entries[k + (k + 1) * n] = 1.0;
        }
    }
    if one_in(random, 3) {
        entries = transposed(&entries, n);
    }
    for _ in 0..random.below(2 * n as u64) {
        let (to, from) = (between(random, 0, n - 1), between(random, 0, n - 1));
        let times = sign(random);
        if to != from {
            for k in 0..n {
                entries[to + k * n] += times * entries[from + k * n];
            }
            for k in 0..n {
                entries[k + from * n] -= times * entries[k + to * n];
            }
        }
    }
    entries
}

fn rank_one(random: &mut Random, n: usize) -> Vec<f64> {
    let number = plain(random);
    let [left, right] = [0; 2].map(|_| (0..n).map(|_| number(random)).collect::<Vec<f64>>());
    matrix(n, |row, column| left[row] * right[column])
}

/// Near overflow: all entries, or some beside ordinary ones, or the largest number itself.
fn huge(random: &mut Random, n: usize) -> Vec<f64> {
    let exponent = between(random, 500, 1019) as i32;
    let kind = random.below(4);
    matrix(n, |_, _| match (kind, random.below(3)) {
        (0, _) | (1, 0) => normal(random) * power(1019),
        (2, 0) => sign(random) * f64::MAX,
        (2, 1) => 0.0,
        (3, _) => normal(random) * power(exponent),
        _ => normal(random),
    })
}

/// Numbers whose squares vanish, or just do not, beside 1: an axis of such numbers alone makes no
/// reflection.
fn vanishing(random: &mut Random, n: usize) -> Vec<f64> {
    match random.below(3) {
        0 => {
            let many = 1 + random.below(4);
            matrix(n, |_, _| match one_in(random, many) {
                true => ordinary(random),
                false => near_540(random),
            })
        }
        // A few numbers of one size, as in the matrices whose runs leave a bulge.
        1 => matrix(n, |_, _| match random.below(4) {
            0 => sign(random) * 0.0,
            1 => sign(random),
            2 => near_540(random),
            _ => sign(random) * power(-(random.below(1075) as i32)),
        }),
        // Only below the diagonal.
        _ => matrix(n, |row, column| match row > column {
            true => near_540(random),
            false => ordinary(random),
        }),
    }
}

fn near_540(random: &mut Random) -> f64 {
    match random.below(8) {
        0 => sign(random) * 0.0,
        1 => sign(random) * power(-(between(random, 500, 560) as i32)),
        _ => ordinary(random) * power(-(between(random, 530, 545) as i32)),
    }
}

/// Entries just below the diagonal of about the size that delimiting takes for 0, at one tolerance or
/// another; zeros further below, or numbers as small. Where the diagonal is as small the absolute test
/// decides.
fn near_decoupled(random: &mut Random, n: usize) -> Vec<f64> {
    let full = one_in(random, 4);
    let flat = one_in(random, 3);
    matrix(n, |row, column| match row as i32 - column as i32 {
        1 => small(random),
        2.. if full => small(random),
        2.. => 0.0,
        0 if flat => small(random),
        _ => normal(random),
    })
}

/// An ordinary number, or one about as large as a tolerance or its square.
fn small(random: &mut Random) -> f64 {
    let exponents = [0, 1, 2, 10, 20, 52, 104, 300, 537, 600, 1060];
    let exponent = exponents[random.below(exponents.len() as u64) as usize];
    normal(random) * power(-exponent)
}

#[cfg(test)]
mod tests {
    use super::*;

    /// So many matrices of every family.
    fn each(orders: impl Iterator<Item = usize>, mut test: impl FnMut(&Family, usize, &[f64])) {
        let mut random = Random::stream(1, 0);
        for n in orders {
            for family in FAMILIES {
                test(family, n, &(family.entries)(&mut random, n));
            }
        }
    }

    #[test]
    fn all_are_finite_and_square() {
        each((0..6000).map(|k| 1 + k % 12), |family, n, entries| {
            assert_eq!(entries.len(), n * n, "{}", family.name);
            assert!(entries.iter().all(|x| x.is_finite()), "{}", family.name);
        });
        each(13..=64, |family, n, entries| {
            assert_eq!(entries.len(), n * n, "{}", family.name);
            assert!(entries.iter().all(|x| x.is_finite()), "{}", family.name);
        });
    }

    /// Families have what they are named after.
    #[test]
    fn families_are_what_they_say() {
        let mut seen = [0; 5];
        each((0..1000).map(|k| 3 + k % 10), |family, n, entries| {
            let at = |row: usize, column: usize| entries[row + column * n];
            let any = |what: fn(f64) -> bool| entries.iter().any(|&x| what(x));
            let all = |what: fn(f64) -> bool| entries.iter().all(|&x| what(x));
            match family.name {
                "symmetric" => assert!((1..n).all(|k| at(k, 0) == at(0, k))),
                "skew" => assert!((0..n).all(|k| at(k, 0) == -at(0, k))),
                "permutation" => assert_eq!(entries.iter().map(|x| x.abs()).sum::<f64>(), n as f64),
                "subnormal" => seen[0] += all(|x| x.abs() < f64::MIN_POSITIVE) as usize,
                "signed zeros" => seen[1] += any(|x| x == 0.0 && x.is_sign_negative()) as usize,
                "huge" => seen[2] += any(|x| x.abs() > 1e305) as usize,
                "vanishing squares" => seen[3] += any(|x| x != 0.0 && x * x == 0.0) as usize,
                "Jordan" => seen[4] += all(|x| x == x.trunc()) as usize,
                _ => {}
            }
        });
        assert!(seen.iter().all(|&count| count > 100), "{seen:?}");
    }
}
