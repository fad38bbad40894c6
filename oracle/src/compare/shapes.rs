//! T's for the readers: made block by block, and damaged.

use super::families::{matrix, one_in, sign};
use crate::numbers::{between, normal, power};
use crate::random::Random;

/// A quasi-triangular T, all of it finite. Some have real eigenvalues alone, some only pairs that a
/// reader takes, some anything.
pub fn draw(random: &mut Random, n: usize) -> Vec<f64> {
    let blocks: &[Block] = match random.below(4) {
        0 => &[],
        1 => &FINE,
        2 => &[turning, scaled],
        _ => &ANY,
    };
    let signed = one_in(random, 2);
    let mut t = matrix(n, |row, column| match row <= column {
        true => normal(random),
        false if signed => sign(random) * 0.0,
        false => 0.0,
    });
    let mut k = 0;
    while k + 1 < n {
        if blocks.is_empty() || one_in(random, 3) {
            k += 1;
            continue;
        }
        let block = blocks[random.below(blocks.len() as u64) as usize](random);
        for (place, x) in block.into_iter().enumerate() {
            t[k + place % 2 + (k + place / 2) * n] = x;
        }
        k += 2;
    }
    t
}

/// A block's entries, column by column; the second stands below the diagonal and is not zero.
type Block = fn(&mut Random) -> [f64; 4];

const FINE: [Block; 3] = [turning, minus_half, no_discriminant];
const ANY: [Block; 6] = [
    turning,
    minus_half,
    no_discriminant,
    scaled,
    infinite_part,
    infinite_half,
];

/// Equal diagonal entries, and two others of unlike signs: a pair.
fn turning(random: &mut Random) -> [f64; 4] {
    let (a, turn) = (normal(random), sign(random));
    [a, turn * size(random), -turn * size(random), a]
}

/// From 1 to 2.
fn size(random: &mut Random) -> f64 {
    1.0 + random.below(1 << 20) as f64 / (1 << 20) as f64
}

/// A pair, or not, of any size: the squares may vanish, or go beyond the numbers.
fn scaled(random: &mut Random) -> [f64; 4] {
    let exponents = [0, 0, -537, -600, -1060, 511, 512, 600, 1020];
    let exponent = exponents[random.below(exponents.len() as u64) as usize];
    let mut numbers = [0; 4].map(|_| normal(random) * power(exponent));
    if numbers[1] == 0.0 {
        numbers[1] = f64::from_bits(1);
    }
    numbers
}

/// Half the trace is -0: as the sum of two, or because half of the least number vanishes.
fn minus_half(random: &mut Random) -> [f64; 4] {
    let least = f64::from_bits(1);
    let diagonals = [(-0.0, -0.0), (-least, 0.0), (-0.0, -least)];
    let (a, d) = diagonals[random.below(3) as usize];
    let turn = sign(random);
    [a, turn, -turn * size(random), d]
}

/// The discriminant is +0, by zeros or by what vanishes.
fn no_discriminant(random: &mut Random) -> [f64; 4] {
    let (a, turn) = (normal(random), sign(random));
    match random.below(3) {
        0 => [a, turn, sign(random) * 0.0, a],
        1 => [a, turn * power(-600), -turn * power(-600), a],
        _ => [a, sign(random) * f64::from_bits(1), -0.5, a],
    }
}

/// The discriminant is minus infinity, and so the imaginary part is infinite.
fn infinite_part(random: &mut Random) -> [f64; 4] {
    let (a, turn) = (normal(random), sign(random));
    [a, turn * power(600), -turn * power(600), a]
}

/// The trace is infinite.
fn infinite_half(random: &mut Random) -> [f64; 4] {
    let (a, turn) = (sign(random) * f64::MAX, sign(random));
    [a, turn, -turn, a]
}

/// Changes one thing about a T, or two: an entry that is not finite, one that spoils the shape, a block
/// where there was none, or a zero's sign.
pub fn damage(random: &mut Random, n: usize, t: &mut [f64]) {
    for _ in 0..between(random, 1, 2) {
        match random.below(5) {
            0 => {
                let entry = between(random, 0, n * n - 1);
                t[entry] = not_finite(random);
            }
            1 if n > 2 => {
                let column = between(random, 0, n - 3);
                t[between(random, column + 2, n - 1) + column * n] = nonzero(random);
            }
            2 if n > 2 => {
                let column = between(random, 0, n - 3);
                t[column + 1 + column * n] = nonzero(random);
                t[column + 2 + (column + 1) * n] = nonzero(random);
            }
            3 if n > 1 => {
                let column = between(random, 0, n - 2);
                t[column + 1 + column * n] = nonzero(random);
            }
            _ => t.iter_mut().filter(|x| **x == 0.0).for_each(|x| *x = -*x),
        }
    }
}

/// NaN with any sign and payload, or an infinity.
pub fn not_finite(random: &mut Random) -> f64 {
    let payload = match random.below(4) {
        0 => 0,
        1 => 1 << 51,
        2 => 1,
        _ => random.word() >> 12,
    };
    f64::from_bits(random.below(2) << 63 | 0x7ff << 52 | payload)
}

/// Of any size, down to the least.
fn nonzero(random: &mut Random) -> f64 {
    let sizes = [1.0, power(-600), f64::from_bits(1), f64::MAX];
    sign(random) * sizes[random.below(4) as usize]
}

#[cfg(test)]
mod tests {
    use super::*;

    #[test]
    fn all_are_finite_until_damaged() {
        let mut random = Random::stream(1, 0);
        let mut bad = 0;
        for number in 0..20_000 {
            let n = 1 + number % 12;
            let mut t = draw(&mut random, n);
            assert!(t.len() == n * n && t.iter().all(|x| x.is_finite()));
            damage(&mut random, n, &mut t);
            bad += t.iter().any(|x| !x.is_finite()) as usize;
        }
        assert!((1000..15_000).contains(&bad), "{bad}");
    }

    #[test]
    fn what_is_not_finite_has_all_kinds() {
        let mut random = Random::stream(1, 0);
        let drawn: Vec<f64> = (0..1000).map(|_| not_finite(&mut random)).collect();
        assert!(!drawn.iter().any(|x| x.is_finite()));
        for sign in [0, 1 << 63] {
            for bits in [0x7ff << 52, 0x7ff << 52 | 1, 0x7ff8 << 48] {
                assert!(drawn.iter().any(|x| x.to_bits() == sign | bits));
            }
        }
    }
}
