//! How far T and Q are from what they stand for: two figures, in twice the precision of an f64.
//!
//! The residual is ‖A - Q T Q'‖ / (n eps ‖A‖), the loss ‖Q'Q - I‖ / (n eps); the norms are Frobenius's,
//! n is the order and eps is 2^-52. Where T is zeros the residual is 1 / (n eps).
//!
//! A and T are first multiplied by the power of two that puts the largest magnitude of A between 1 and 2. So no
//! product of ordinary entries overflows or vanishes. An entry that is 2^-1022 times the largest, or less, may
//! lose digits by that: at most 2^-1074 of the largest, which is far below the 2^-52 that is looked for.
//! What overflows all the same is infinite, and so is the figure.

use crate::numbers::power;

/// Both figures of one decomposition.
#[derive(Clone, Copy, Debug, Default, PartialEq)]
pub struct Figures {
    pub residual: f64,
    pub loss: f64,
}

impl Figures {
    /// Of A, T and Q, column by column.
    pub fn of(n: usize, a: &[f64], t: &[f64], q: &[f64]) -> Figures {
        let unit = n as f64 * f64::EPSILON;
        Figures {
            residual: residual(n, a, t, q) / unit,
            loss: loss(n, q) / unit,
        }
    }

    pub fn largest(&self) -> f64 {
        self.residual.max(self.loss)
    }

    /// The larger of each.
    pub fn max(self, other: Figures) -> Figures {
        Figures {
            residual: self.residual.max(other.residual),
            loss: self.loss.max(other.loss),
        }
    }
}

/// ‖A - Q T Q'‖ / ‖A‖.
pub fn residual(n: usize, a: &[f64], t: &[f64], q: &[f64]) -> f64 {
    let exponent = exponent_of_largest(a);
    let (a, t) = (times(a, -exponent), times(t, -exponent));
    let qt = product(
        n,
        |row, k| (q[row + k * n], 0.0),
        |k, column| t[k + column * n],
    );
    let qtq = product(n, |row, k| qt[row + k * n], |k, column| q[column + k * n]);
    let rest = qtq.iter().zip(&a).map(|(x, a)| {
        let mut sum = Sum::of(*x);
        sum.add(-a);
        sum.value()
    });
    match norm(rest) {
        0.0 => 0.0,
        rest => rest / norm(a.iter().copied()),
    }
}

/// ‖Q'Q - I‖.
pub fn loss(n: usize, q: &[f64]) -> f64 {
    let squares = product(
        n,
        |row, k| (q[k + row * n], 0.0),
        |k, column| q[k + column * n],
    );
    let rest = squares.iter().enumerate().map(|(place, x)| {
        let mut sum = Sum::of(*x);
        sum.add(if place % n == place / n { -1.0 } else { 0.0 });
        sum.value()
    });
    norm(rest)
}

/// The matrix of the sums of left(row, k) * right(k, column), each as a number and what is missing to it.
fn product(
    n: usize,
    left: impl Fn(usize, usize) -> (f64, f64),
    right: impl Fn(usize, usize) -> f64,
) -> Vec<(f64, f64)> {
    let mut sums = vec![Sum::default(); n * n];
    for (column, sums) in sums.chunks_mut(n).enumerate() {
        for k in 0..n {
            let factor = right(k, column);
            if factor != 0.0 {
                for (row, sum) in sums.iter_mut().enumerate() {
                    sum.add_product(left(row, k), factor);
                }
            }
        }
    }
    sums.into_iter().map(|sum| (sum.high, sum.low)).collect()
}

/// A sum with what its roundings left out: about 106 binary digits.
#[derive(Clone, Copy, Default)]
pub struct Sum {
    high: f64,
    low: f64,
}

impl Sum {
    pub fn of((high, low): (f64, f64)) -> Sum {
        Sum { high, low }
    }

    fn add(&mut self, x: f64) {
        let sum = self.high + x;
        let taken = sum - self.high;
        self.low += (self.high - (sum - taken)) + (x - taken);
        self.high = sum;
    }

    pub fn add_product(&mut self, (high, low): (f64, f64), factor: f64) {
        let product = high * factor;
        self.low += high.mul_add(factor, -product) + low * factor;
        self.add(product);
    }

    pub fn value(self) -> f64 {
        self.high + self.low
    }
}

/// Infinite where a number is not finite. The largest is taken out first, so that no square vanishes that counts.
fn norm(numbers: impl Iterator<Item = f64>) -> f64 {
    let numbers: Vec<f64> = numbers.collect();
    if numbers.iter().any(|x| !x.is_finite()) {
        return f64::INFINITY;
    }
    let largest = numbers.iter().fold(0.0, |most: f64, x| most.max(x.abs()));
    if largest == 0.0 {
        return 0.0;
    }
    let squares = numbers.iter().map(|x| (x / largest) * (x / largest));
    largest * squares.sum::<f64>().sqrt()
}

/// e with the largest magnitude from 2^e to below 2^(e + 1), or 0 if all are zero.
pub fn exponent_of_largest(numbers: &[f64]) -> i32 {
    let largest = numbers.iter().fold(0.0, |most: f64, x| most.max(x.abs()));
    let bits = largest.to_bits();
    match (bits >> 52) as i32 {
        0 if bits == 0 => 0,
        0 => 63 - bits.leading_zeros() as i32 - 1074,
        biased => biased - 1023,
    }
}

/// Each number times 2^exponent, the exponent from -1023 to 1074: in two steps, since no f64 holds 2^1074.
pub fn times(numbers: &[f64], exponent: i32) -> Vec<f64> {
    let (first, second) = (power(exponent / 2), power(exponent - exponent / 2));
    numbers.iter().map(|x| x * first * second).collect()
}

#[cfg(test)]
mod tests {
    use super::*;
    use crate::compare::FAMILIES;
    use crate::crate_side;
    use crate::random::Random;

    const N: usize = 4;
    /// n * eps.
    const UNIT: f64 = 4.0 * f64::EPSILON;

    /// Orthogonal without any rounding, and not symmetric: half of rows of signs.
    fn halves() -> Vec<f64> {
        let rows = [
            [1.0, 1.0, 1.0, 1.0],
            [1.0, -1.0, 1.0, -1.0],
            [1.0, -1.0, -1.0, 1.0],
            [1.0, 1.0, -1.0, -1.0],
        ];
        let turned = [1, 2, 3, 0];
        (0..16).map(|k| rows[turned[k % 4]][k / 4] / 2.0).collect()
    }

    /// Upper triangular, of small whole numbers.
    fn whole() -> Vec<f64> {
        let entry = |k: usize| {
            if k % 4 <= k / 4 {
                (1 + k % 5) as f64
            } else {
                0.0
            }
        };
        (0..16).map(entry).collect()
    }

    /// Q T Q' in plain arithmetic.
    fn plain(t: &[f64], q: &[f64]) -> Vec<f64> {
        let sum = |row: usize, column: usize| -> f64 {
            let places = (0..16).map(|k| (k % 4, k / 4));
            places
                .map(|(i, j)| q[row + i * 4] * t[i + j * 4] * q[column + j * 4])
                .sum()
        };
        (0..16).map(|k| sum(k % 4, k / 4)).collect()
    }

    fn near(found: f64, right: f64) {
        assert!((found / right - 1.0).abs() < 1e-12, "{found} for {right}");
    }

    fn moved(numbers: &[f64], place: usize, by: f64) -> Vec<f64> {
        let mut numbers = numbers.to_vec();
        numbers[place] += by;
        numbers
    }

    #[test]
    fn without_an_error_both_are_zero() {
        let (t, q) = (whole(), halves());
        let right = Figures {
            residual: 0.0,
            loss: 0.0,
        };
        assert_eq!(Figures::of(N, &plain(&t, &q), &t, &q), right);
        assert_eq!(Figures::of(N, &[0.0; 16], &[0.0; 16], &q), right);
        assert_eq!(Figures::of(1, &[5.0], &[5.0], &[1.0]), right);
    }

    /// An error of T comes through Q at its own size; one of Q shows in both.
    #[test]
    fn planted_errors_have_their_size() {
        let (t, q) = (whole(), halves());
        let a = plain(&t, &q);
        let size = norm(a.iter().copied());
        near(size, t.iter().map(|x| x * x).sum::<f64>().sqrt());
        for error in [2f64.powi(-50), 2f64.powi(-30), 0.5, -1024.0] {
            let figures = Figures::of(N, &a, &moved(&t, 4, error), &q);
            near(figures.residual, error.abs() / size / UNIT);
            assert_eq!(figures.loss, 0.0);
            // The rest is the error of A in one place.
            let figures = Figures::of(N, &moved(&a, 6, error), &t, &q);
            let size = norm(moved(&a, 6, error).into_iter());
            near(figures.residual, error.abs() / size / UNIT);
        }
        // A column of Q that is longer by a factor 1 + e: its square is 1 + 2 e + e e.
        let e = 2f64.powi(-20);
        let long: Vec<f64> = q
            .iter()
            .enumerate()
            .map(|(k, x)| if k < 4 { x * (1.0 + e) } else { *x })
            .collect();
        let figures = Figures::of(N, &a, &t, &long);
        near(figures.loss, (2.0 * e + e * e) / UNIT);
        assert!(figures.residual > 1e8);
    }

    /// Where an f64 would see nothing but its own roundings.
    #[test]
    fn what_is_below_a_rounding_is_seen() {
        let third = [1.0 / 3.0, 0.0, 0.0, 1.0 / 3.0];
        let t = [3.0, 0.0, 0.0, 3.0];
        // 3 * (1/3)(1/3) against 1/3: the rounding of 1/3 is 2^-54 / 3 below.
        let square = (1.0 / 3.0 * (1.0 / 3.0)) * 3.0;
        assert_eq!(square - 1.0 / 3.0, 0.0);
        near(residual(2, &third, &t, &third), 2f64.powi(-54));
        near(
            loss(1, &[1.0 + f64::EPSILON]),
            2f64.powi(-51) + 2f64.powi(-104),
        );
    }

    #[test]
    fn the_wrong_order_of_factors_is_seen() {
        let (t, q) = (whole(), halves());
        let a = plain(&t, &q);
        let turned: Vec<f64> = (0..16).map(|k| q[k / 4 + k % 4 * 4]).collect();
        assert_ne!(turned, q);
        let figures = Figures::of(N, &a, &t, &turned);
        assert!(figures.residual > 0.1 / UNIT, "{figures:?}");
        assert_eq!(figures.loss, 0.0);
    }

    #[test]
    fn nothing_for_an_answer_is_one_by_n_eps() {
        let (t, q) = (whole(), halves());
        let a = plain(&t, &q);
        let zeros = [0.0; 16];
        near(Figures::of(N, &a, &zeros, &q).residual, 1.0 / UNIT);
        let figures = Figures::of(N, &a, &zeros, &zeros);
        near(figures.residual, 1.0 / UNIT);
        near(figures.loss, 2.0 / UNIT); // ‖I‖ is the root of 4
        let lost = Figures::of(N, &zeros, &t, &q);
        assert_eq!(lost.residual, f64::INFINITY);
        let figures = Figures::of(N, &a, &moved(&t, 0, f64::NAN), &moved(&q, 0, f64::INFINITY));
        assert_eq!(
            (figures.residual, figures.loss),
            (f64::INFINITY, f64::INFINITY)
        );
    }

    /// A power of two changes no figure as long as A and T lose no digits by it, even where all is subnormal.
    #[test]
    fn sizes_make_no_difference() {
        let (a, t, q) = (
            [41.0, -12.0, -12.0, 34.0],
            [25.0, 0.0, 0.0, 50.0],
            [0.6, 0.8, -0.8, 0.6],
        );
        let right = Figures::of(2, &a, &t, &q);
        assert!((0.01..1.0).contains(&right.residual), "{right:?}");
        for exponent in [-1074, -1000, -600, -1, 1, 600, 1017] {
            let [a, t] = [a, t].map(|numbers| numbers.map(|x| x * power(exponent)));
            assert_eq!(Figures::of(2, &a, &t, &q), right);
        }
        // Small entries beside the largest number are rounded, and that is not seen.
        let wide = [f64::MAX, 0.0, 1.0, 3.0];
        assert_eq!(residual(2, &wide, &wide, &[1.0, 0.0, 0.0, 1.0]), 0.0);
        let other = residual(
            2,
            &wide,
            &[f64::MAX, 0.0, 1e300, 3.0],
            &[1.0, 0.0, 0.0, 1.0],
        );
        near(other, 1e300 / f64::MAX);
    }

    #[test]
    fn exponents_and_powers() {
        let least = f64::from_bits(1);
        for (x, exponent) in [
            (1.0, 0),
            (-1.99, 0),
            (0.5, -1),
            (f64::MAX, 1023),
            (least, -1074),
            (3.0 * least, -1073),
        ] {
            assert_eq!(exponent_of_largest(&[0.0, x]), exponent, "{x}");
            let scaled = times(&[x], -exponent)[0].abs();
            assert!((1.0..2.0).contains(&scaled), "{x}: {scaled}");
        }
        assert_eq!(exponent_of_largest(&[0.0, -0.0]), 0);
        assert_eq!(
            times(&[f64::MAX, 1.0], -1023),
            [2.0 - f64::EPSILON, power(-1023)]
        );
        assert_eq!(times(&[least], 1074), [1.0]);
    }

    /// The crate's answers on ordinary matrices are good, and no entry of them may be another.
    #[test]
    fn good_answers_are_small_and_spoilt_ones_are_not() {
        let mut random = Random::stream(1, 0);
        for n in [2, 3, 5, 9, 20] {
            let a = (FAMILIES[0].entries)(&mut random, n);
            let (t, q) = crate_side::schur(n, &a, f64::EPSILON, 1000).expect("it ends");
            let figures = Figures::of(n, &a, &t, &q);
            assert!(figures.largest() < 20.0, "{figures:?}");
            for place in 0..n * n {
                assert!(Figures::of(n, &a, &moved(&t, place, 1e-9), &q).residual > 1e4);
                let spoilt = Figures::of(n, &a, &t, &moved(&q, place, 1e-9));
                assert!(spoilt.residual > 1e3 && spoilt.loss > 1e4, "{spoilt:?}");
            }
        }
    }
}
