//! The groups of inputs. Each function tries its part of one group.

use super::{Part, INFINITY, ONE};

pub struct Group {
    pub name: &'static str,
    /// Its share of the random inputs; a group with 0 has none.
    pub percent: u64,
    pub inputs: fn(&mut Part),
}

pub const GROUPS: &[Group] = &[
    group("every exponent", 25, every_exponent),
    group("subnormals", 10, subnormals),
    group("exact squares and neighbours", 15, exact_squares),
    group("rounded squares and neighbours", 15, rounded_squares),
    group("roots next to half-way points", 10, half_way_points),
    group("within 2^20 patterns of 1.0", 0, near_one),
    group("edges of the short way near 1.0", 0, edges_near_one),
    group("random patterns", 20, random_patterns),
    group("negative numbers", 3, negative_numbers),
    group("NaN patterns", 2, nan_patterns),
    group("zeros and infinities", 0, zeros_and_infinities),
    group("roots that document 01 names", 0, named_roots),
];

const fn group(name: &'static str, percent: u64, inputs: fn(&mut Part)) -> Group {
    Group {
        name,
        percent,
        inputs,
    }
}

const SIGN: u64 = 1 << 63;
/// The places of the stored significand.
const PLACES: u64 = 52;
const SIGNIFICAND: u64 = (1 << PLACES) - 1;
/// Biased exponents of finite numbers lie below this.
const EXPONENTS: u64 = 2047;
/// The patterns around 1.0 for which a root may be had from the pattern alone end here, on both
/// sides.
const SHORT_WAY: u64 = 1 << 26;

fn every_exponent(part: &mut Part) {
    let exponents = part.share(EXPONENTS);
    let random_ones = part.quota.div_ceil(exponents.end - exponents.start);
    for exponent in exponents {
        let zero = exponent << PLACES;
        // One bit set, one clear, and runs of ones at both ends, from all zeros to all ones.
        for place in 0..PLACES {
            let bit = 1 << place;
            part.try_bits(zero + bit);
            part.try_bits(zero + (SIGNIFICAND ^ bit));
            part.try_bits(zero + (bit - 1));
            part.try_bits(zero + (SIGNIFICAND ^ (bit - 1)));
        }
        for _ in 0..random_ones {
            let significand = part.random.word() & SIGNIFICAND;
            part.try_bits(zero + significand);
        }
    }
}

fn subnormals(part: &mut Part) {
    // The smallest million.
    for k in part.share(1 << 20) {
        part.try_bits(k + 1);
    }
    if part.is_first() {
        // 2^-1074 to 2^-1022.
        for place in 0..=PLACES {
            part.try_neighbours(1 << place);
        }
    }
    for _ in 0..part.quota {
        let bits = part.random.of_any_size(PLACES);
        part.try_bits(bits);
    }
}

/// Squares of whole numbers of up to 26 digits, which are exact, times powers of two.
fn exact_squares(part: &mut Part) {
    for _ in 0..part.quota / 10 {
        let r = part.random.of_any_size(26);
        let significand = ((r * r) as f64).to_bits() & SIGNIFICAND;
        // They differ in the last bit: one scales by an even power of two, one by an odd power.
        let exponent = part.random_exponent();
        for exponent in [exponent, exponent ^ 1] {
            part.try_neighbours((exponent << PLACES) + significand);
        }
    }
}

/// Squares of any numbers, rounded.
fn rounded_squares(part: &mut Part) {
    for _ in 0..part.quota / 5 {
        // From 2^-500 on, and below 2^500.
        let exponent = 523 + part.random.below(1000);
        let significand = part.random.word() & SIGNIFICAND;
        let r = f64::from_bits((exponent << PLACES) + significand);
        part.try_neighbours((r * r).to_bits());
    }
}

/// The numbers whose roots lie nearest to a point half-way between two floats, where rounding is
/// hardest.
fn half_way_points(part: &mut Part) {
    // A distance gives 1.4 significands on average, and each is tried at four exponents.
    let distances = part.quota / 5;
    let from = part.number * distances;
    for k in from..from + distances {
        // 1, -7, 9, -15, 17, ..: only numbers that are 1 modulo 8 are squares modulo a power of
        // two.
        let distance = if k % 2 == 0 {
            4 * k as i64 + 1
        } else {
            -4 * k as i64 - 3
        };
        for odd in [0, 1] {
            for significand in near_half_way(distance, odd).into_iter().flatten() {
                part.try_bits(((1023 + odd) << PLACES) + significand);
                for _ in 0..3 {
                    // The bias is odd: the last bit set means an even exponent.
                    let exponent = part.random_exponent() & !1 | (1 - odd);
                    part.try_bits((exponent << PLACES) + significand);
                }
            }
        }
    }
}

/// Stored significands of numbers x (of an odd exponent or an even one) whose scaled form X, a
/// whole number from 2^104 to below 2^106, has 4X = s^2 - distance with an odd s: the root of x is
/// off the half-way point by about distance/2^55 of its last place.
fn near_half_way(distance: i64, odd: u64) -> [Option<u64>; 4] {
    // X is a significand of 53 digits times 2^52, or times 2^53 if the exponent is odd; so s^2 is
    // the distance modulo this power of two. There are four such s.
    let power = 54 + odd;
    let s = odd_root_modulo(distance, power);
    let half = 1 << (power - 1);
    let mask = (1 << power) - 1;
    [s, s + half, s.wrapping_neg(), half.wrapping_sub(s)].map(|s| {
        let square = i128::from(s & mask) * i128::from(s & mask);
        let significand = ((square - i128::from(distance)) >> power) as u64;
        (significand >> PLACES == 1).then_some(significand & SIGNIFICAND)
    })
}

/// An s with s^2 = n modulo 2^power, for an n that is 1 modulo 8: the digits that are wrong in the
/// square are mended from below.
fn odd_root_modulo(n: i64, power: u64) -> u64 {
    let mut s = 1u64;
    for place in 3..power {
        let wrong = (s.wrapping_mul(s) ^ n as u64) >> place & 1;
        s += wrong << (place - 1);
    }
    s
}

fn near_one(part: &mut Part) {
    for k in part.share((1 << 21) + 1) {
        part.try_bits(ONE - (1 << 20) + k);
    }
}

fn edges_near_one(part: &mut Part) {
    let around = 1 << 12;
    for k in part.share(2 * around + 1) {
        part.try_bits(ONE - SHORT_WAY - around + k);
        part.try_bits(ONE + SHORT_WAY - around + k);
    }
}

fn random_patterns(part: &mut Part) {
    for _ in 0..part.quota {
        let bits = part.random.word();
        part.try_bits(bits);
    }
}

fn negative_numbers(part: &mut Part) {
    if part.is_first() {
        for bits in [1, SIGNIFICAND, SIGNIFICAND + 1, ONE, INFINITY - 1] {
            part.try_bits(SIGN + bits);
        }
    }
    for _ in 0..part.quota / 2 {
        let any = 1 + part.random.below(INFINITY - 1);
        part.try_bits(SIGN + any);
        let subnormal = part.random.of_any_size(PLACES);
        part.try_bits(SIGN + subnormal);
    }
}

fn nan_patterns(part: &mut Part) {
    // The first place of a NaN's payload tells a quiet one from a signalling one.
    let quiet = 1 << (PLACES - 1);
    if part.is_first() {
        for payload in [1, quiet - 1, quiet, quiet + 1, SIGNIFICAND] {
            part.try_bits(INFINITY + payload);
            part.try_bits(SIGN + INFINITY + payload);
        }
    }
    for _ in 0..part.quota / 4 {
        let payload = part.random.of_any_size(PLACES - 1);
        for payload in [payload, quiet + payload] {
            part.try_bits(INFINITY + payload);
            part.try_bits(SIGN + INFINITY + payload);
        }
    }
}

fn zeros_and_infinities(part: &mut Part) {
    if part.is_first() {
        for bits in [0, INFINITY] {
            part.try_bits(bits);
            part.try_bits(SIGN + bits);
        }
    }
}

/// Judged by the document, not by the hardware.
fn named_roots(part: &mut Part) {
    if part.is_first() {
        part.expect(2f64.to_bits(), 0x3ff6_a09e_667f_3bcd);
        // 2^-1074 gives 2^-537.
        part.expect(1, (1023 - 537) << PLACES);
    }
}

impl Part {
    /// A biased exponent of normal numbers, at a distance from both ends that no neighbour crosses.
    fn random_exponent(&mut self) -> u64 {
        2 + self.random.below(EXPONENTS - 5)
    }
}

#[cfg(test)]
mod tests {
    use super::*;

    /// The root of each number of the group, in whole numbers, is as near to a half-way point as
    /// was asked for.
    #[test]
    fn half_way_points_are_near() {
        let mut found = 0;
        for distance in [1, -7, 9, -15, 17, 8_000_001, -7_999_999] {
            for odd in [0, 1] {
                for significand in near_half_way(distance, odd).into_iter().flatten() {
                    let four_x = u128::from(significand + (1 << PLACES)) << (54 + odd);
                    let s = four_x.isqrt();
                    let nearest = [s, s + 1].map(|s| s as i128 * s as i128 - four_x as i128);
                    let odd_one = nearest[usize::from(s % 2 == 0)];
                    assert_eq!(odd_one, i128::from(distance));
                    found += 1;
                }
            }
        }
        assert!(found >= 7, "found {found}");
    }
}
