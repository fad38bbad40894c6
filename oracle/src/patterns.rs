//! What stands in lent memory before a call: floats of every kind, drawn anew for each call from the seeded
//! random numbers. None is +0 or 7FF8000000000000, which calls leave behind: a place that a call should have
//! filled with either is never right by itself.

use crate::door::NAN;
use crate::random::Random;

const SIGN: u64 = 1 << 63;
const INFINITY: u64 = 0x7ff << 52;

#[derive(Clone, Copy, Debug, PartialEq, Eq)]
pub enum Kind {
    /// With a payload, of either sign, as all the others but the zero.
    Quiet,
    /// A NaN that signals: a copy that goes through floats may make it quiet.
    Signalling,
    Infinite,
    MinusZero,
    Subnormal,
    /// From 2^1001 up to the largest number.
    Large,
    /// From 2^-8 to below 2^8.
    Ordinary,
    /// Any bits.
    Any,
}

impl Kind {
    pub const ALL: [Kind; 8] = [
        Kind::Quiet,
        Kind::Signalling,
        Kind::Infinite,
        Kind::MinusZero,
        Kind::Subnormal,
        Kind::Large,
        Kind::Ordinary,
        Kind::Any,
    ];

    fn some(random: &mut Random) -> Kind {
        Kind::ALL[random.below(Kind::ALL.len() as u64) as usize]
    }

    fn draw(self, random: &mut Random) -> u64 {
        let sign = random.word() & SIGN;
        let low = random.word() >> 12;
        let exponent =
            |least: u64, count: u64, random: &mut Random| (least + random.below(count)) << 52;
        match self {
            Kind::Quiet => sign | NAN | low | 1,
            Kind::Signalling => sign | INFINITY | (low >> 1) | 1,
            Kind::Infinite => sign | INFINITY,
            Kind::MinusZero => SIGN,
            Kind::Subnormal => sign | random.of_any_size(52),
            Kind::Large => sign | exponent(2024, 23, random) | low,
            Kind::Ordinary => sign | exponent(1015, 16, random) | low,
            Kind::Any => match random.word() {
                0 | NAN => SIGN,
                any => any,
            },
        }
    }
}

/// A pattern of any kind.
pub fn mixed(random: &mut Random) -> u64 {
    Kind::some(random).draw(random)
}

/// What a slice of so many numbers is lent with: all kinds in one half of the slices, one kind in the other.
pub fn slice(random: &mut Random, length: usize) -> Vec<u64> {
    let only = match random.below(2) {
        0 => Some(Kind::some(random)),
        _ => None,
    };
    let one = |_| match only {
        Some(kind) => kind.draw(random),
        None => mixed(random),
    };
    (0..length).map(one).collect()
}

#[cfg(test)]
mod tests {
    use super::*;

    fn is_of(kind: Kind, pattern: u64) -> bool {
        let x = f64::from_bits(pattern);
        let quiet = pattern >> 51 & 1 == 1;
        match kind {
            Kind::Quiet => x.is_nan() && quiet,
            Kind::Signalling => x.is_nan() && !quiet,
            Kind::Infinite => x.is_infinite(),
            Kind::MinusZero => pattern == SIGN,
            Kind::Subnormal => x.is_subnormal(),
            Kind::Large => x.is_finite() && x.abs() >= 2f64.powi(1001),
            Kind::Ordinary => (2f64.powi(-8)..2f64.powi(8)).contains(&x.abs()),
            Kind::Any => true,
        }
    }

    /// Every kind is what it is called, both signs come up, and nothing is there that calls leave behind.
    #[test]
    fn kinds_are_what_they_are_called() {
        let mut random = Random::stream(1, 0);
        for kind in Kind::ALL {
            let drawn: Vec<u64> = (0..5000).map(|_| kind.draw(&mut random)).collect();
            assert!(
                drawn.iter().all(|pattern| is_of(kind, *pattern)),
                "{kind:?}"
            );
            assert!(!drawn.contains(&0) && !drawn.contains(&NAN));
            let below = drawn.iter().filter(|pattern| **pattern & SIGN != 0).count();
            assert!((2000..3000).contains(&below) || kind == Kind::MinusZero);
        }
    }

    /// Some slices hold one kind alone, and each kind has such; some hold all.
    #[test]
    fn slices_are_of_one_kind_or_of_all() {
        let mut random = Random::stream(1, 0);
        let slices: Vec<Vec<u64>> = (0..1000).map(|_| slice(&mut random, 100)).collect();
        for kind in &Kind::ALL[..7] {
            let alone = |slice: &&Vec<u64>| slice.iter().all(|pattern| is_of(*kind, *pattern));
            assert!(slices.iter().filter(alone).count() > 20, "{kind:?}");
        }
        let all = |slice: &&Vec<u64>| {
            let has = |kind: &Kind| slice.iter().any(|pattern| is_of(*kind, *pattern));
            Kind::ALL.iter().all(has)
        };
        assert!(slices.iter().filter(all).count() > 400);
    }
}
