//! Random floats of many kinds: ordinary ones, where the order of a sum shows, and all that is odd about
//! an f64.

use crate::random::Random;

/// So many numbers of one kind.
pub fn list(random: &mut Random, length: usize) -> Vec<f64> {
    let mut numbers = Numbers::of_some_kind(random);
    (0..length).map(|_| numbers.next()).collect()
}

/// Numbers of one kind, one after another.
pub struct Numbers<'a> {
    random: &'a mut Random,
    kind: Kind,
}

enum Kind {
    Ordinary,
    /// Around a power of two, up to where a product of three is still finite.
    Scaled(i32),
    Few,
    /// With squares that vanish.
    Small,
    /// With squares that vanish, or just do not, among others.
    SomeSmall,
    /// Ordinary, but for one in so many.
    Rare(u64),
}

impl Numbers<'_> {
    pub fn of_some_kind(random: &mut Random) -> Numbers<'_> {
        // Half of all lists have no number that swallows the others: there the order of a sum shows.
        let kind = match random.below(12) {
            0..=3 => Kind::Ordinary,
            4 | 5 => Kind::Scaled(between(random, 0, 900) as i32 - 600),
            6 => Kind::Few,
            7 => Kind::Small,
            8 => Kind::SomeSmall,
            _ => Kind::Rare(1 << between(random, 2, 12)),
        };
        Numbers { random, kind }
    }

    pub fn next(&mut self) -> f64 {
        let random = &mut *self.random;
        let x = ordinary(random);
        match self.kind {
            Kind::Ordinary => x,
            Kind::Scaled(power) => x * 2f64.powi(power + random.below(30) as i32),
            Kind::Few => pick(random, [0.0, -0.0, 1.0, -1.0, 2.0, -0.5]),
            Kind::Small => {
                let tiny = [x * 2f64.powi(-538), x * 2f64.powi(-1060), 0.0, -0.0];
                pick(random, tiny)
            }
            Kind::SomeSmall => {
                let mixed = [x * 2f64.powi(-536), x * 2f64.powi(-538), -0.0, x];
                pick(random, mixed)
            }
            Kind::Rare(one_in) if random.below(one_in) > 0 => x,
            Kind::Rare(_) => {
                let any = f64::from_bits(random.word());
                let finite = [f64::MAX, f64::MIN_POSITIVE, -f64::from_bits(1), -0.0];
                let others = [f64::INFINITY, -f64::INFINITY, f64::NAN, any];
                let list = [finite, others][random.below(2) as usize];
                pick(random, list)
            }
        }
    }
}

/// A number from -1 to below 1.
pub fn ordinary(random: &mut Random) -> f64 {
    (random.word() >> 11) as f64 / (1u64 << 52) as f64 - 1.0
}

/// Nearly normal with mean 0 and deviation 1, by a sum. A logarithm would have other bits on another
/// machine.
pub fn normal(random: &mut Random) -> f64 {
    (0..12).map(|_| ordinary(random)).sum::<f64>() / 2.0
}

fn pick<const N: usize>(random: &mut Random, list: [f64; N]) -> f64 {
    list[random.below(N as u64) as usize]
}

/// A number from `first` to `last`.
pub fn between(random: &mut Random, first: usize, last: usize) -> usize {
    first + random.below((last - first) as u64 + 1) as usize
}

/// 2 to an exponent from -1074 to 1023. `powi` takes the reciprocal of the power, which is infinite
/// from 2^1024 on, and so may answer 0 for a subnormal.
pub fn power(exponent: i32) -> f64 {
    match exponent + 1022 {
        normal @ 0.. => f64::from_bits((normal as u64 + 1) << 52),
        below => f64::from_bits(1 << (below + 52)),
    }
}

#[cfg(test)]
mod tests {
    use super::power;

    #[test]
    fn powers_are_halves_and_doubles() {
        assert_eq!(power(0), 1.0);
        assert_eq!(power(1023) * 2.0, f64::INFINITY);
        assert_eq!(power(-1022), f64::MIN_POSITIVE);
        assert_eq!(power(-1074), f64::from_bits(1));
        for exponent in -1073..1024 {
            assert_eq!(power(exponent) / 2.0, power(exponent - 1));
        }
    }
}
