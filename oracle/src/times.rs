//! Times of our side and of the crate's, taken by turns in one run.

#[derive(Clone, Copy)]
pub struct Times {
    pub ours: f64,
    pub crates: f64,
}

impl Times {
    /// The least of each side.
    pub fn least(all: impl IntoIterator<Item = Times>) -> Times {
        let least = |a: Times, b: Times| Times {
            ours: a.ours.min(b.ours),
            crates: a.crates.min(b.crates),
        };
        all.into_iter().reduce(least).expect("there are times")
    }

    /// The least of so many rounds. A round times both sides, so that both see the machine's quiet moments.
    pub fn of_rounds(rounds: usize, mut round: impl FnMut() -> Times) -> Times {
        Times::least((0..rounds).map(|_| round()))
    }
}

/// Ours over the crate's in some repeats: the least ratio, the one in the middle, and the largest.
#[derive(Clone, Copy, Debug, PartialEq)]
pub struct Ratios {
    pub least: f64,
    pub middle: f64,
    pub largest: f64,
}

impl Ratios {
    pub fn of(times: &[Times]) -> Ratios {
        let mut ratios: Vec<f64> = times.iter().map(|pair| pair.ours / pair.crates).collect();
        ratios.sort_by(f64::total_cmp);
        Ratios {
            least: ratios[0],
            middle: ratios[ratios.len() / 2],
            largest: ratios[ratios.len() - 1],
        }
    }
}

#[cfg(test)]
mod tests {
    use super::*;

    fn times(pairs: &[(f64, f64)]) -> Vec<Times> {
        let pair = |&(ours, crates)| Times { ours, crates };
        pairs.iter().map(pair).collect()
    }

    #[test]
    fn the_least_is_that_of_each_side() {
        let least = Times::least(times(&[(3.0, 8.0), (5.0, 2.0), (4.0, 4.0)]));
        assert_eq!((least.ours, least.crates), (3.0, 2.0));
    }

    #[test]
    fn ratios_are_of_the_same_repeat() {
        let ratios = Ratios::of(&times(&[(3.0, 2.0), (1.0, 2.0), (2.0, 2.0)]));
        let right = Ratios {
            least: 0.5,
            middle: 1.0,
            largest: 1.5,
        };
        assert_eq!(ratios, right);
    }
}
