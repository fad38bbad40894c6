//! A matrix with the tolerance and the budget it is run at.

use super::families::Family;
use crate::numbers::between;
use crate::random::Random;
use std::ops::RangeInclusive;

/// 0, where only an exact zero closes a window; one whose square vanishes; the usual one; two that close
/// windows early; -0, which counts as 0; and the largest.
pub const TOLERANCES: [f64; 7] = [
    0.0,
    f64::from_bits((1023 - 600) << 52),
    f64::EPSILON,
    1e-3,
    0.5,
    -0.0,
    1.0 - f64::EPSILON / 2.0,
];

/// Budgets that many runs reach.
pub const SMALL_BUDGETS: [u64; 5] = [1, 2, 3, 5, 10];

#[derive(Clone)]
pub struct Case {
    pub order: usize,
    /// Column by column.
    pub entries: Vec<f64>,
    pub tolerance: f64,
    /// At least 1: to the crate a budget of 0 is none at all.
    pub budget: u64,
}

impl Case {
    pub fn draw(random: &mut Random, family: &Family, orders: RangeInclusive<usize>) -> Case {
        let order = between(random, *orders.start(), *orders.end());
        Case {
            order,
            entries: (family.entries)(random, order),
            tolerance: tolerance(random),
            budget: budget(random, order),
        }
    }

    /// One line, as `witnesses.txt` has them: what `--file` reads.
    pub fn line(&self) -> String {
        let mut line = format!(
            "{} {:016x} {}",
            self.order,
            self.tolerance.to_bits(),
            self.budget
        );
        for entry in &self.entries {
            line += &format!(" {:016x}", entry.to_bits());
        }
        line
    }
}

/// More than half are the usual one: at the three least many matrices reach even a budget of 1000 (at
/// order 32 nearly all random ones), and then there is no T to compare.
fn tolerance(random: &mut Random) -> f64 {
    match random.below(2 * TOLERANCES.len() as u64) as usize {
        place if place < TOLERANCES.len() => TOLERANCES[place],
        _ => f64::EPSILON,
    }
}

/// Most budgets are large enough for a matrix that converges at all, and no larger, since some never
/// do and take all of it.
fn budget(random: &mut Random, order: usize) -> u64 {
    match random.below(512) {
        0 => 10_000,
        1..=15 => 1000,
        16..=127 => SMALL_BUDGETS[random.below(SMALL_BUDGETS.len() as u64) as usize],
        _ => 30 * order.max(4) as u64,
    }
}

#[cfg(test)]
mod tests {
    use super::*;
    use crate::compare::families::FAMILIES;

    #[test]
    fn draws_reach_the_edges() {
        let mut random = Random::stream(1, 0);
        let cases: Vec<Case> = (0..10_000)
            .map(|_| Case::draw(&mut random, &FAMILIES[0], 1..=12))
            .collect();
        for order in 1..=12 {
            assert!(cases.iter().any(|case| case.order == order));
        }
        for tolerance in TOLERANCES {
            let bits = tolerance.to_bits();
            assert!(cases.iter().any(|case| case.tolerance.to_bits() == bits));
        }
        for budget in SMALL_BUDGETS.into_iter().chain([1000, 10_000]) {
            assert!(cases.iter().any(|case| case.budget == budget));
        }
        assert!(cases.iter().all(|case| (1..=12).contains(&case.order)));
        assert!(cases.iter().all(|case| case.budget > 0));
        assert_eq!(TOLERANCES[1], 2f64.powi(-600));
    }
}
