//! What the crate says on one matrix at one tolerance, remembered, since several calls ask for it.

use crate::crate_side::{self, Run};
use std::collections::VecDeque;

/// The crate's runs on a matrix. A run that is refused at one budget is refused at every smaller one, and
/// one that ends at a budget ends in the same way at every larger one.
pub struct Runs {
    order: usize,
    entries: Vec<f64>,
    tolerance: f64,
    /// The largest budget that is known not to be enough; 0 if none is. To the crate a budget of 0 would
    /// be no bound.
    refused: u64,
    /// The least budget that is known to be enough, and how the run ends.
    ended: Option<(u64, Run)>,
}

impl Runs {
    /// The run at a budget from 1 on; none where the counted passes reach it.
    pub fn at(&mut self, budget: u64) -> Option<&Run> {
        let enough = self
            .ended
            .as_ref()
            .is_some_and(|(least, _)| budget >= *least);
        if !enough && budget > self.refused {
            match crate_side::run(self.order, &self.entries, self.tolerance, budget as usize) {
                Some(run) => self.ended = Some((budget, run)),
                None => self.refused = budget,
            }
        }
        let (least, run) = self.ended.as_ref()?;
        (budget >= *least).then_some(run)
    }

    /// The pass count of a run that ends at this budget: the largest budget that is refused, or 0. The
    /// two that would show `told` to be the count are tried first; then halves are.
    pub fn passes(&mut self, budget: u64, told: u64) -> u64 {
        for guess in [told, told.saturating_add(1)] {
            if (1..budget).contains(&guess) {
                self.at(guess);
            }
        }
        loop {
            let (least, _) = self.ended.as_ref().expect("it ends");
            let middle = self.refused + (least - self.refused) / 2;
            if middle == self.refused {
                return middle;
            }
            self.at(middle);
        }
    }
}

/// The matrices and tolerances that were asked for last.
#[derive(Default)]
pub struct Remembered {
    runs: VecDeque<Runs>,
}

/// One for the case's tolerance, one for the plain entry's.
const KEPT: usize = 2;

impl Remembered {
    pub fn on(&mut self, order: usize, entries: &[f64], tolerance: f64) -> &mut Runs {
        let known = self.runs.iter().position(|runs| {
            runs.order == order
                && runs.tolerance.to_bits() == tolerance.to_bits()
                && same_bits(&runs.entries, entries)
        });
        let place = known.unwrap_or_else(|| {
            self.runs.truncate(KEPT - 1);
            self.runs.push_front(Runs {
                order,
                entries: entries.to_vec(),
                tolerance,
                refused: 0,
                ended: None,
            });
            0
        });
        &mut self.runs[place]
    }

    /// A run that ended with this T.
    pub fn with_t(&self, t: &[f64]) -> Option<&Run> {
        let runs = self.runs.iter().filter_map(|runs| runs.ended.as_ref());
        runs.map(|(_, run)| run).find(|run| same_bits(&run.t, t))
    }
}

fn same_bits(xs: &[f64], ys: &[f64]) -> bool {
    let same = |(x, y): (&f64, &f64)| x.to_bits() == y.to_bits();
    xs.len() == ys.len() && xs.iter().zip(ys).all(same)
}
