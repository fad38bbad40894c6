//! The judge: what a call of the door must come to, answer and memory. It is document 01 read a second
//! time, without a look at the library. Where the crate has an answer the judge takes it from there: T, Q,
//! counts, eigenvalues. What the crate does not know is said here: numbers, places, and what is left in
//! lent memory.

mod library;
mod readers;
mod runs;

use crate::call::{Call, Entry};
use crate::crate_side;
use runs::Remembered;

/// The largest order.
const MOST: usize = 64;

/// The plain entry's budget; its tolerance is 2^-52.
const PLAIN_BUDGET: u64 = 10_000;

#[derive(Clone, Copy, Debug, PartialEq)]
pub enum Answer {
    /// With the pass count; 0 of the entries that have none.
    Accepted(u64),
    Refused(Refusal),
}

#[derive(Clone, Copy, Debug, PartialEq)]
pub struct Refusal {
    pub number: u8,
    pub row: usize,
    pub col: usize,
}

impl Answer {
    /// The number that the door answers.
    pub fn word(self) -> u64 {
        match self {
            Answer::Accepted(count) => count,
            Answer::Refused(Refusal { number, row, col }) => {
                (u64::from(number) << 32) + ((row as u64) << 16) + col as u64
            }
        }
    }

    /// 0 if the call is accepted.
    pub fn number(self) -> u8 {
        match self {
            Answer::Accepted(_) => 0,
            Answer::Refused(refusal) => refusal.number,
        }
    }
}

/// What a slice that is written must hold after the call.
#[derive(Clone, Debug)]
pub enum After {
    /// What it held before.
    Untouched,
    /// 7FF8000000000000 throughout.
    Nan,
    Numbers(Vec<f64>),
}

pub struct Ruling {
    pub answer: Answer,
    pub after: [After; 2],
}

/// An accepted call: the answer's number, and what is written.
type Accepted = (u64, [After; 2]);

fn without_place(number: u8) -> Refusal {
    at(number, 0, 1)
}

/// A refusal with the place of an entry in a list, which stands column by column.
fn at(number: u8, entry: usize, order: usize) -> Refusal {
    Refusal {
        number,
        row: entry % order,
        col: entry / order,
    }
}

fn not_finite(numbers: &[f64]) -> Option<usize> {
    numbers.iter().position(|x| !x.is_finite())
}

/// The first entry that spoils the quasi-triangular shape: nonzero two or more rows below the diagonal,
/// or just below it beside another such in the column before.
fn spoils(t: &[f64], order: usize) -> Option<usize> {
    (0..order * order).find(|&entry| {
        let (row, col) = (entry % order, entry / order);
        let two_below = row >= col + 2;
        let beside = row == col + 1 && col >= 1 && t[entry - order - 1] != 0.0;
        t[entry] != 0.0 && (two_below || beside)
    })
}

/// Remembers what the crate said on the last matrices.
#[derive(Default)]
pub struct Judge {
    remembered: Remembered,
}

impl Judge {
    /// What this call must come to. `told` is what ours answered: if that is the right count, it is
    /// confirmed by two runs of the crate, where a search would take more. It changes no ruling.
    pub fn rule(&mut self, call: &Call, told: u64) -> Ruling {
        let accepted = self.entries(call).and_then(|entries| match call.entry {
            Entry::Decompose => self.decompose(call, &entries, told),
            Entry::Real => readers::real(call.order, &entries, &self.remembered),
            Entry::Complex => readers::complex(call.order, &entries, &self.remembered),
            Entry::Plain => self.plain(call.order, &entries),
        });
        match accepted {
            Ok((count, after)) => Ruling {
                answer: Answer::Accepted(count),
                after,
            },
            Err(refusal) => Ruling {
                answer: Answer::Refused(refusal),
                after: after_refusal(call, refusal.number),
            },
        }
    }

    /// The checks before the run or the reading, 1 to 6; then the numbers that the input holds.
    fn entries(&self, call: &Call) -> Result<Vec<f64>, Refusal> {
        let tolerance = f64::from_bits(call.tolerance);
        let run = call.entry == Entry::Decompose;
        let wrong = [
            (1, call.order == 0),
            (2, call.order > MOST),
            (3, !lengths_fit(call)),
            (4, run && !(0.0..1.0).contains(&tolerance)),
            (5, run && !(1..=1_000_000).contains(&call.budget)),
        ];
        if let Some((number, _)) = wrong.into_iter().find(|(_, wrong)| *wrong) {
            return Err(without_place(number));
        }
        let eight = |bytes: &[u8]| f64::from_le_bytes(bytes.try_into().expect("eight bytes"));
        let entries: Vec<f64> = call.input.chunks(8).map(eight).collect();
        match not_finite(&entries) {
            Some(entry) => Err(at(6, entry, call.order)),
            None => Ok(entries),
        }
    }

    fn decompose(&mut self, call: &Call, entries: &[f64], told: u64) -> Result<Accepted, Refusal> {
        let Call { order, budget, .. } = *call;
        // -0 counts as 0, to us before it gets to the crate.
        let tolerance = f64::from_bits(call.tolerance) + 0.0;
        let runs = self.remembered.on(order, entries, tolerance);
        let run = runs.at(budget).ok_or(without_place(7))?;
        let wanted = call.wanted != 0;
        after_the_run(order, &run.t, if wanted { &run.q } else { &[] })?;
        let q = match wanted {
            true => After::Numbers(run.q.clone()),
            false => After::Untouched,
        };
        let after = [After::Numbers(run.t.clone()), q];
        Ok((runs.passes(budget, told), after))
    }

    fn plain(&mut self, order: usize, entries: &[f64]) -> Result<Accepted, Refusal> {
        let values = if order == 2 {
            let values = crate_side::plain_of_two(entries).ok_or(without_place(10))?;
            if let Some(k) = not_finite(&values) {
                return Err(at(8, k + k * order, order));
            }
            values
        } else {
            let runs = self.remembered.on(order, entries, f64::EPSILON);
            let run = runs.at(PLAIN_BUDGET).ok_or(without_place(7))?;
            after_the_run(order, &run.t, &[])?;
            run.real().ok_or(without_place(10))?
        };
        Ok((0, [After::Numbers(values), After::Untouched]))
    }

    /// Whether the crate ends on this matrix below a budget, with the plain entry's tolerance.
    pub fn plain_ends(&mut self, order: usize, entries: &[f64], budget: u64) -> bool {
        let runs = self.remembered.on(order, entries, f64::EPSILON);
        runs.at(budget).is_some()
    }

    /// The pass count of a run that ends at this budget, whatever is wrong with its T.
    pub fn passes(
        &mut self,
        order: usize,
        entries: &[f64],
        tolerance: f64,
        budget: u64,
    ) -> Option<u64> {
        let runs = self.remembered.on(order, entries, tolerance + 0.0);
        runs.at(budget)?;
        Some(runs.passes(budget, 0))
    }

    /// T of a run that ended, whatever is wrong with it.
    pub fn t(
        &mut self,
        order: usize,
        entries: &[f64],
        tolerance: f64,
        budget: u64,
    ) -> Option<Vec<f64>> {
        let runs = self.remembered.on(order, entries, tolerance + 0.0);
        runs.at(budget).map(|run| run.t.clone())
    }
}

/// Each slice that is looked at has exactly its length. No product runs round to one: an order above 64
/// is refused before its lengths are.
fn lengths_fit(call: &Call) -> bool {
    let n = call.order as u128;
    let (square, list) = (n.saturating_mul(8 * n), 8 * n);
    let right = match call.entry {
        Entry::Decompose => [square, square, square],
        Entry::Real | Entry::Complex | Entry::Plain => [square, list, list],
    };
    let lent = [call.input.len(), call.out[0], call.out[1]].map(|length| length as u128);
    lent[..call.looked_at()] == right[..call.looked_at()]
}

/// 8 and 9 of a run that ended; q is empty if it is not wanted.
fn after_the_run(order: usize, t: &[f64], q: &[f64]) -> Result<(), Refusal> {
    if let Some(entry) = not_finite(t).or_else(|| not_finite(q)) {
        return Err(at(8, entry, order));
    }
    match spoils(t, order) {
        Some(entry) => Err(at(9, entry, order)),
        None => Ok(()),
    }
}

/// Only a decomposition that has run leaves something.
fn after_refusal(call: &Call, number: u8) -> [After; 2] {
    let ran = call.entry == Entry::Decompose && number >= 7;
    match (ran, call.wanted) {
        (false, _) => [After::Untouched, After::Untouched],
        (true, 0) => [After::Nan, After::Untouched],
        (true, _) => [After::Nan, After::Nan],
    }
}

#[cfg(test)]
mod tests;
