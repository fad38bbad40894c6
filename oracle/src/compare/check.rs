//! All that is asked of a side on one matrix at one tolerance and one budget.

use super::case::Case;
use super::families::one_in;
use super::reached::Reached;
use super::shapes;
use super::side::Side;
use super::trial::{self, Left};
use crate::call::{Call, Entry};
use crate::judge::{Answer, Judge};
use crate::random::Random;

/// A matrix on which the plain entry does not end within so many passes is seldom tried: most of these
/// take all of its 10,000, on both sides.
const PATIENCE: u64 = 400;
const SELDOM: u64 = 64;

/// The largest budget that is allowed.
const MOST: u64 = 1_000_000;

pub struct Checked {
    /// The number with which the decomposition with Q is to be refused at the case's budget, 0 if it is
    /// to be accepted.
    pub number: u8,
    pub reached: Reached,
    /// The first thing that is not as it should be.
    pub wrong: Option<String>,
}

pub fn check(side: &Side, case: &Case, lent: &mut Random) -> Checked {
    let mut check = Check {
        side,
        case,
        judge: Judge::default(),
        lent,
        number: None,
        reached: Reached::default(),
    };
    let wrong = check.all().err();
    Checked {
        number: check.number.expect("a call was made"),
        reached: check.reached,
        wrong,
    }
}

struct Check<'a> {
    side: &'a Side,
    case: &'a Case,
    judge: Judge,
    /// For what stands in lent memory before a call, and in which of the ways it is called.
    lent: &'a mut Random,
    number: Option<u8>,
    reached: Reached,
}

impl Check<'_> {
    fn all(&mut self) -> Result<(), String> {
        let t = self.decompositions()?;
        self.readers(t)?;
        self.plain()
    }

    /// The first call of all is the one that tells the case's own number.
    fn make(&mut self, call: &Call) -> Result<Left, String> {
        let left = trial::make(self.side, &mut self.judge, call, self.lent);
        self.number.get_or_insert(left.ruling.answer.number());
        self.reached.count(call.entry, left.ruling.answer);
        match left.wrong {
            Some(wrong) => Err(wrong),
            None => Ok(left),
        }
    }

    /// With Q and without. A run that ends must do so at the least budget that is enough too, and not at
    /// the one below. The answer is the T that came back.
    fn decompositions(&mut self) -> Result<Vec<u8>, String> {
        let budget = self.case.budget;
        let with = self.decompose(budget, true)?;
        self.decompose(budget, false)?;
        let Answer::Accepted(passes) = with.ruling.answer else {
            return Ok(with.first);
        };
        let wanted = one_in(self.lent, 2);
        if passes + 1 < budget {
            self.decompose(passes + 1, wanted)?;
        }
        if passes > 0 {
            self.decompose(passes, wanted)?;
        }
        if one_in(self.lent, 64) {
            for budget in [0, MOST, MOST + 1, u64::MAX] {
                self.decompose(budget, wanted)?;
            }
        }
        Ok(with.first)
    }

    fn decompose(&mut self, budget: u64, wanted: bool) -> Result<Left, String> {
        let Case {
            order,
            entries,
            tolerance,
            ..
        } = self.case;
        let mut call = Call::new(Entry::Decompose, *order, entries);
        (call.tolerance, call.budget) = (tolerance.to_bits(), budget);
        call.want_q(wanted, self.lent);
        self.make(&call)
    }

    /// On the T that came back; on the crate's own, where it was refused for what it holds; and on one
    /// that is damaged.
    fn readers(&mut self, came_back: Vec<u8>) -> Result<(), String> {
        let Case {
            order,
            entries,
            tolerance,
            budget,
        } = self.case;
        for entry in [Entry::Real, Entry::Complex] {
            let mut call = Call::new(entry, *order, &[]);
            call.input.clone_from(&came_back);
            self.make(&call)?;
        }
        let crates = self.judge.t(*order, entries, *tolerance, *budget);
        let mut t = match crates {
            Some(t) => {
                if self.number != Some(0) {
                    self.read(&t)?;
                }
                t
            }
            None => shapes::draw(self.lent, *order),
        };
        shapes::damage(self.lent, *order, &mut t);
        self.read(&t)
    }

    fn read(&mut self, t: &[f64]) -> Result<(), String> {
        for entry in [Entry::Real, Entry::Complex] {
            self.make(&Call::new(entry, self.case.order, t))?;
        }
        Ok(())
    }

    fn plain(&mut self) -> Result<(), String> {
        let Case { order, entries, .. } = self.case;
        let long = *order > 2 && !self.judge.plain_ends(*order, entries, PATIENCE);
        if long && !one_in(self.lent, SELDOM) {
            return Ok(());
        }
        self.make(&Call::new(Entry::Plain, *order, entries))?;
        Ok(())
    }
}
