//! Which cases the list has. They are drawn from a fixed seed or written out, so the list is always the same.

use super::covered::Covered;
use super::list::{List, Slot};
use super::written::{self, Line};
use crate::call::{Call, Entry};
use crate::compare::{kept_witnesses, one_in, shapes, Bases, Case, Plan, FAMILIES, TOLERANCES};
use crate::judge::{Answer, Judge};
use crate::numbers::between;
use crate::options::SEED;
use crate::random::Random;

/// The orders of a family's matrices at each tolerance, and at the usual one besides: orders 1 and 2 take no
/// notice of it.
const SMALL: (usize, usize) = (3, 12);
const USUAL: [usize; 8] = [1, 2, 2, 2, 3, 4, 8, 9];

/// The order of each family's large matrix, at the usual tolerance too.
const LARGE: [usize; FAMILIES.len()] = [
    64, 63, 48, 20, 33, 32, 31, 17, 47, 24, 40, 28, 25, 23, 16, 15, 14, 13,
];

/// T's made for the readers.
const SHAPES: usize = 160;

/// Cycles, for the plain entry: on that of order 6 the passes stand still.
const CYCLES: (usize, usize) = (3, 12);

/// Matrices of the family `huge` whose runs take thousands of passes, by their streams and orders: 4523, and
/// 13353 and 17385, which are more than the plain entry's budget. They were found by a search.
const LONG: [(u64, usize); 3] = [(2_629_049, 5), (2_845_141, 6), (2_685_245, 4)];

/// Enough for these.
const LONG_BUDGET: u64 = 20_000;

/// A matrix on which the plain entry does not end within so many passes is left out: most of these take all
/// of its 10,000.
const PATIENCE: u64 = 400;

/// The list, and what it covers.
pub struct Made {
    pub list: List,
    pub covered: Covered,
    judge: Judge,
    random: Random,
}

pub fn all() -> Made {
    let mut made = Made {
        list: List::new(),
        covered: Covered::default(),
        judge: Judge::default(),
        random: Random::stream(SEED, 0),
    };
    (0..FAMILIES.len()).for_each(|number| made.family(number));
    made.witnesses();
    made.shapes();
    made.faults();
    made.edges();
    made.long();
    made.written();
    made
}

impl Made {
    fn family(&mut self, number: usize) {
        let family = &FAMILIES[number];
        self.list.group(family.name);
        let small = TOLERANCES.map(|tolerance| {
            let order = between(&mut self.random, SMALL.0, SMALL.1);
            (order, tolerance)
        });
        let usual = USUAL.into_iter().chain([LARGE[number]]);
        let usual = usual.map(|order| (order, f64::EPSILON));
        for (order, tolerance) in small.into_iter().chain(usual) {
            let case = Case {
                order,
                entries: (family.entries)(&mut self.random, order),
                tolerance,
                budget: 30 * order.max(4) as u64,
            };
            let accepted = self.matrix(&case);
            self.covered.families[number] += usize::from(accepted);
            if order <= 2 || self.judge.plain_ends(order, &case.entries, PATIENCE) {
                self.plain(order, &case.entries);
            }
        }
    }

    /// Each as it stands, and at every tolerance.
    fn witnesses(&mut self) {
        self.list.group("witnesses");
        for witness in kept_witnesses() {
            self.covered.witnesses += 1;
            for wanted in [true, false] {
                self.decompose(&witness, witness.budget, wanted);
            }
            self.plain(witness.order, &witness.entries);
            for tolerance in TOLERANCES {
                self.matrix(&Case {
                    tolerance,
                    budget: 100,
                    ..witness.clone()
                });
            }
        }
    }

    /// A matrix at its tolerance: the decomposition with Q and without, at its budget, or, where the run
    /// ends there, at its count, one above, and further up; both readers on the T of the run. Whether it is
    /// accepted.
    fn matrix(&mut self, case: &Case) -> bool {
        let Case {
            order,
            entries,
            tolerance,
            budget,
        } = case;
        let budgets = match self.judge.passes(*order, entries, *tolerance, *budget) {
            None => vec![*budget],
            Some(0) => vec![1, 2],
            Some(count) => vec![count, count + 1, (count + 2).max(*budget)],
        };
        let mut accepted = false;
        for wanted in [true, false] {
            let answers = budgets.iter();
            let answers: Vec<Answer> = answers
                .map(|budget| self.decompose(case, *budget, wanted))
                .collect();
            accepted = answers.last().is_some_and(|answer| answer.number() == 0);
            self.covered.count(&answers, wanted);
        }
        if let Some(t) = self.judge.t(*order, entries, *tolerance, *budget) {
            let t: Vec<f64> = t.into_iter().map(with_x86_nan).collect();
            self.read(*order, &t, Slot::T);
        }
        for (at, count) in TOLERANCES.iter().zip(&mut self.covered.tolerances) {
            *count += usize::from(accepted && at.to_bits() == tolerance.to_bits());
        }
        accepted
    }

    fn decompose(&mut self, case: &Case, budget: u64, wanted: bool) -> Answer {
        let mut call = Call::new(Entry::Decompose, case.order, &case.entries);
        (call.tolerance, call.budget) = (case.tolerance.to_bits(), budget);
        if !wanted {
            // Q is not looked at: its slice may be of any length.
            let lengths = [call.out[1], 0, 8, call.out[1] + 8];
            (call.wanted, call.out[1]) = (0, lengths[self.random.below(4) as usize]);
        }
        self.make(&call, Slot::Matrix)
    }

    fn read(&mut self, order: usize, t: &[f64], slot: Slot) {
        for entry in [Entry::Real, Entry::Complex] {
            self.make(&Call::new(entry, order, t), slot);
        }
    }

    fn plain(&mut self, order: usize, entries: &[f64]) -> Answer {
        self.make(&Call::new(Entry::Plain, order, entries), Slot::Matrix)
    }

    /// A case whose workspace has its length.
    fn make(&mut self, call: &Call, slot: Slot) -> Answer {
        self.list.case(&mut self.judge, call, slot, work(call))
    }

    /// T's made block by block, a quarter of them damaged.
    fn shapes(&mut self) {
        self.list.group("T's made for the readers");
        for _ in 0..SHAPES {
            let order = between(&mut self.random, 1, SMALL.1);
            let mut t = shapes::draw(&mut self.random, order);
            if one_in(&mut self.random, 4) {
                shapes::damage(&mut self.random, order, &mut t);
            }
            self.read(order, &t, Slot::Matrix);
        }
    }

    /// Calls with no fault, one or two at once of every kind that is checked before a run, on matrices and
    /// T's of every outcome; those left out whose bytes are no numbers, and those that take long.
    fn faults(&mut self) {
        self.list.group("calls with faults");
        let bases = Bases::gather(&mut self.random);
        for plan in Plan::all().iter().filter(|plan| !plan.long()) {
            let call = loop {
                let call = plan.draw(&bases, &mut self.random);
                if List::takes(&call, work(&call)) {
                    break call;
                }
            };
            let answer = self.make(&call, Slot::Matrix);
            assert_eq!(answer.number(), plan.number(), "{}", call.told());
        }
    }

    /// Each slice alone one longer or one shorter; orders 0, 64 and 65 with the lengths that go with them;
    /// tolerances and budgets at their edges; an entry that is not finite.
    fn edges(&mut self) {
        self.list.group("edges");
        for entry in Entry::ALL {
            for slice in 0..4 {
                self.one_length(&Call::new(entry, 3, &[1.0; 9]), slice, -1);
                self.one_length(&Call::new(entry, 3, &[1.0; 9]), slice, 1);
            }
            for order in [0, 64, 65] {
                let call = Call::new(entry, order, &vec![0.0; order * order]);
                self.make(&call, Slot::Matrix);
            }
        }
        let (least, below) = (f64::from_bits(1), 1.0 - f64::EPSILON / 2.0);
        for tolerance in [-0.0, least, below, 1.0, -least, f64::NAN, f64::INFINITY] {
            self.turning(2.0, tolerance, 100);
        }
        for budget in [0, 1, 1_000_000, 1_000_001, u64::MAX] {
            self.turning(2.0, f64::EPSILON, budget);
        }
        for last in [f64::NAN, f64::INFINITY, -f64::INFINITY] {
            self.turning(last, f64::EPSILON, 100);
        }
    }

    /// Slices are counted with the one that is read first; the last is the workspace.
    fn one_length(&mut self, right: &Call, slice: usize, by: isize) {
        let longer = |length: usize, by: isize| length.saturating_add_signed(by);
        let (mut call, mut work) = (right.clone(), work(right));
        match slice {
            0 => call.input.resize(longer(call.input.len(), 8 * by), 0),
            1 | 2 => call.out[slice - 1] = longer(call.out[slice - 1], 8 * by),
            _ => work = longer(work, by),
        }
        let answer = self.list.case(&mut self.judge, &call, Slot::Matrix, work);
        self.covered.lengths[slice] += usize::from(answer.number() == 3);
    }

    /// Rows (0 -1 5), (1 0 6), (0 0 LAST), with Q and without.
    fn turning(&mut self, last: f64, tolerance: f64, budget: u64) {
        let case = Case {
            order: 3,
            entries: vec![0.0, 1.0, 0.0, -1.0, 0.0, 0.0, 5.0, 6.0, last],
            tolerance,
            budget,
        };
        for wanted in [true, false] {
            self.decompose(&case, budget, wanted);
        }
    }

    /// Runs of many passes, and the plain entry up to its budget.
    fn long(&mut self) {
        self.list.group("long runs");
        let family = FAMILIES.iter().find(|family| family.name == "huge");
        for (stream, order) in LONG {
            let mut random = Random::stream(SEED, stream);
            let entries = (family.expect("a family").entries)(&mut random, order);
            let case = Case {
                order,
                entries,
                tolerance: f64::EPSILON,
                budget: LONG_BUDGET,
            };
            let ends = self.matrix(&case);
            let plain = self.plain(order, &case.entries);
            self.covered.long[usize::from(plain.number() == 7)] += usize::from(ends);
        }
        for order in CYCLES.0..=CYCLES.1 {
            let entry = |place: usize| f64::from(place % order == (place / order + 1) % order);
            let cycle: Vec<f64> = (0..order * order).map(entry).collect();
            self.plain(order, &cycle);
        }
    }

    /// The calls of `calls.txt`, in groups of their own.
    fn written(&mut self) {
        for line in written::lines() {
            match line {
                Line::Group(name) => self.list.group(&name),
                Line::Root(number) => self.list.root(number),
                Line::Call(call, work) => {
                    self.list.case(&mut self.judge, &call, Slot::Matrix, work);
                }
            }
        }
    }
}

/// x with the NaN of x86-64 for any NaN: the crate's are the machine's, and the list is the same on all. Not
/// inlined, for the reason of `one_nan`.
#[inline(never)]
fn with_x86_nan(x: f64) -> f64 {
    match x.is_nan() {
        true => f64::from_bits(0xfff8_0000_0000_0000),
        false => x,
    }
}

/// The length of the workspace in numbers. An order that is refused need not have one.
fn work(call: &Call) -> usize {
    match call.entry {
        Entry::Decompose | Entry::Plain if call.order <= 65 => 2 * call.order,
        _ => 0,
    }
}
