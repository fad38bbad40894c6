//! Calls with faults: none, one, or two at once, of every kind that an entry checks before it runs, on
//! matrices and T's of every outcome. The first check that fails must win, so each call is made for one
//! number; the judge, who is not told, has to come to it too.

use super::case::Case;
use super::families::{one_in, FAMILIES};
use super::reached::possible;
use super::shapes::{self, not_finite};
use super::witnesses;
use crate::call::{Call, Entry};
use crate::judge::Judge;
use crate::numbers::between;
use crate::random::Random;

/// The last check before the run, or before the reading.
const LAST_BEFORE: u8 = 6;

/// What kind of call is made.
#[derive(Clone, Debug)]
pub struct Plan {
    pub entry: Entry,
    /// The number that the call would be refused with, were it not for the faults; 0 if accepted.
    pub base: u8,
    /// In their order; at most two.
    pub faults: Vec<u8>,
}

impl Plan {
    /// Every base without faults, with each, and with each two that can stand together.
    pub fn all() -> Vec<Plan> {
        let mut plans = Vec::new();
        for entry in Entry::ALL {
            let numbers = possible(entry);
            let bases = numbers.iter().filter(|&&n| n == 0 || n > LAST_BEFORE);
            let faults = faults(entry);
            for &base in bases {
                let mut plan = |faults: &[u8]| {
                    let faults = faults.to_vec();
                    plans.push(Plan {
                        entry,
                        base,
                        faults,
                    });
                };
                plan(&[]);
                for (place, &first) in faults.iter().enumerate() {
                    plan(&[first]);
                    let later = faults[place + 1..].iter();
                    // An order is not 0 and above 64 at once.
                    later
                        .filter(|&&second| (first, second) != (1, 2))
                        .for_each(|&second| plan(&[first, second]));
                }
            }
        }
        plans
    }

    /// The number that the call is made for.
    pub fn number(&self) -> u8 {
        *self.faults.first().unwrap_or(&self.base)
    }

    /// Whether a call takes long: the plain entry up to its budget.
    pub fn long(&self) -> bool {
        self.entry == Entry::Plain && self.number() == 7
    }

    pub fn draw(&self, bases: &Bases, random: &mut Random) -> Call {
        let calls = bases.of(self.entry, self.base);
        let mut call = calls[random.below(calls.len() as u64) as usize].clone();
        if self.entry == Entry::Decompose {
            call.want_q(!one_in(random, 4), random);
        }
        // The last first: an entry is spoiled before its slice is cut short.
        for &fault in self.faults.iter().rev() {
            inflict(fault, &mut call, random);
        }
        call
    }
}

/// The numbers of the checks before the run.
fn faults(entry: Entry) -> Vec<u8> {
    let numbers = possible(entry).iter().copied();
    numbers
        .filter(|number| (1..=LAST_BEFORE).contains(number))
        .collect()
}

fn inflict(number: u8, call: &mut Call, random: &mut Random) {
    match number {
        1 => order(call, random, 0),
        2 => {
            let n = call.order;
            let orders = [
                65,
                65,
                66,
                128,
                1 << 16,
                1 << 30,
                1 << 32,
                (1 << 32) + n,
                1 << 61,
                1 << 63,
                usize::MAX,
            ];
            let above = orders[random.below(11) as usize];
            order(call, random, above);
        }
        3 => length(call, random),
        4 => call.tolerance = tolerance(random).to_bits(),
        5 => {
            call.budget =
                [0, 1_000_001, 1 << 32, (1 << 32) + 1, 1 << 63, u64::MAX][random.below(6) as usize]
        }
        6 => {
            let entries = call.input.len() / 8;
            for _ in 0..between(random, 1, 3) {
                let entry = 8 * between(random, 0, entries - 1);
                call.input[entry..entry + 8].copy_from_slice(&not_finite(random).to_le_bytes());
            }
        }
        _ => unreachable!("no check before the run"),
    }
}

/// Another order, in half of the cases with the lengths that go with it. For the largest these run round.
fn order(call: &mut Call, random: &mut Random, n: usize) {
    call.order = n;
    if one_in(random, 2) {
        let most = 8 * 66 * 66;
        let square = n.wrapping_mul(n).wrapping_mul(8).min(most);
        let list = n.wrapping_mul(8).min(most);
        call.input.resize(square, 0x55);
        let written = if call.entry == Entry::Decompose {
            square
        } else {
            list
        };
        call.out = [written, written];
    }
}

/// One slice of those that are looked at gets another length: by a number or by a byte more or less, or
/// none, or any.
fn length(call: &mut Call, random: &mut Random) {
    let slice = random.below(call.looked_at() as u64) as usize;
    let now = match slice {
        0 => call.input.len(),
        _ => call.out[slice - 1],
    };
    let other = loop {
        let other = match random.below(6) {
            0 => now + 8,
            1 => now.saturating_sub(8),
            2 => now + 1,
            3 => now.saturating_sub(1),
            4 => 0,
            _ => between(random, 0, 2 * now),
        };
        if other != now {
            break other;
        }
    };
    match slice {
        0 => call.input.resize(other, 0x55),
        _ => call.out[slice - 1] = other,
    }
}

/// NaN of several kinds, below 0, or 1 and more.
fn tolerance(random: &mut Random) -> f64 {
    let least = f64::from_bits(1);
    let list = [
        -least,
        -1.0,
        -f64::EPSILON,
        1.0,
        1.0 + f64::EPSILON,
        2.0,
        f64::MAX,
        f64::MIN,
    ];
    match random.below(2) {
        0 => not_finite(random),
        _ => list[random.below(8) as usize],
    }
}

/// Calls without faults, by entry and by the number that they are refused with.
pub struct Bases(Vec<(Entry, u8, Vec<Call>)>);

/// So many of each are kept.
const KEPT: usize = 128;

impl Bases {
    /// Draws matrices and T's, and has the judge sort them.
    pub fn gather(random: &mut Random) -> Bases {
        let mut bases = Bases(Vec::new());
        let mut judge = Judge::default();
        for case in cases(random) {
            let Case { order, entries, .. } = &case;
            let mut call = Call::new(Entry::Decompose, *order, entries);
            (call.tolerance, call.budget) = (case.tolerance.to_bits(), case.budget);
            bases.keep(call, &mut judge);
            // The plain entry takes long where it does not end early; its 7 has matrices of its own.
            if judge.plain_ends(*order, entries, 400) {
                bases.keep(Call::new(Entry::Plain, *order, entries), &mut judge);
            }
        }
        // On the cycle of order 6 the passes stand still; the others end.
        for order in 3..7 {
            let entry = |place: usize| (place % order == (place / order + 1) % order) as u8;
            let cycle: Vec<f64> = (0..order * order)
                .map(|place| entry(place).into())
                .collect();
            bases.keep(Call::new(Entry::Plain, order, &cycle), &mut judge);
        }
        for number in 0..20_000 {
            let order = [1, 2, 3, 63, 64].get(number).copied();
            let order = order.unwrap_or_else(|| between(random, 1, 8));
            let mut t = shapes::draw(random, order);
            if one_in(random, 4) {
                shapes::damage(random, order, &mut t);
            }
            for entry in [Entry::Real, Entry::Complex] {
                bases.keep(Call::new(entry, order, &t), &mut judge);
            }
        }
        bases
    }

    fn keep(&mut self, call: Call, judge: &mut Judge) {
        let number = judge.rule(&call, 0).answer.number();
        if (1..=LAST_BEFORE).contains(&number) {
            return;
        }
        let same =
            |(entry, base, _): &(Entry, u8, Vec<Call>)| (*entry, *base) == (call.entry, number);
        match self.0.iter().position(same) {
            Some(place) if self.0[place].2.len() < KEPT => self.0[place].2.push(call),
            Some(_) => {}
            None => self.0.push((call.entry, number, vec![call])),
        }
    }

    /// There are some of each: the witnesses see to it.
    pub fn of(&self, entry: Entry, base: u8) -> &[Call] {
        let found = self.0.iter().find(|kept| (kept.0, kept.1) == (entry, base));
        &found
            .unwrap_or_else(|| panic!("no {} gives {base}", entry.name()))
            .2
    }
}

/// The orders at the edges, the witnesses, and small matrices of every family; with budgets that do not
/// take long.
fn cases(random: &mut Random) -> Vec<Case> {
    let mut cases = Vec::new();
    for order in [1, 2, 3, 63, 64] {
        cases.push(Case {
            budget: 2000,
            tolerance: f64::EPSILON,
            ..Case::draw(random, &FAMILIES[0], order..=order)
        });
    }
    cases.extend(witnesses::cases());
    for number in 0..12_000 {
        cases.push(Case::draw(
            random,
            &FAMILIES[number % FAMILIES.len()],
            1..=8,
        ));
    }
    cases.retain(|case| case.budget <= 2000);
    cases
}

#[cfg(test)]
mod tests {
    use super::*;

    /// Every plan has calls, and the judge comes to the number that each was made for.
    #[test]
    fn the_first_check_that_fails_wins() {
        let mut random = Random::stream(1, 0);
        let bases = Bases::gather(&mut random);
        let mut judge = Judge::default();
        let plans = Plan::all();
        assert!(plans.len() > 150, "{}", plans.len());
        for plan in &plans {
            for _ in 0..if plan.long() { 1 } else { 20 } {
                let call = plan.draw(&bases, &mut random);
                let ruling = judge.rule(&call, 0);
                assert_eq!(
                    ruling.answer.number(),
                    plan.number(),
                    "{plan:?} {}",
                    call.told()
                );
            }
        }
    }

    #[test]
    fn calls_reach_the_edges() {
        let mut random = Random::stream(1, 0);
        let bases = Bases::gather(&mut random);
        let mut calls = Vec::new();
        for plan in Plan::all() {
            calls.extend((0..40).map(|_| plan.draw(&bases, &mut random)));
        }
        let some = |what: &dyn Fn(&Call) -> bool| assert!(calls.iter().any(what));
        for order in [0, 1, 2, 3, 63, 64, 65, 1 << 32, usize::MAX] {
            some(&|call| call.order == order);
        }
        let (zero, large) = (0, 65 * 65 * 8);
        some(&|call| call.order == 0 && call.input.len() == zero && call.out == [0, 0]);
        some(&|call| call.order == 65 && call.input.len() == large && call.out == [large, large]);
        some(&|call| call.order == 1 << 32 && call.input.is_empty() && call.out == [0, 0]);
        for entry in Entry::ALL {
            let of = |what: &dyn Fn(&Call, usize) -> bool| {
                some(&|call| {
                    call.entry == entry
                        && call.order <= 64
                        && what(call, 8 * call.order * call.order)
                })
            };
            of(&|call, square| call.input.len() + 8 == square);
            of(&|call, square| call.input.len() == square + 8);
            of(&|call, square| call.input.len() + 1 == square);
            of(&|call, square| call.input.len() == square + 1);
            of(&|call, _| call.input.is_empty() && call.order > 0);
            for out in 0..Call::new(entry, 1, &[1.0]).looked_at() - 1 {
                let right = |call: &Call| Call::new(entry, call.order, &[]).out[out];
                of(&|call, _| call.wanted > 0 && call.out[out] + 8 == right(call));
                of(&|call, _| call.wanted > 0 && call.out[out] == right(call) + 8);
                of(&|call, _| call.wanted > 0 && call.out[out] + 1 == right(call));
                of(&|call, _| call.wanted > 0 && call.out[out] == right(call) + 1);
                of(&|call, _| call.wanted > 0 && call.out[out] == 0 && call.order > 0);
            }
        }
        for budget in [0, 1, 1_000_001, u64::MAX] {
            some(&|call| call.entry == Entry::Decompose && call.budget == budget);
        }
    }
}
