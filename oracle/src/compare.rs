//! Command `compare`: the door against the judge, who has the crate's bits: all four entries, on families
//! of matrices, on matrices kept in a file, on T's made for the readers, and on calls with faults.

mod case;
mod check;
mod families;
mod faults;
#[cfg(test)]
mod model_side;
mod reached;
pub mod shapes;
mod side;
mod trial;
mod witnesses;

use crate::call::{Call, Entry};
use crate::jobs;
use crate::judge::Judge;
use crate::options;
use crate::random::Random;
use check::check;
use side::{Side, DOOR};
use std::ops::RangeInclusive;
use std::time::Instant;

pub use case::{Case, TOLERANCES};
pub use families::{one_in, Family, FAMILIES};
pub use faults::{Bases, Plan};
pub use reached::{possible, Reached};
pub use shapes::not_finite;
pub use witnesses::kept_witnesses;

/// Each family is cut into this many parts, which threads take one by one. The matrices of a part
/// depend on its number and the seed, never on the thread.
const PARTS: usize = 16;
const JOBS: usize = FAMILIES.len() * PARTS;

const SMALL: RangeInclusive<usize> = 1..=12;
const LARGE: RangeInclusive<usize> = 13..=64;

/// How many mismatches of a line of the table are printed.
const SHOWN: usize = 2;

pub fn run(arguments: &[String]) -> Result<usize, String> {
    let options = Options::read(arguments)?;
    match &options.file {
        Some(file) => run_file(file),
        None => Ok(run_all(&options)),
    }
}

/// The matrices of a file, each at its own tolerance and budget: a mismatch once more.
fn run_file(file: &str) -> Result<usize, String> {
    let text = std::fs::read_to_string(file).map_err(|why| format!("{file}: {why}"))?;
    let cases = witnesses::read(&text).map_err(|why| format!("{file}: {why}"))?;
    head();
    let tally = of_cases(&DOOR, &cases);
    tally.print(file);
    Ok(tally.mismatches)
}

fn run_all(options: &Options) -> usize {
    let start = Instant::now();
    let tallies = of_families(&DOOR, options);
    head();
    for (family, tally) in FAMILIES.iter().zip(&tallies) {
        tally.print(family.name);
    }
    let kept = of_cases(&DOOR, &witnesses::cases());
    kept.print("witnesses");
    let made = of_shapes(&DOOR, options);
    made.print_calls("T's made for the readers");
    let faulty = of_faults(&DOOR, options);
    faulty.print_calls("calls with faults, none, one or two");

    let matrices = tallies.into_iter().chain([kept]).reduce(Tally::and);
    let matrices = matrices.expect("there are families");
    let (number, large) = (matrices.tried, matrices.large);
    let all = matrices.and(made).and(faulty);
    println!();
    all.reached.print();
    let missing = all.reached.missing();
    for (entry, number) in &missing {
        println!("no call of the {} came to {number}", entry.name());
    }
    let mismatches = all.mismatches + missing.len();
    println!(
        "{} calls, on {number} matrices and more, {large} of them of orders {} to {}; {mismatches} mismatches, seed {:016x}, {:.1} seconds",
        all.reached.calls(),
        LARGE.start(),
        LARGE.end(),
        options.seed,
        start.elapsed().as_secs_f64()
    );
    mismatches
}

struct Options {
    /// Matrices of the small orders, and of the large ones, in all families together.
    small: usize,
    large: usize,
    seed: u64,
    /// Where to find the only matrices to try.
    file: Option<String>,
}

impl Options {
    fn read(arguments: &[String]) -> Result<Options, String> {
        let mut options = Options {
            small: 600_000,
            large: 5000,
            seed: options::SEED,
            file: None,
        };
        options::each(arguments, |name, value| {
            match name {
                "--count" => options.small = options::count(value)? * 1000,
                "--large" => options.large = options::count(value)?,
                "--seed" => options.seed = options::seed(value)?,
                "--file" => options.file = Some(value.to_string()),
                _ => return Ok(false),
            }
            Ok(true)
        })?;
        Ok(options)
    }

    /// T's made for the readers, in all.
    fn shapes(&self) -> usize {
        self.small / 5
    }

    /// Calls of a plan, at least two.
    fn calls(&self, plans: usize) -> usize {
        (self.small * 2 / 5).div_ceil(plans).max(2)
    }

    /// The stream with this number, behind it that of the same number for what stands in lent memory: the
    /// inputs do not depend on that. The first streams are the families'.
    fn streams(&self, number: usize) -> [Random; 2] {
        [self.seed, !self.seed].map(|seed| Random::stream(seed, number as u64))
    }

    /// Those behind the families' with this number.
    fn later_streams(&self, number: usize) -> [Random; 2] {
        self.streams(JOBS + number)
    }
}

/// What a line of the table, or a part of it, came to.
#[derive(Default)]
struct Tally {
    /// Matrices, T's, or calls with faults.
    tried: usize,
    large: usize,
    accepted: usize,
    budget: usize,
    reached: Reached,
    mismatches: usize,
    shown: Vec<Mismatch>,
}

struct Mismatch {
    /// Bytes of the matrix.
    size: usize,
    text: String,
}

impl Tally {
    /// A matrix counts as one mismatch, whatever is wrong on it.
    fn add(&mut self, side: &Side, case: &Case, lent: &mut Random) {
        let checked = check(side, case, lent);
        self.tried += 1;
        self.large += LARGE.contains(&case.order) as usize;
        self.accepted += (checked.number == 0) as usize;
        self.budget += (checked.number == 7) as usize;
        self.reached = std::mem::take(&mut self.reached).and(&checked.reached);
        if let Some(what) = checked.wrong {
            let size = 8 * case.entries.len();
            self.miss(size, format!("    {what}\n    {}", case.line()));
        }
    }

    /// One call; `meant` is the number that it was made for, if it was made for one.
    fn add_call(
        &mut self,
        side: &Side,
        judge: &mut Judge,
        call: &Call,
        meant: Option<u8>,
        lent: &mut Random,
    ) {
        let left = trial::make(side, judge, call, lent);
        self.reached.count(call.entry, left.ruling.answer);
        let number = left.ruling.answer.number();
        let otherwise = meant.filter(|meant| *meant != number);
        let otherwise =
            otherwise.map(|meant| format!("{}: the judge has {number} for {meant}", call.told()));
        let wrong = left.wrong.or(otherwise);
        if let Some(what) = wrong {
            let words = call.input.chunks(8).map(|eight| {
                let digits = eight.iter().rev();
                digits.map(|byte| format!("{byte:02x}")).collect::<String>()
            });
            let words: Vec<String> = words.collect();
            self.miss(
                call.input.len(),
                format!("    {what}\n    {}", words.join(" ")),
            );
        }
    }

    fn miss(&mut self, size: usize, text: String) {
        self.mismatches += 1;
        self.shown.push(Mismatch { size, text });
        self.keep_smallest();
    }

    fn and(mut self, other: Tally) -> Tally {
        self.tried += other.tried;
        self.large += other.large;
        self.accepted += other.accepted;
        self.budget += other.budget;
        self.reached = self.reached.and(&other.reached);
        self.mismatches += other.mismatches;
        self.shown.extend(other.shown);
        self.keep_smallest();
        self
    }

    /// Of the mismatches those of least order are shown, and of these the first.
    fn keep_smallest(&mut self) {
        self.shown.sort_by_key(|mismatch| mismatch.size);
        self.shown.truncate(SHOWN);
    }

    fn print(&self, name: &str) {
        println!(
            "{name:20} {:>9} {:>9} {:>9} {:>9} {:>9} {:>11}",
            self.tried,
            self.accepted,
            self.budget,
            self.tried - self.accepted - self.budget,
            self.reached.calls(),
            self.mismatches
        );
        self.print_shown();
    }

    fn print_calls(&self, name: &str) {
        println!(
            "{name:60} {:>9} {:>11}",
            self.reached.calls(),
            self.mismatches
        );
        self.print_shown();
    }

    fn print_shown(&self) {
        for mismatch in &self.shown {
            println!("{}", mismatch.text);
        }
    }
}

fn head() {
    println!(
        "{:20} {:>9} {:>9} {:>9} {:>9} {:>9} {:>11}",
        "family", "matrices", "accepted", "budget", "8 or 9", "calls", "mismatches"
    );
}

/// Tries every family; a tally for each.
fn of_families(side: &Side, options: &Options) -> Vec<Tally> {
    let parts = jobs::on_all_cores(JOBS, |job| part(side, options, job));
    let mut tallies: Vec<Tally> = FAMILIES.iter().map(|_| Tally::default()).collect();
    for (job, part) in parts.into_iter().enumerate() {
        let tally = &mut tallies[job / PARTS];
        *tally = std::mem::take(tally).and(part);
    }
    tallies
}

fn part(side: &Side, options: &Options, job: usize) -> Tally {
    let family = &FAMILIES[job / PARTS];
    // A check that ends early takes less of the second: the next matrix must not depend on that.
    let [mut random, mut lent] = options.streams(job);
    let mut tally = Tally::default();
    for (orders, count) in [(SMALL, options.small), (LARGE, options.large)] {
        for _ in 0..count.div_ceil(JOBS) {
            let case = Case::draw(&mut random, family, orders.clone());
            tally.add(side, &case, &mut lent);
        }
    }
    tally
}

fn of_cases(side: &Side, cases: &[Case]) -> Tally {
    let mut lent = Random::stream(0, 0);
    let mut tally = Tally::default();
    for case in cases {
        tally.add(side, case, &mut lent);
    }
    tally
}

/// Both readers on T's that are made block by block; a quarter of them is damaged.
fn of_shapes(side: &Side, options: &Options) -> Tally {
    let parts = jobs::on_all_cores(PARTS, |job| {
        let [mut random, mut lent] = options.later_streams(job);
        let mut tally = Tally::default();
        for _ in 0..options.shapes().div_ceil(PARTS) {
            let order = 1 + random.below(12) as usize;
            let mut t = shapes::draw(&mut random, order);
            if families::one_in(&mut random, 4) {
                shapes::damage(&mut random, order, &mut t);
            }
            for entry in [Entry::Real, Entry::Complex] {
                let call = Call::new(entry, order, &t);
                tally.add_call(side, &mut Judge::default(), &call, None, &mut lent);
            }
        }
        tally
    });
    parts
        .into_iter()
        .reduce(Tally::and)
        .expect("there are parts")
}

fn of_faults(side: &Side, options: &Options) -> Tally {
    let [mut random, _] = options.later_streams(PARTS);
    let bases = Bases::gather(&mut random);
    let plans = Plan::all();
    let calls = options.calls(plans.len());
    let parts = jobs::on_all_cores(plans.len(), |job| {
        let plan = &plans[job];
        let [mut random, mut lent] = options.later_streams(PARTS + 1 + job);
        let mut judge = Judge::default();
        let mut tally = Tally::default();
        for _ in 0..if plan.long() { 2 } else { calls } {
            let call = plan.draw(&bases, &mut random);
            tally.add_call(side, &mut judge, &call, Some(plan.number()), &mut lent);
        }
        tally
    });
    parts
        .into_iter()
        .reduce(Tally::and)
        .expect("there are plans")
}

#[cfg(test)]
mod tests;
