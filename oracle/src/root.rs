//! Command `root`: our square root against the hardware's, on groups of inputs that are chosen to
//! be hard, then its time.

mod groups;
mod timing;

use crate::random::Random;
use crate::{door, jobs, options};
use groups::GROUPS;
use std::ops::Range;
use std::time::Instant;

/// The number 1.0.
const ONE: u64 = 0x3ff0_0000_0000_0000;
const INFINITY: u64 = 0x7ff0_0000_0000_0000;

/// Each group is cut into this many parts, which threads take one by one. The inputs of a part
/// depend on its number and the seed, never on the thread.
const PARTS: u64 = 16;

/// How many differences of a group are printed.
const SHOWN: usize = 4;

pub fn run(arguments: &[String]) -> Result<usize, String> {
    let options = Options::read(arguments)?;
    let start = Instant::now();
    let tallies = compare(&options);
    let seconds = start.elapsed().as_secs_f64();

    println!("{:36} {:>12} {:>12}", "group", "inputs", "differences");
    for (group, tally) in GROUPS.iter().zip(&tallies) {
        println!(
            "{:36} {:>12} {:>12}",
            group.name, tally.inputs, tally.differences
        );
        for seen in &tally.first {
            println!(
                "    root of {:016x}: ours {:016x}, right {:016x}",
                seen.input, seen.ours, seen.right
            );
        }
    }
    let inputs: usize = tallies.iter().map(|tally| tally.inputs).sum();
    let differences = tallies.iter().map(|tally| tally.differences).sum();
    println!(
        "{inputs} inputs, {differences} differences, seed {:016x}, {seconds:.1} seconds",
        options.seed
    );

    timing::run(options.seed);
    Ok(differences)
}

struct Options {
    /// Random inputs of all groups together; those that are tried at any count come on top.
    count: u64,
    seed: u64,
}

impl Options {
    fn read(arguments: &[String]) -> Result<Options, String> {
        let mut options = Options {
            count: 100_000_000,
            seed: options::SEED,
        };
        options::each(arguments, |name, value| {
            match name {
                "--count" => options.count = options::count(value)? as u64 * 1_000_000,
                "--seed" => options.seed = options::seed(value)?,
                _ => return Ok(false),
            }
            Ok(true)
        })?;
        Ok(options)
    }
}

/// What one group, or a part of it, came to.
#[derive(Default)]
struct Tally {
    inputs: usize,
    differences: usize,
    first: Vec<Difference>,
}

struct Difference {
    input: u64,
    ours: u64,
    right: u64,
}

impl Tally {
    fn add(&mut self, part: Tally) {
        self.inputs += part.inputs;
        self.differences += part.differences;
        self.first.extend(part.first);
        self.first.truncate(SHOWN);
    }
}

/// The part of a group that a thread works on.
struct Part {
    number: u64,
    /// How many random inputs this part should try, about.
    quota: u64,
    random: Random,
    tally: Tally,
}

impl Part {
    /// Fixed inputs are tried in the first part only.
    fn is_first(&self) -> bool {
        self.number == 0
    }

    /// This part's share of 0..total: the parts together have all of it.
    fn share(&self, total: u64) -> Range<u64> {
        total * self.number / PARTS..total * (self.number + 1) / PARTS
    }

    /// Tries one input: the hardware has the right answer.
    fn try_bits(&mut self, input: u64) {
        self.expect(input, hardware(input));
    }

    /// Tries an input and the patterns one and two below and above it.
    fn try_neighbours(&mut self, input: u64) {
        for near in input.saturating_sub(2)..=input + 2 {
            self.try_bits(near);
        }
    }

    fn expect(&mut self, input: u64, right: u64) {
        let ours = door::sqrt(input);
        self.tally.inputs += 1;
        if ours != right {
            self.tally.differences += 1;
            if self.tally.first.len() < SHOWN {
                self.tally.first.push(Difference { input, ours, right });
            }
        }
    }
}

/// The hardware's root. Its NaNs have bits of the machine's choice; ours have to be one fixed
/// pattern.
fn hardware(input: u64) -> u64 {
    door::one_nan(f64::from_bits(input).sqrt())
}

/// Tries every group, on all cores; a tally for each.
fn compare(options: &Options) -> Vec<Tally> {
    let parts = jobs::on_all_cores(GROUPS.len() * PARTS as usize, |job| run_part(options, job));
    let mut tallies: Vec<Tally> = GROUPS.iter().map(|_| Tally::default()).collect();
    for (job, tally) in parts.into_iter().enumerate() {
        tallies[job / PARTS as usize].add(tally);
    }
    tallies
}

fn run_part(options: &Options, job: usize) -> Tally {
    let group = &GROUPS[job / PARTS as usize];
    let mut part = Part {
        number: job as u64 % PARTS,
        quota: (options.count * group.percent).div_ceil(100 * PARTS),
        random: Random::stream(options.seed, job as u64),
        tally: Tally::default(),
    };
    (group.inputs)(&mut part);
    part.tally
}
