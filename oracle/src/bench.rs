//! Command `bench`: our kernels against the crate's own, first bit for bit, then in time.

mod crates_own;
mod inputs;
mod kernels;
mod ours;
mod timing;

use crate::options;
use crate::random::Random;
use inputs::{Item, Told};
use kernels::{Kernel, KERNELS};
use std::slice::from_mut;
use std::time::Instant;

/// How many differences of a kernel are printed, of each sort.
const SHOWN: usize = 4;

pub fn run(arguments: &[String]) -> Result<usize, String> {
    let options = Options::read(arguments)?;
    let start = Instant::now();
    println!(
        "{:14} {:>9} {:>12} {:>9} {:>9}",
        "kernel", "inputs", "differences", "unfit", "touched"
    );
    let (mut inputs, mut differences) = (0, 0);
    for (number, kernel) in KERNELS.iter().enumerate() {
        let mut random = Random::stream(options.seed, number as u64);
        let inside = compare(kernel, options.count, &mut random);
        // Memory with room is larger, and takes longer to look through.
        let outside = refuse(kernel, options.count / 4, &mut random);
        println!(
            "{:14} {:>9} {:>12} {:>9} {:>9}",
            kernel.name, inside.inputs, inside.differences, outside.inputs, outside.differences
        );
        for tally in [inside, outside] {
            inputs += tally.inputs;
            differences += tally.differences;
            tally.first.iter().for_each(|line| println!("    {line}"));
        }
    }
    println!(
        "{inputs} inputs, {differences} differences, seed {:016x}, {:.1} seconds",
        options.seed,
        start.elapsed().as_secs_f64()
    );

    if options.repeat > 0 {
        timing::run(options.seed, options.repeat);
    }
    Ok(differences)
}

struct Options {
    /// Inputs of each kernel that are compared with the crate.
    count: usize,
    seed: u64,
    /// How often the times are taken.
    repeat: usize,
}

impl Options {
    fn read(arguments: &[String]) -> Result<Options, String> {
        let mut options = Options {
            count: 4000,
            seed: options::SEED,
            repeat: 1,
        };
        options::each(arguments, |name, value| {
            match name {
                "--count" => options.count = options::count(value)? * 1000,
                "--seed" => options.seed = options::seed(value)?,
                "--repeat" => options.repeat = options::count(value)?,
                _ => return Ok(false),
            }
            Ok(true)
        })?;
        Ok(options)
    }
}

/// What the inputs of a kernel came to.
#[derive(Default)]
struct Tally {
    inputs: usize,
    differences: usize,
    first: Vec<String>,
}

impl Tally {
    fn add(&mut self, told: &Told, difference: Option<String>) {
        if let Some(what) = difference {
            self.differences += 1;
            if self.first.len() < SHOWN {
                let (number, n) = (self.inputs, told.n);
                self.first
                    .push(format!("input {number}, order {n}: {what}"));
            }
        }
        self.inputs += 1;
    }
}

/// Inputs that fit: ours must leave what the crate leaves.
fn compare(kernel: &Kernel, count: usize, random: &mut Random) -> Tally {
    let mut tally = Tally::default();
    for _ in 0..count {
        let told = Told::inside(random, kernel.fits);
        let mut ours = Item::inside(random, told);
        let mut right = ours.clone();
        (kernel.ours)(from_mut(&mut ours));
        (kernel.crates)(from_mut(&mut right));
        tally.add(&ours.told, ours.difference(&right));
    }
    tally
}

/// Inputs that do not fit, most of which the crate must not be given: ours must leave everything as it
/// was, and answer one fixed number if it answers any.
fn refuse(kernel: &Kernel, count: usize, random: &mut Random) -> Tally {
    let mut tally = Tally::default();
    let mut before = Item::with_room(random);
    before.answer = kernel.refusal;
    let mut ours = before.clone();
    for _ in 0..count {
        ours.told = Told::outside(random, kernel.fits);
        (kernel.ours)(from_mut(&mut ours));
        let work = (ours.work != before.work).then(|| "workspace".to_string());
        let difference = ours.difference(&before).or(work);
        let touched = difference.is_some();
        tally.add(&ours.told, difference);
        if touched {
            ours = before.clone();
        }
    }
    tally
}

#[cfg(test)]
mod tests {
    use super::*;

    const COUNT: usize = 400;

    fn kernel(name: &str) -> Kernel {
        let found = KERNELS.iter().find(|kernel| kernel.name == name);
        *found.expect("a kernel of that name")
    }

    /// A kernel that sums in another order, or that writes where it should do nothing, is found out.
    #[test]
    fn wrong_kernels_are_found() {
        let from_left = Kernel {
            ours: |items| {
                for x in items {
                    let products = x.a.iter().zip(&x.c).map(|(a, c)| a * c);
                    x.answer = products.take(x.told.an).fold(0.0, |sum, next| sum + next);
                }
            },
            ..kernel("dot")
        };
        let tally = compare(&from_left, COUNT, &mut Random::stream(1, 0));
        assert!(
            tally.differences > COUNT / 10 && tally.first.len() == SHOWN,
            "{}",
            tally.differences
        );

        let eager = Kernel {
            ours: |items| items[0].t[items[0].told.tn.saturating_sub(1)] = 2.0,
            ..kernel("rotate")
        };
        let tally = refuse(&eager, COUNT, &mut Random::stream(1, 0));
        assert_eq!(tally.differences, COUNT);
        let untidy = Kernel {
            ours: |items| items[0].work[0] = 2.0,
            ..kernel("clear_column")
        };
        let tally = refuse(&untidy, COUNT, &mut Random::stream(1, 0));
        assert_eq!(tally.differences, COUNT);
    }

    /// The edges come up by themselves.
    #[test]
    fn inputs_reach_the_edges() {
        let mut random = Random::stream(1, 0);
        let fits = kernel("reflect").fits;
        let draw = |_| {
            (
                Told::inside(&mut random, fits),
                Told::outside(&mut random, fits),
            )
        };
        let (inside, outside): (Vec<Told>, Vec<Told>) = (0..10 * COUNT).map(draw).unzip();
        for order in [1, 2, 3, 63, 64] {
            assert!(inside.iter().any(|told| told.n == order));
        }
        for length in [0, 1, 7, 8, 9, 63, 64] {
            assert!(inside.iter().any(|told| told.an == length));
        }
        let some = |what: fn(&Told) -> bool| assert!(outside.iter().any(what));
        some(|told| told.n > 64 && told.tn == told.n.wrapping_mul(told.n) && told.tn > 0);
        some(|told| told.n > 1 << 31 && told.tn == told.n.wrapping_mul(told.n));
        some(|told| told.n <= 64 && told.tn < told.n * told.n);
        some(|told| told.n <= 64 && told.tn > told.n * told.n);
        some(|told| told.row.checked_add(told.an).is_none());
        some(|told| told.row < told.n && told.row + told.an == told.n + 1);
        some(|told| told.c1 == told.n + 1);
        some(|told| told.c0 > told.c1);
    }
}
