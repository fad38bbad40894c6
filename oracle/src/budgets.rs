//! Command `budgets`: matrices that reach a budget of 10,000 at the tolerance 2^-52, where their windows
//! stand, and what makes their runs end. The plain model runs, not the library: these are figures, and
//! nothing is compared.

use crate::compare::FAMILIES;
use crate::model::{schur, Run, Window};
use crate::numbers::normal;
use crate::random::Random;
use crate::{jobs, options};
use std::time::Instant;

const TOLERANCE: f64 = f64::EPSILON;
const OTHERS: [f64; 4] = [1e-12, 1e-10, 1e-8, 1e-6];
const BUDGET: u64 = 10_000;
const LARGEST: u64 = 1_000_000;

/// So many matrices are drawn of a family at most.
const DRAWN: usize = 20_000;

/// So many are tried at the largest budget, of at most this order.
const LONG: usize = 10;
const LONG_ORDER: usize = 12;

const HEAD: &str =
    "| family | drawn | 7 at 10,000 | END = n - 1 | window of at most 4 rows | 1e-12 \
                    | 1e-10 | 1e-8 | 1e-6 | transposed | turned | neither | 1,000,000 |";

/// A family: the order of each matrix by its number, and the entries.
struct Source {
    name: &'static str,
    order: fn(usize) -> usize,
    entries: Box<dyn Fn(&mut Random, usize) -> Vec<f64> + Sync>,
}

/// Models by the lags that they have: coefficients in the first row, ones just below the diagonal.
type Model = (&'static str, fn(usize) -> usize, fn(usize, usize) -> bool);
const MODELS: [Model; 5] = [
    ("model: lag n alone", even, |lag, n| lag == n),
    ("model: lags n/2 and n, both even", by_four, |lag, n| {
        lag % (n / 2) == 0
    }),
    ("model: every even lag", even, |lag, _| lag % 2 == 0),
    ("model: lags 1, n/2 and n", even, |lag, n| {
        lag == 1 || lag % (n / 2) == 0
    }),
    ("model: every lag", even, |_, _| true),
];

/// From 4 to 24.
fn even(number: usize) -> usize {
    4 + 2 * (number % 11)
}

fn by_four(number: usize) -> usize {
    4 + 4 * (number % 6)
}

fn sources() -> Vec<Source> {
    let models = MODELS.iter().map(|&(name, order, has)| Source {
        name,
        order,
        entries: Box::new(move |random, n| {
            let mut entries = vec![0.0; n * n];
            (1..n).for_each(|k| entries[k + (k - 1) * n] = 1.0);
            for lag in (1..=n).filter(|&lag| has(lag, n)) {
                entries[(lag - 1) * n] = normal(random);
            }
            entries
        }),
    });
    let families = FAMILIES.iter().map(|family| Source {
        name: family.name,
        order: |number| 3 + number % 22,
        entries: Box::new(family.entries),
    });
    models.chain(families).collect()
}

/// A matrix that was refused with 7.
struct Refused {
    n: usize,
    entries: Vec<f64>,
    window: Window,
}

impl Refused {
    fn ends_at(&self, tolerance: f64, budget: u64) -> bool {
        window(&self.entries, self.n, tolerance, budget).is_none()
    }

    fn ends_as(&self, other: fn(&[f64], usize) -> Vec<f64>) -> bool {
        let entries = other(&self.entries, self.n);
        window(&entries, self.n, TOLERANCE, BUDGET).is_none()
    }
}

/// The window where a run reaches its budget.
fn window(entries: &[f64], n: usize, tolerance: f64, budget: u64) -> Option<Window> {
    match schur(entries, n, tolerance, budget, false) {
        Run::Budget { window } => Some(window),
        Run::Done { .. } => None,
    }
}

fn transposed(entries: &[f64], n: usize) -> Vec<f64> {
    (0..n * n).map(|k| entries[k % n * n + k / n]).collect()
}

/// The first two rows turned, then the first two columns: the same eigenvalues but for rounding.
fn turned(entries: &[f64], n: usize) -> Vec<f64> {
    let mut entries = entries.to_vec();
    for (step, second) in [(n, 1), (1, n)] {
        for k in 0..n {
            let (a, b) = (entries[k * step], entries[k * step + second]);
            entries[k * step] = 0.8 * a - 0.6 * b;
            entries[k * step + second] = 0.6 * a + 0.8 * b;
        }
    }
    entries
}

/// A family's row of the table, and how many were refused.
fn row(source: &Source, most: usize, random: &mut Random) -> (usize, String) {
    let (mut drawn, mut all) = (0, Vec::new());
    while drawn < DRAWN && all.len() < most {
        let n = (source.order)(drawn);
        let entries = (source.entries)(random, n);
        drawn += 1;
        if let Some(window) = window(&entries, n, TOLERANCE, BUDGET) {
            all.push(Refused { n, entries, window });
        }
    }
    let count = |what: &dyn Fn(&Refused) -> bool| all.iter().filter(|case| what(case)).count();
    let mut cells = vec![drawn, all.len()];
    cells.push(count(&|case| case.window.1 + 1 == case.n));
    cells.push(count(&|case| case.window.1 - case.window.0 < 4));
    cells.extend(OTHERS.map(|tolerance| count(&|case| case.ends_at(tolerance, BUDGET))));
    cells.push(count(&|case| case.ends_as(transposed)));
    cells.push(count(&|case| case.ends_as(turned)));
    cells.push(count(&|case| {
        !case.ends_as(transposed) && !case.ends_as(turned)
    }));
    let cells: Vec<String> = cells.iter().map(usize::to_string).collect();
    let small = all.iter().filter(|case| case.n <= LONG_ORDER);
    let long: Vec<&Refused> = small.take(LONG).collect();
    let end = long.iter().filter(|case| case.ends_at(TOLERANCE, LARGEST));
    let (name, cells, end) = (source.name, cells.join(" | "), end.count());
    (
        all.len(),
        format!("| {name} | {cells} | {end} of {} |", long.len()),
    )
}

pub fn run(arguments: &[String]) -> Result<usize, String> {
    let (mut most, mut seed) = (100, options::SEED);
    options::each(arguments, |name, value| {
        match name {
            "--count" => most = options::count(value)?,
            "--seed" => seed = options::seed(value)?,
            _ => return Ok(false),
        }
        Ok(true)
    })?;
    let (began, sources) = (Instant::now(), sources());
    let rows = jobs::on_all_cores(sources.len(), |number| {
        let mut random = Random::stream(seed, 1000 * number as u64);
        row(&sources[number], most, &mut random)
    });
    println!("{HEAD}\n{}", "|---".repeat(13) + "|");
    let (mut refused, mut without) = (0, Vec::new());
    for (source, (count, row)) in sources.iter().zip(&rows) {
        refused += count;
        match count {
            0 => without.push(source.name),
            _ => println!("{row}"),
        }
    }
    println!("none of {DRAWN} each: {}", without.join(", "));
    let seconds = began.elapsed().as_secs();
    println!("budgets: {refused} refused with 7, seed {seed:x}, {seconds} s");
    Ok(0)
}

#[cfg(test)]
mod tests {
    use super::*;

    /// The cyclic permutation of order 6 stays open as it is and transposed; turned it ends.
    #[test]
    fn a_turn_ends_what_stays_open() {
        let (n, mut entries) = (6, vec![0.0; 36]);
        (0..n).for_each(|k| entries[(k + 1) % n + n * k] = 1.0);
        let window = window(&entries, n, TOLERANCE, BUDGET).unwrap();
        let case = Refused { n, entries, window };
        assert_eq!(case.window, (2, 5));
        assert!(!case.ends_as(transposed) && case.ends_as(turned));
    }
}
