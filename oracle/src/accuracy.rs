//! Command `accuracy`: how far the accepted T and Q are from what they stand for, family by family and order by order:
//! ours, through the package `rust/manulsek`, the crate's, which must be the same bits, and LAPACK's.
//!
//! Nothing is promised of these figures, so none of them is a difference, however large. `docs/ACCURACY.md` says
//! why some are.

mod lapack;
mod measure;
#[cfg(test)]
mod reasons;
mod tables;

use crate::compare::{Case, Family, FAMILIES};
use crate::crate_side;
use crate::jobs;
use crate::numbers::between;
use crate::options;
use crate::random::Random;
use lapack::Lapack;
use manulsek::Schur;
use measure::Figures;
use std::time::Instant;

/// The orders, from and to. At order 1 T is the matrix and Q is 1.
const GROUPS: [(usize, usize); 6] = [(2, 2), (3, 4), (5, 8), (9, 16), (17, 32), (33, 64)];

/// A family's matrices of a group of orders are cut into this many parts, which threads take one by one. The
/// matrices of a part depend on its number and the seed, never on the thread.
const PARTS: usize = 8;

/// The usual tolerance, for the families.
const TOLERANCE: f64 = f64::EPSILON;

/// From the one at which only an exact zero counts as one to those at which much counts as one.
const TOLERANCES: [f64; 7] = [0.0, f64::EPSILON, 1e-12, 1e-9, 1e-6, 1e-3, 0.5];

/// So many parts of the family `normal` are run at each of these.
const TOLERANCE_PARTS: usize = 2;

/// A figure above this is shown with its matrix.
const BOUND: f64 = 100.0;

/// T and Q.
type Answer = (Vec<f64>, Vec<f64>);

/// A side of ours: T and Q, or the number of the refusal.
type Ours = fn(&Case) -> Result<Answer, u32>;

pub fn run(arguments: &[String]) -> Result<usize, String> {
    let options = Options::read(arguments)?;
    let start = Instant::now();
    let lapack = Lapack::find();
    let rows = of_families(door, lapack, &options);
    tables::figures(&rows, lapack.is_some());
    tables::counts(&rows, lapack.is_some());
    tables::worst(&rows);
    let tolerances = of_tolerances(door, &options);
    tables::tolerances(&tolerances);

    let all = rows.iter().chain(&tolerances).flatten();
    let sum = |count: fn(&Cell) -> usize| all.clone().map(count).sum::<usize>();
    let differences = sum(|cell| cell.differences);
    for difference in all.clone().filter_map(|cell| cell.difference.as_ref()) {
        println!("{difference}");
    }
    println!(
        "{} matrices, {} accepted, {differences} differences, seed {:016x}, {:.1} seconds",
        sum(|cell| cell.matrices),
        sum(|cell| cell.accepted),
        options.seed,
        start.elapsed().as_secs_f64()
    );
    Ok(differences)
}

struct Options {
    /// Matrices of a family of the largest orders.
    count: usize,
    seed: u64,
}

impl Options {
    fn read(arguments: &[String]) -> Result<Options, String> {
        let mut options = Options {
            count: 400,
            seed: options::SEED,
        };
        options::each(arguments, |name, value| {
            match name {
                "--count" => options.count = options::count(value)?,
                "--seed" => options.seed = options::seed(value)?,
                _ => return Ok(false),
            }
            Ok(true)
        })?;
        match options.count {
            0 => Err("`--count` of 0 measures nothing".to_string()),
            _ => Ok(options),
        }
    }

    /// Matrices in a part of a group: twice as many as of the next larger orders, which take eight times as long.
    fn part(&self, group: usize) -> usize {
        self.count.div_ceil(PARTS) << (GROUPS.len() - 1 - group)
    }
}

/// What the matrices of a family and a group of orders came to.
#[derive(Clone, Default)]
struct Cell {
    matrices: usize,
    accepted: usize,
    /// By the numbers 7, 8 and 9.
    refused: [usize; 3],
    /// The largest figures of what we accepted: ours, and the crate's on the same matrices.
    ours: Figures,
    crates: Figures,
    /// The largest |A - Q T Q'| / |A| of ours.
    relative: f64,
    /// Of all that LAPACK answered with finite numbers.
    lapack: Figures,
    /// How many it did not answer, and how many with numbers that are not finite.
    failed: [usize; 2],
    /// How many have a figure above the bound, of ours and of LAPACK's.
    above: [usize; 2],
    /// The largest of ours above the bound, with its matrix.
    worst: Option<(Figures, Case)>,
    differences: usize,
    /// The first.
    difference: Option<String>,
}

impl Cell {
    fn add(&mut self, ours: Ours, lapack: Option<Lapack>, case: &Case) {
        let figures = |(t, q): &Answer| Figures::of(case.order, &case.entries, t, q);
        let found = ours(case);
        let budget = case.budget as usize;
        let crates = crate_side::schur(case.order, &case.entries, case.tolerance, budget);
        self.matrices += 1;
        if !agree(case.order, &found, &crates) {
            self.differences += 1;
            let line = || format!("not as the crate has it: {}", case.line());
            self.difference.get_or_insert_with(line);
        }
        match &found {
            Ok(answer) => {
                self.accept(figures(answer), case);
                self.crates = self
                    .crates
                    .max(crates.as_ref().map(figures).unwrap_or_default());
            }
            Err(number) => self.refuse(*number),
        }
        if let Some(lapack) = lapack {
            self.add_lapack(&lapack.schur(case.order, &case.entries), figures);
        }
    }

    fn add_lapack(&mut self, answer: &Result<Answer, i32>, figures: impl Fn(&Answer) -> Figures) {
        match answer {
            Err(_) => self.failed[0] += 1,
            Ok(answer) if !finite(answer) => self.failed[1] += 1,
            Ok(answer) => {
                let figures = figures(answer);
                self.above[1] += (figures.largest() > BOUND) as usize;
                self.lapack = self.lapack.max(figures);
            }
        }
    }

    fn accept(&mut self, figures: Figures, case: &Case) {
        self.accepted += 1;
        self.ours = self.ours.max(figures);
        let relative = figures.residual * case.order as f64 * f64::EPSILON;
        self.relative = self.relative.max(relative);
        if figures.largest() > BOUND {
            self.above[0] += 1;
            self.keep_worst(Some((figures, case.clone())));
        }
    }

    /// Another number than these is a difference already.
    fn refuse(&mut self, number: u32) {
        if let 7..=9 = number {
            self.refused[number as usize - 7] += 1;
        }
    }

    /// The first of the largest stays.
    fn keep_worst(&mut self, other: Option<(Figures, Case)>) {
        let size = |worst: &Option<(Figures, Case)>| worst.as_ref().map(|worst| worst.0.largest());
        if size(&other) > size(&self.worst) {
            self.worst = other;
        }
    }

    fn and(mut self, other: Cell) -> Cell {
        self.matrices += other.matrices;
        self.accepted += other.accepted;
        for k in 0..3 {
            self.refused[k] += other.refused[k];
        }
        self.ours = self.ours.max(other.ours);
        self.crates = self.crates.max(other.crates);
        self.relative = self.relative.max(other.relative);
        self.lapack = self.lapack.max(other.lapack);
        for k in 0..2 {
            self.failed[k] += other.failed[k];
            self.above[k] += other.above[k];
        }
        self.keep_worst(other.worst);
        self.differences += other.differences;
        self.difference = self.difference.or(other.difference);
        self
    }
}

/// Our side, as a user in Rust calls it.
fn door(case: &Case) -> Result<Answer, u32> {
    let run = Schur::try_new(case.order, &case.entries, case.tolerance, case.budget);
    let run = run.map_err(|refusal| refusal.number)?;
    Ok((run.t().to_vec(), run.q().to_vec()))
}

/// Whether ours is what the crate's answer asks for: the same bits, or 7, 8 or 9, whichever fits.
fn agree(order: usize, ours: &Result<Answer, u32>, crates: &Option<Answer>) -> bool {
    let bits = |numbers: &[f64]| numbers.iter().map(|x| x.to_bits()).collect::<Vec<u64>>();
    match (ours, crates) {
        (Err(number), None) => *number == 7,
        (Ok(_), None) => false,
        (_, Some(crates)) if !finite(crates) => *ours == Err(8),
        (_, Some((t, _))) if !has_shape(order, t) => *ours == Err(9),
        (Ok(ours), Some((t, q))) => bits(&ours.0) == bits(t) && bits(&ours.1) == bits(q),
        (Err(_), Some(_)) => false,
    }
}

fn finite((t, q): &Answer) -> bool {
    t.iter().chain(q).all(|x| x.is_finite())
}

/// Zeros two or more places below the diagonal, and of two neighbours just below it at least one.
fn has_shape(n: usize, t: &[f64]) -> bool {
    let zero = |row: usize, column: usize| t[row + column * n] == 0.0;
    let below = (0..n).all(|column| (column + 2..n).all(|row| zero(row, column)));
    below && (2..n).all(|row| zero(row, row - 1) || zero(row - 1, row - 2))
}

/// One part of a family and a group of orders.
fn part(
    ours: Ours,
    lapack: Option<Lapack>,
    options: &Options,
    tolerance: f64,
    [family, group, part]: [usize; 3],
) -> Cell {
    let number = (family * GROUPS.len() + group) * PARTS + part;
    let mut random = Random::stream(options.seed, number as u64);
    let mut cell = Cell::default();
    for _ in 0..options.part(group) {
        let case = draw(&mut random, &FAMILIES[family], GROUPS[group], tolerance);
        cell.add(ours, lapack, &case);
    }
    cell
}

/// The budget is that of most matrices of `compare`.
fn draw(random: &mut Random, family: &Family, orders: (usize, usize), tolerance: f64) -> Case {
    let order = between(random, orders.0, orders.1);
    Case {
        order,
        entries: (family.entries)(random, order),
        tolerance,
        budget: 30 * order.max(4) as u64,
    }
}

/// So many rows, each with a cell for each group of orders, which is made of so many parts.
fn table(rows: usize, parts: usize, cell: impl Fn([usize; 3]) -> Cell + Sync) -> Vec<Vec<Cell>> {
    let groups = GROUPS.len();
    let cells = jobs::on_all_cores(rows * groups * parts, |job| {
        cell([job / parts / groups, job / parts % groups, job % parts])
    });
    let mut sums = vec![vec![Cell::default(); groups]; rows];
    for (job, cell) in cells.into_iter().enumerate() {
        let sum = &mut sums[job / parts / groups][job / parts % groups];
        *sum = std::mem::take(sum).and(cell);
    }
    sums
}

/// A row for each family.
fn of_families(ours: Ours, lapack: Option<Lapack>, options: &Options) -> Vec<Vec<Cell>> {
    table(FAMILIES.len(), PARTS, |place| {
        part(ours, lapack, options, TOLERANCE, place)
    })
}

/// A row for each tolerance, all of the same matrices, of the family `normal`.
fn of_tolerances(ours: Ours, options: &Options) -> Vec<Vec<Cell>> {
    table(TOLERANCES.len(), TOLERANCE_PARTS, |[row, group, number]| {
        part(ours, None, options, TOLERANCES[row], [0, group, number])
    })
}

#[cfg(test)]
mod tests {
    use super::*;

    fn read(arguments: &[&str]) -> Result<Options, String> {
        let arguments: Vec<String> = arguments.iter().map(|word| word.to_string()).collect();
        Options::read(&arguments)
    }

    /// Each group has twice as many as the next, however few are asked for.
    #[test]
    fn smaller_orders_have_more() {
        let options = read(&["--count", "1"]).unwrap();
        let counts: Vec<usize> = (0..GROUPS.len()).map(|group| options.part(group)).collect();
        assert_eq!(counts, [32, 16, 8, 4, 2, 1]);
        assert!(read(&["--large", "1"]).is_err());
        assert!(read(&["--count", "0"]).is_err());
    }

    /// The first part of every family, at orders 2 to 8.
    fn small(ours: Ours) -> Vec<Cell> {
        let options = Options { count: 1, seed: 7 };
        let places =
            (0..FAMILIES.len()).flat_map(|family| (0..3).map(move |group| [family, group, 0]));
        places
            .map(|place| part(ours, None, &options, TOLERANCE, place))
            .collect()
    }

    fn differences(ours: Ours) -> usize {
        small(ours).iter().map(|cell| cell.differences).sum()
    }

    #[test]
    fn ours_is_the_crates() {
        let cells = small(door);
        let sum = |count: fn(&Cell) -> usize| cells.iter().map(count).sum::<usize>();
        assert_eq!(sum(|cell| cell.differences), 0);
        assert!(cells.iter().all(|cell| cell.ours == cell.crates));
        let refused = sum(|cell| cell.refused.iter().sum());
        assert_eq!(sum(|cell| cell.matrices), FAMILIES.len() * (32 + 16 + 8));
        assert_eq!(
            sum(|cell| cell.accepted) + refused,
            sum(|cell| cell.matrices)
        );
        assert!(sum(|cell| cell.refused[0]) > 0 && sum(|cell| cell.refused[1]) > 0);
        let ordinary = small(door)[0].ours;
        assert!(
            ordinary.residual > 0.0 && ordinary.largest() < 5.0,
            "{ordinary:?}"
        );
    }

    /// Each in its own way, and each is a difference on every matrix that shows it.
    #[test]
    fn other_answers_are_differences() {
        let all = FAMILIES.len() * (32 + 16 + 8);
        let bit: Ours = |case| {
            door(case).map(|(t, mut q)| {
                q[0] = f64::from_bits(q[0].to_bits() ^ 1);
                (t, q)
            })
        };
        let accepted: usize = small(door).iter().map(|cell| cell.accepted).sum();
        assert_eq!(differences(bit), accepted);
        let sign: Ours = |case| {
            door(case).map(|(mut t, q)| {
                t[0] = -t[0];
                (t, q)
            })
        };
        assert_eq!(differences(sign), accepted);
        for number in [1, 7, 8, 9] {
            let refuse: Ours = match number {
                1 => |_| Err(1),
                7 => |_| Err(7),
                8 => |_| Err(8),
                _ => |_| Err(9),
            };
            assert!((accepted..=all).contains(&differences(refuse)));
        }
        // What the crate hands out and we refuse.
        let crates: Ours = |case| {
            let budget = case.budget as usize;
            crate_side::schur(case.order, &case.entries, case.tolerance, budget).ok_or(7)
        };
        let eight: usize = small(door)
            .iter()
            .map(|cell| cell.refused[1] + cell.refused[2])
            .sum();
        assert!(eight > 0);
        assert_eq!(differences(crates), eight);
    }

    #[test]
    fn shapes() {
        let mut t = vec![0.0; 16];
        assert!(has_shape(4, &t));
        for place in [1, 11] {
            t[place] = 1.0;
            assert!(has_shape(4, &t));
        }
        for place in [2, 3, 7, 6] {
            let mut spoilt = t.clone();
            spoilt[place] = 1.0;
            assert!(!has_shape(4, &spoilt), "{place}");
        }
    }

    /// The jobs of all cores give what one after the other gives.
    #[test]
    fn a_seed_gives_one_table() {
        let options = Options { count: 1, seed: 7 };
        let cells = table(2, 3, |place| part(door, None, &options, TOLERANCE, place));
        for (family, row) in cells.iter().enumerate() {
            for (group, cell) in row.iter().enumerate() {
                let parts = (0..3)
                    .map(|number| part(door, None, &options, TOLERANCE, [family, group, number]));
                let right = parts.reduce(Cell::and).unwrap();
                assert_eq!((cell.ours, cell.matrices), (right.ours, right.matrices));
            }
        }
    }
}
