//! Command `speed`: the time of the door's entries, ours against the crate's.
//!
//! Both sides go over the same matrices, on one thread. The crate's functions take a matrix, so one is
//! copied each time, and allocate T, Q, a work vector and the list of eigenvalues; ours reads the matrix
//! where it is, is lent the rest, and keeps its own working memory. Without Q the crate's run is reached
//! through `eigenvalues`, which reads the diagonal besides; that is its plain entry.
//!
//! The complex reader reads the T of each matrix; the real reader that of the symmetric matrix M + M^T, since
//! most of the others have complex eigenvalues and are refused, by the crate's reader at the first block.

mod roots;

use crate::crate_side;
use crate::door;
use crate::numbers::normal;
use crate::options;
use crate::random::Random;
use crate::times::{Ratios, Times};
use manulsek::bytes;
use nalgebra::{DMatrix, Dyn, Schur};
use std::hint::black_box;
use std::time::Instant;

const ORDERS: [usize; 6] = [3, 4, 8, 16, 32, 64];

/// The aim for the decomposition with Q: at each order below so many times the crate's time.
const AIMS: [f64; 6] = [1.3, 1.3, 1.0, 1.0, 1.0, 1.0];

/// The tolerance is that of `eigenvalues`, which has no bound; the budget is beyond what these matrices
/// need.
const TOLERANCE: f64 = f64::EPSILON;
const BUDGET: u64 = 10_000;

/// The entries of all matrices of an order together. So even at order 64 there are 16 of them, and a
/// round of any order takes about as long as another.
const ENTRIES: usize = 1 << 16;

/// Rounds of each side. The least counts, since on a shared machine others were disturbed.
const ROUNDS: usize = 15;

pub fn run(arguments: &[String]) -> Result<usize, String> {
    let options = Options::read(arguments)?;
    let mut items =
        ORDERS.map(|order| Items::draw(order, &mut Random::stream(!options.seed, order as u64)));
    let matrices: usize = items.iter().map(|items| items.matrices.len()).sum();
    let differences = items.iter_mut().map(Items::differences).sum();
    println!(
        "{matrices} matrices, {differences} differences, seed {:016x}",
        options.seed
    );
    // The whole table again and again, not each line: so the repeats are some time apart.
    let tables: Vec<Vec<Times>> = (0..options.repeat).map(|_| table(&mut items)).collect();
    if options.repeat > 0 {
        report(&items, &tables);
        roots::report(&items, &with_q(&tables));
    }
    Ok(differences)
}

struct Options {
    /// How often the times are taken.
    repeat: usize,
    seed: u64,
}

impl Options {
    fn read(arguments: &[String]) -> Result<Options, String> {
        let mut options = Options {
            repeat: 5,
            seed: options::SEED,
        };
        options::each(arguments, |name, value| {
            match name {
                "--repeat" => options.repeat = options::count(value)?,
                "--seed" => options.seed = options::seed(value)?,
                _ => return Ok(false),
            }
            Ok(true)
        })?;
        Ok(options)
    }
}

/// The matrices of an order, their decompositions, and the memory that is lent to ours.
struct Items {
    order: usize,
    matrices: Vec<DMatrix<f64>>,
    runs: Vec<Run>,
    symmetric: Vec<Run>,
    lent: Lent,
}

/// What the crate made of a matrix: as it has it, and T as ours reads it.
struct Run {
    schur: Schur<f64, Dyn>,
    t: Vec<f64>,
}

impl Run {
    fn of(matrix: DMatrix<f64>) -> Run {
        let schur = Schur::new(matrix);
        let t = schur.clone().unpack().1.as_slice().to_vec();
        Run { schur, t }
    }
}

struct Lent {
    t: Vec<f64>,
    q: Vec<f64>,
    re: Vec<f64>,
    im: Vec<f64>,
}

impl Items {
    fn draw(order: usize, random: &mut Random) -> Items {
        let entries = order * order;
        let mut matrix = |_| DMatrix::from_fn(order, order, |_, _| normal(random));
        let matrices: Vec<_> = (0..ENTRIES / entries).map(&mut matrix).collect();
        Items {
            order,
            runs: matrices.iter().cloned().map(Run::of).collect(),
            symmetric: matrices
                .iter()
                .map(|m| Run::of(m + m.transpose()))
                .collect(),
            matrices,
            lent: Lent {
                t: vec![0.0; entries],
                q: vec![0.0; entries],
                re: vec![0.0; order],
                im: vec![0.0; order],
            },
        }
    }

    /// On how many matrices ours has not the crate's bits. `compare` looks closer.
    fn differences(&mut self) -> usize {
        let Items {
            matrices,
            runs,
            symmetric,
            lent,
            ..
        } = self;
        let both = matrices.iter().zip(runs.iter().zip(symmetric.iter()));
        both.filter(|(matrix, (run, real))| !(lent.agrees(matrix, run) && lent.reads(real)))
            .count()
    }
}

impl Lent {
    fn agrees(&mut self, matrix: &DMatrix<f64>, run: &Run) -> bool {
        let (n, budget) = (matrix.nrows(), BUDGET as usize);
        let Some((t, q)) = crate_side::schur(n, matrix.as_slice(), TOLERANCE, budget) else {
            return false;
        };
        let accepted = |answer: u64| answer >> 32 == 0;
        // With Q and then without: the Q from before has to stay.
        let runs = [1, 0].into_iter().all(|wanted| {
            let same = accepted(self.run(matrix, wanted));
            same && bytes::of(&self.t) == bytes::of(&t) && bytes::of(&self.q) == bytes::of(&q)
        });
        let pairs = accepted(self.read(run)) && {
            let values = run.schur.complex_eigenvalues();
            let mut pairs = values.iter().zip(self.re.iter().zip(&self.im));
            pairs.all(|(z, (re, im))| z.re == *re && z.im == *im)
        };
        let plain = match matrix.eigenvalues() {
            Some(values) => self.plain(matrix) == 0 && values.as_slice() == self.re,
            None => self.plain(matrix) == 10 << 32,
        };
        runs && pairs && plain
    }

    fn reads(&mut self, run: &Run) -> bool {
        match run.schur.eigenvalues() {
            Some(values) => self.read_real(run) == 0 && values.as_slice() == self.re,
            None => self.read_real(run) == 10 << 32,
        }
    }

    #[inline]
    fn run(&mut self, matrix: &DMatrix<f64>, wanted: u32) -> u64 {
        let (t, q) = (bytes::of_mut(&mut self.t), bytes::of_mut(&mut self.q));
        let (n, matrix) = (matrix.nrows(), bytes::of(matrix.as_slice()));
        door::decompose(n, matrix, TOLERANCE.to_bits(), BUDGET, wanted, t, q)
    }

    #[inline]
    fn plain(&mut self, matrix: &DMatrix<f64>) -> u64 {
        let (n, matrix) = (matrix.nrows(), bytes::of(matrix.as_slice()));
        door::plain_eigenvalues(n, matrix, bytes::of_mut(&mut self.re))
    }

    #[inline]
    fn read(&mut self, run: &Run) -> u64 {
        let n = self.re.len();
        let (re, im) = (bytes::of_mut(&mut self.re), bytes::of_mut(&mut self.im));
        door::complex_eigenvalues(n, bytes::of(&run.t), re, im)
    }

    #[inline]
    fn read_real(&mut self, run: &Run) -> u64 {
        let n = self.re.len();
        door::eigenvalues(n, bytes::of(&run.t), bytes::of_mut(&mut self.re))
    }
}

/// Runs on every matrix once.
type Side = fn(&mut Items);

/// What is timed, each with our side and the crate's.
const WAYS: [(&str, Side, Side); 5] = [
    ("with Q", |items| ours(items, 1), crates_with_q),
    ("without Q", |items| ours(items, 0), crates_without_q),
    ("real reader", our_real_reader, crates_real_reader),
    ("complex reader", our_reader, crates_reader),
    ("plain entry", our_plain, crates_without_q),
];

#[inline(never)]
fn ours(items: &mut Items, wanted: u32) {
    for matrix in &items.matrices {
        black_box(items.lent.run(black_box(matrix), wanted));
    }
}

#[inline(never)]
fn our_plain(items: &mut Items) {
    for matrix in &items.matrices {
        black_box(items.lent.plain(black_box(matrix)));
    }
}

#[inline(never)]
fn our_real_reader(items: &mut Items) {
    for run in &items.symmetric {
        black_box(items.lent.read_real(black_box(run)));
    }
}

#[inline(never)]
fn our_reader(items: &mut Items) {
    for run in &items.runs {
        black_box(items.lent.read(black_box(run)));
    }
}

#[inline(never)]
fn crates_with_q(items: &mut Items) {
    for matrix in &items.matrices {
        let matrix = black_box(matrix).clone();
        black_box(Schur::try_new(matrix, TOLERANCE, BUDGET as usize));
    }
}

#[inline(never)]
fn crates_without_q(items: &mut Items) {
    for matrix in &items.matrices {
        black_box(black_box(matrix).eigenvalues());
    }
}

#[inline(never)]
fn crates_real_reader(items: &mut Items) {
    for run in &items.symmetric {
        black_box(black_box(run).schur.eigenvalues());
    }
}

#[inline(never)]
fn crates_reader(items: &mut Items) {
    for run in &items.runs {
        black_box(black_box(run).schur.complex_eigenvalues());
    }
}

/// The times of every order, one way after another.
fn table(items: &mut [Items]) -> Vec<Times> {
    let mut table = Vec::new();
    for (_, ours, crates) in WAYS {
        for items in items.iter_mut() {
            table.push(Times::of_rounds(ROUNDS, || Times {
                ours: time(ours, items),
                crates: time(crates, items),
            }));
        }
    }
    table
}

/// The microseconds of a call.
fn time(side: Side, items: &mut Items) -> f64 {
    let start = Instant::now();
    side(black_box(&mut *items));
    start.elapsed().as_secs_f64() * 1e6 / items.matrices.len() as f64
}

/// The least times of the first way, with Q, at each order.
fn with_q(tables: &[Vec<Times>]) -> Vec<Times> {
    let least = |place| Times::least(tables.iter().map(|table| table[place]));
    (0..ORDERS.len()).map(least).collect()
}

fn report(items: &[Items], tables: &[Vec<Times>]) {
    println!(
        "\nmicroseconds a call on one thread, the least of {ROUNDS} rounds, {} times over",
        tables.len()
    );
    println!(
        "{:14} {:>6} {:>9} {:>10} {:>10} {:>8} {:>8} {:>8}  aim",
        "", "order", "matrices", "ours", "crate", "least", "middle", "largest"
    );
    let mut met = 0;
    for (number, (name, _, _)) in WAYS.iter().enumerate() {
        for (place, items) in items.iter().enumerate() {
            let name = if place == 0 { name } else { "" };
            let line = number * ORDERS.len() + place;
            let times: Vec<Times> = tables.iter().map(|table| table[line]).collect();
            print!("{name:14} {:>6} {:>9}", items.order, items.matrices.len());
            let middle = report_line(&times);
            if number == 0 {
                let good = middle < AIMS[place];
                met += usize::from(good);
                let said = if good { "met" } else { "NOT MET" };
                print!("  below {:.1}: {said}", AIMS[place]);
            }
            println!();
        }
    }
    println!(
        "aim, with Q, by the middle ratio: met at {met} of {} orders",
        ORDERS.len()
    );
}

/// The least times, and the ratios of the repeats, of which the middle is answered.
fn report_line(times: &[Times]) -> f64 {
    let (least, ratios) = (Times::least(times.iter().copied()), Ratios::of(times));
    print!(
        " {:>10.3} {:>10.3} {:>8.2} {:>8.2} {:>8.2}",
        least.ours, least.crates, ratios.least, ratios.middle, ratios.largest
    );
    ratios.middle
}
