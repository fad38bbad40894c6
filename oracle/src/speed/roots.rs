//! The share of a decomposition's time that its roots take.
//!
//! The plain model tells the arguments of all roots that the run on a matrix takes, in their order. These roots
//! are taken again by themselves, each waiting for the one before: ours through `manulsek_sqrt`, a call that
//! goes by patterns, and the processor's in line. What that takes, over the time of the whole call with Q, is the
//! share. In the run some roots need not wait, so it is rather too large than too small.

use super::{Items, BUDGET, ROUNDS, TOLERANCE};
use crate::door;
use crate::model;
use crate::times::Times;
use std::hint::black_box;
use std::time::Instant;

/// A round: takes the roots of all arguments, and answers the last.
type Round = fn(&[u64]) -> u64;

/// `calls` are the least microseconds of a call with Q at each order.
pub fn report(items: &[Items], calls: &[Times]) {
    println!("\nroots of a call with Q, one after another: their number, ns a root, and their share of the call");
    println!(
        "{:14} {:>6} {:>9} {:>10} {:>10} {:>10} {:>10}",
        "", "order", "roots", "ours", "processor", "our share", "crate's"
    );
    for (items, call) in items.iter().zip(calls) {
        let (count, arguments) = (items.matrices.len() as f64, arguments(items));
        let roots = arguments.len() as f64;
        let times = Times::of_rounds(ROUNDS, || Times {
            ours: time(ours, &arguments),
            crates: time(processors, &arguments),
        });
        let share = |round: f64, call: f64| 100.0 * round / count / (call * 1e3);
        println!(
            "{:14} {:>6} {:>9.1} {:>10.2} {:>10.2} {:>8.0} % {:>8.0} %",
            "",
            items.order,
            roots / count,
            times.ours / roots,
            times.crates / roots,
            share(times.ours, call.ours),
            share(times.crates, call.crates)
        );
    }
}

/// The patterns of all arguments, matrix after matrix.
fn arguments(items: &Items) -> Vec<u64> {
    let of_one = |matrix: &nalgebra::DMatrix<f64>| {
        model::schur_roots(matrix.as_slice(), items.order, TOLERANCE, BUDGET, true)
    };
    let all = items.matrices.iter().flat_map(of_one);
    all.map(f64::to_bits).collect()
}

/// The nanoseconds of a round.
fn time(round: Round, arguments: &[u64]) -> f64 {
    let start = Instant::now();
    black_box(round(black_box(arguments)));
    start.elapsed().as_nanos() as f64
}

/// The mask is 0, which the compiler does not know: so each root waits for the one before, and has its own
/// argument.
#[inline(never)]
fn ours(arguments: &[u64]) -> u64 {
    let mask = black_box(0);
    arguments
        .iter()
        .fold(0, |last, w| door::sqrt(w ^ (last & mask)))
}

#[inline(never)]
fn processors(arguments: &[u64]) -> u64 {
    let mask = black_box(0);
    let root = |last: u64, w: &u64| f64::from_bits(w ^ (last & mask)).sqrt().to_bits();
    arguments.iter().fold(0, root)
}
