//! The time of a kernel: ours, a call through the C ABI, against the crate's, a call too.
//!
//! Both sides go over the same items, which pass through `black_box`, by the same loop, on one
//! thread.

use super::inputs::Item;
use super::kernels::{Kernel, Side, KERNELS};
use crate::random::Random;
use crate::times::{Ratios, Times};
use std::hint::black_box;
use std::time::Instant;

const ORDERS: [usize; 5] = [4, 8, 16, 32, 64];

/// The aim: at most this many times the crate's time, from this order on.
const AIM: f64 = 1.1;
const AIM_FROM: usize = 16;

/// Rounds of each side, and about how long the crate takes for one. The least round counts, since on
/// a shared machine others were disturbed.
const ROUNDS: usize = 300;
const ROUND_NS: f64 = 20_000.0;

pub fn run(seed: u64, repeat: usize) {
    // The whole table again and again, not each line: so the repeats are some time apart.
    let tables: Vec<Vec<Times>> = (0..repeat).map(|_| table(seed)).collect();

    let (over, ratios) = match repeat {
        1 => (String::new(), "   ratio"),
        _ => (
            format!(", {repeat} times over"),
            "   least   middle  largest",
        ),
    };
    println!("\nns a call on one thread, the least of {ROUNDS} rounds{over}");
    println!(
        "{:14} {:>6} {:>9} {:>9} {ratios}  aim",
        "kernel", "order", "ours", "crate"
    );
    let mut aims = Vec::new();
    for (line, (kernel, order)) in lines().enumerate() {
        let times: Vec<Times> = tables.iter().map(|table| table[line]).collect();
        let ratios = Ratios::of(&times);
        let told = match repeat {
            1 => format!("{:>8.2}", ratios.middle),
            _ => format!(
                "{:>8.2} {:>8.2} {:>8.2}",
                ratios.least, ratios.middle, ratios.largest
            ),
        };
        let aim = (kernel.has_aim && order >= AIM_FROM).then_some(ratios.middle <= AIM);
        aims.extend(aim);

        let name = if order == ORDERS[0] { kernel.name } else { "" };
        let least = Times::least(times);
        println!(
            "{name:14} {order:>6} {:>9.1} {:>9.1} {told}{}",
            least.ours,
            least.crates,
            aim.map_or("", |met| if met { "  met" } else { "  NOT MET" })
        );
    }
    println!(
        "aim: at most {AIM} times the crate from order {AIM_FROM} on: met in {} of {}",
        aims.iter().filter(|&&met| met).count(),
        aims.len()
    );
}

fn lines() -> impl Iterator<Item = (&'static Kernel, usize)> {
    let orders = |kernel| ORDERS.iter().map(move |&order| (kernel, order));
    KERNELS.iter().flat_map(orders)
}

fn table(seed: u64) -> Vec<Times> {
    let times = |(number, (kernel, order)): (usize, (&Kernel, usize))| {
        let mut random = Random::stream(!seed, number as u64);
        times(kernel, &mut Item::to_time(&mut random, order))
    };
    lines().enumerate().map(times).collect()
}

fn times(kernel: &Kernel, items: &mut [Item]) -> Times {
    // The first calls warm up; the next say how many make a round.
    time(kernel.crates, items, 20);
    let one = time(kernel.crates, items, 20) * items.len() as f64;
    let sweeps = (ROUND_NS / one).ceil() as usize;
    Times::of_rounds(ROUNDS, || Times {
        ours: time(kernel.ours, items, sweeps),
        crates: time(kernel.crates, items, sweeps),
    })
}

/// The ns of a call in so many sweeps over the items.
fn time(side: Side, items: &mut [Item], sweeps: usize) -> f64 {
    let start = Instant::now();
    for _ in 0..sweeps {
        side(black_box(&mut *items));
    }
    start.elapsed().as_nanos() as f64 / (sweeps * items.len()) as f64
}
