//! The time of a root: ours, a call through the C ABI of a function from u64 to u64 that no
//! compiler sees into, against the hardware's instruction, which the compiler puts in line.
//!
//! Each input passes through `black_box` in both loops. So the hardware's roots are taken one at a
//! time and not two in one vector instruction, and neither loop's work can be dropped or moved out
//! of the rounds.

use super::{INFINITY, ONE};
use crate::door;
use crate::random::Random;
use std::hint::black_box;
use std::time::Instant;

/// Inputs of a round, and rounds; the least round counts, since on a shared machine others were
/// disturbed. The branches of a few thousand inputs that come again and again are foreseen by the
/// processor, so a second table has more than it can learn.
const TABLES: [(usize, usize); 2] = [(1 << 12, 3000), (1 << 16, 200)];

/// A round: takes the roots of all inputs and answers a number that depends on each.
type Round = fn(&[u64]) -> u64;

struct Case {
    name: &'static str,
    input: fn(&mut Random) -> u64,
    ours: Round,
    hardware: Round,
    aim: Option<Aim>,
}

/// Met if ours takes less than `below` ns, or at most `times` the hardware's time.
struct Aim {
    below: f64,
    times: f64,
}

const CASES: &[Case] = &[
    Case {
        name: "random positive finite",
        input: |random| 1 + random.below(INFINITY - 1),
        ours: sum_of_ours,
        hardware: sum_of_hardware,
        aim: Some(Aim {
            below: 35.0,
            times: 15.0,
        }),
    },
    Case {
        name: "within 2^26 patterns of 1.0",
        input: |random| ONE - (1 << 26) + random.below((1 << 27) + 1),
        ours: sum_of_ours,
        hardware: sum_of_hardware,
        aim: Some(Aim {
            below: 8.0,
            times: 4.0,
        }),
    },
    Case {
        name: "subnormals of any size",
        input: |random| random.of_any_size(52),
        ours: sum_of_ours,
        hardware: sum_of_hardware,
        aim: None,
    },
    Case {
        name: "from 1 to below 4",
        input: one_to_four,
        ours: sum_of_ours,
        hardware: sum_of_hardware,
        aim: None,
    },
    Case {
        name: "from 1 to below 4, one after another",
        input: one_to_four,
        ours: chain_of_ours,
        hardware: chain_of_hardware,
        aim: None,
    },
];

fn one_to_four(random: &mut Random) -> u64 {
    ONE + random.below(1 << 53)
}

pub fn run(seed: u64) {
    for (inputs, rounds) in TABLES {
        println!("\nns a call on one thread, the least of {rounds} rounds of {inputs} inputs");
        println!("{:36} {:>8} {:>8} {:>8}", "", "ours", "hardware", "ratio");
        for (number, case) in CASES.iter().enumerate() {
            let mut random = Random::stream(!seed, number as u64);
            let inputs: Vec<u64> = (0..inputs).map(|_| (case.input)(&mut random)).collect();
            report(case, &inputs, rounds);
        }
    }
}

fn report(case: &Case, inputs: &[u64], rounds: usize) {
    // The two take turns, so that both see the machine's quiet moments.
    let (mut ours, mut hardware) = (f64::INFINITY, f64::INFINITY);
    for _ in 0..rounds {
        ours = ours.min(time(case.ours, inputs));
        hardware = hardware.min(time(case.hardware, inputs));
    }
    let ratio = ours / hardware;
    println!("{:36} {ours:>8.2} {hardware:>8.2} {ratio:>8.2}", case.name);
    if let Some(Aim { below, times }) = case.aim {
        let met = ours < below || ratio <= times;
        let verdict = if met { "met" } else { "NOT MET" };
        println!("    aim: below {below} ns, or at most {times} times the hardware: {verdict}");
    }
}

fn time(round: Round, inputs: &[u64]) -> f64 {
    let start = Instant::now();
    black_box(round(black_box(inputs)));
    start.elapsed().as_nanos() as f64 / inputs.len() as f64
}

#[inline(never)]
fn sum_of_ours(inputs: &[u64]) -> u64 {
    let mut sum = 0u64;
    for &input in inputs {
        sum = sum.wrapping_add(door::sqrt(black_box(input)));
    }
    sum
}

#[inline(never)]
fn sum_of_hardware(inputs: &[u64]) -> u64 {
    let mut sum = 0u64;
    for &input in inputs {
        let root = f64::from_bits(black_box(input)).sqrt();
        sum = sum.wrapping_add(root.to_bits());
    }
    sum
}

/// Each root's argument holds the root before it, so no two can be under way together.
#[inline(never)]
fn chain_of_ours(inputs: &[u64]) -> u64 {
    let mut last = 0.0;
    for &input in inputs {
        let next = f64::from_bits(black_box(input)) + last;
        last = f64::from_bits(door::sqrt(next.to_bits()));
    }
    last.to_bits()
}

#[inline(never)]
fn chain_of_hardware(inputs: &[u64]) -> u64 {
    let mut last = 0.0;
    for &input in inputs {
        last = (f64::from_bits(black_box(input)) + last).sqrt();
    }
    last.to_bits()
}
