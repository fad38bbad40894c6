//! The judge on what document 01 says of single inputs, and the two sources of its readers against each
//! other.

use super::*;
use crate::compare::{Case, FAMILIES};
use crate::random::Random;

const J: [f64; 4] = [0.0, 1.0, -1.0, 0.0];

fn refused(number: u8, row: usize, col: usize) -> Answer {
    Answer::Refused(Refusal { number, row, col })
}

fn ruled(call: &Call) -> Answer {
    Judge::default().rule(call, 0).answer
}

/// The answer of an entry on numbers, at the tolerance 2^-52.
fn on(entry: Entry, numbers: &[f64], budget: u64) -> Answer {
    let mut call = Call::new(entry, numbers.len().isqrt(), numbers);
    call.budget = budget;
    ruled(&call)
}

/// Order 4: two blocks of two on the diagonal.
fn two(first: [f64; 4], second: [f64; 4]) -> Vec<f64> {
    let mut matrix = vec![0.0; 16];
    for (place, block) in [(0, first), (10, second)] {
        for k in 0..4 {
            matrix[place + k % 2 + k / 2 * 4] = block[k];
        }
    }
    matrix
}

#[test]
fn the_marked_matrices() {
    let run = |numbers: &[f64], budget| on(Entry::Decompose, numbers, budget);
    assert_eq!(run(&[5.0], 1), Answer::Accepted(0));
    assert_eq!(on(Entry::Real, &J, 1), refused(10, 0, 0));
    assert_eq!(on(Entry::Complex, &J, 1), Answer::Accepted(0));
    assert_eq!(run(&[0.0; 9], 1), Answer::Accepted(0));
    for matrix in [two(J, J), two([1.0, 0.0, 0.0, 2.0], J)] {
        assert_eq!(run(&matrix, 1), refused(7, 0, 0));
        assert_eq!(run(&matrix, 2), Answer::Accepted(1));
    }
    let mut missing = [1.0; 9];
    missing[5] = f64::NAN;
    assert_eq!(run(&missing, 1), refused(6, 2, 1));
    assert_eq!(run(&[0.0; 65 * 65], 1), refused(2, 0, 0));
    assert_eq!(run(&[], 1), refused(1, 0, 0));
    assert_eq!(run(&J, 0), refused(5, 0, 0));
    let large = 2f64.powi(700);
    assert_eq!(run(&[0.0, large, large, 0.0], 1), refused(8, 0, 0));
    assert_eq!(run(&[1.0, large, 0.0, 1.0], 1), Answer::Accepted(0));
    let spoiled = [0.0, 1.0, 0.0, 0.0, 0.0, 1.0, 0.0, 0.0, 0.0];
    assert_eq!(on(Entry::Real, &spoiled, 1), refused(9, 2, 1));
    assert_eq!(on(Entry::Complex, &spoiled, 1), refused(9, 2, 1));
}

#[test]
fn tolerances_at_their_edges() {
    let at = |tolerance: f64| {
        let mut call = Call::new(Entry::Decompose, 2, &J);
        call.tolerance = tolerance.to_bits();
        ruled(&call)
    };
    for fine in [0.0, -0.0, f64::from_bits(1), 1.0 - f64::EPSILON / 2.0] {
        assert_eq!(at(fine), Answer::Accepted(0), "{fine:e}");
    }
    for wrong in [1.0, -f64::from_bits(1), f64::NAN, -f64::NAN, f64::INFINITY] {
        assert_eq!(at(wrong), refused(4, 0, 0), "{wrong:e}");
    }
}

/// The first place is told column by column; zeros of either sign spoil nothing.
#[test]
fn places_are_told_column_by_column() {
    let spoiled = |below: &[(usize, usize)]| {
        let mut t = [-0.0; 16];
        below
            .iter()
            .for_each(|(row, col)| t[row + col * 4] = 1e-320);
        spoils(&t, 4).map(|entry| (entry % 4, entry / 4))
    };
    assert_eq!(spoiled(&[]), None);
    assert_eq!(spoiled(&[(1, 0), (3, 2)]), None);
    assert_eq!(spoiled(&[(1, 0), (2, 1)]), Some((2, 1)));
    assert_eq!(spoiled(&[(3, 1), (2, 0)]), Some((2, 0)));
    assert_eq!(spoiled(&[(1, 0), (3, 0), (2, 1)]), Some((3, 0)));
    assert_eq!(spoiled(&[(2, 1), (3, 2)]), Some((3, 2)));
}

/// T is looked at first, then Q, then T's shape. No run is known in which Q is not finite and T, up to
/// that place, is; so this is tried here and not in a run.
#[test]
fn t_then_q_then_the_shape() {
    let fine = [0.0; 9];
    let with = |entry: usize, x: f64| {
        let mut numbers = fine;
        numbers[entry] = x;
        numbers
    };
    let told = |t: [f64; 9], q: &[f64]| after_the_run(3, &t, q).err().map(Answer::Refused);
    let (nan, inf) = (f64::NAN, f64::INFINITY);
    assert_eq!(told(fine, &fine), None);
    assert_eq!(told(with(4, inf), &with(0, nan)), Some(refused(8, 1, 1)));
    assert_eq!(told(fine, &with(7, nan)), Some(refused(8, 1, 2)));
    assert_eq!(told(with(2, 1.0), &with(7, nan)), Some(refused(8, 1, 2)));
    assert_eq!(told(with(2, 1.0), &[]), Some(refused(9, 2, 0)));
    assert_eq!(told(with(2, nan), &[]), Some(refused(8, 2, 0)));
}

#[test]
fn pairs_at_their_edges() {
    let complex = |t: &[f64]| on(Entry::Complex, t, 1);
    // Discriminant above 0, NaN, minus infinity; a real part beyond the numbers.
    assert_eq!(complex(&two(J, [1.0, 1.0, 1.0, 1.0])), refused(11, 2, 2));
    assert_eq!(
        complex(&two(J, [5e299, 1e300, -1e300, -5e299])),
        refused(11, 2, 2)
    );
    assert_eq!(
        complex(&two(J, [0.0, 1e200, -1e200, 0.0])),
        refused(8, 2, 2)
    );
    let far = [f64::MAX, 1.0, -1.0, f64::MAX];
    assert_eq!(complex(&two(far, J)), refused(8, 0, 0));
    // 11 of a later block comes before 8 of an earlier one.
    assert_eq!(complex(&two(far, [1.0, 1.0, 1.0, 1.0])), refused(11, 2, 2));
    let values = |t: &[f64]| {
        let call = Call::new(Entry::Complex, t.len().isqrt(), t);
        let after = Judge::default().rule(&call, 0).after;
        after.map(|after| match after {
            After::Numbers(numbers) => numbers.iter().map(|x| x.to_bits()).collect(),
            _ => Vec::new(),
        })
    };
    let minus = 1 << 63;
    // half = -0: the real parts are +0 and -0.
    let [re, im] = values(&[-0.0, 1.0, -1.0, -0.0]);
    assert_eq!(
        (re, im),
        (vec![0, minus], vec![1f64.to_bits(), (-1f64).to_bits()])
    );
    // The discriminant is +0: both imaginary parts are +0.
    let [re, im] = values(&[3.0, 1e-200, -1e-200, 3.0]);
    assert_eq!((re, im), (vec![3f64.to_bits(); 2], vec![0, 0]));
}

/// On the T of a run the crate's reader and ours, block by block, say the same.
#[test]
fn both_sources_of_the_readers_agree() {
    let mut random = Random::stream(1, 0);
    let (mut pairs, mut nan) = (0, 0);
    for number in 0..20_000 {
        let case = Case::draw(&mut random, &FAMILIES[number % FAMILIES.len()], 1..=8);
        let Case { order, entries, .. } = &case;
        let Some(run) = crate_side::run(*order, entries, case.tolerance, case.budget as usize)
        else {
            continue;
        };
        if after_the_run(*order, &run.t, &[]).is_err() {
            continue;
        }
        assert_eq!(run.real(), readers::diagonal(*order, &run.t));
        let bits = |values: Vec<(f64, f64)>| -> Vec<_> {
            let bits = |x: f64| if x.is_nan() { 1 } else { x.to_bits() };
            values
                .into_iter()
                .map(|(re, im)| (bits(re), bits(im)))
                .collect()
        };
        let crates = bits(run.complex());
        pairs += crates.iter().filter(|(_, im)| *im != 0).count();
        nan += crates.iter().filter(|(_, im)| *im == 1).count();
        assert_eq!(crates, bits(readers::by_blocks(*order, &run.t)));
    }
    assert!(pairs > 1000 && nan > 10, "{pairs} {nan}");
}

/// What ours tells shortens the search and changes nothing.
#[test]
fn a_wrong_count_is_not_taken() {
    let mut random = Random::stream(2, 0);
    let mut counted = 0;
    for number in 0..500 {
        let case = Case::draw(&mut random, &FAMILIES[number % FAMILIES.len()], 3..=8);
        let Case { order, entries, .. } = &case;
        let mut call = Call::new(Entry::Decompose, *order, entries);
        (call.tolerance, call.budget) = (case.tolerance.to_bits(), case.budget);
        let right = crate_side::passes(*order, entries, case.tolerance, case.budget as usize);
        for told in [0, 1, 2, 7, right.unwrap_or(3) as u64, u64::MAX] {
            let Answer::Accepted(count) = Judge::default().rule(&call, told).answer else {
                continue;
            };
            assert_eq!(Some(count as usize), right);
            counted += 1;
        }
    }
    assert!(counted > 1000, "{counted}");
}

/// The library is lent a workspace, whose length is checked with the others; a run leaves +0 in it.
#[test]
fn workspaces() {
    let told = |call: &Call, work| {
        let (answer, after) = Judge::default().rule_library(call, work);
        let held = after.map(|after| match after {
            After::Untouched => None,
            After::Nan => Some(f64::NAN),
            After::Numbers(numbers) => numbers.last().copied(),
        });
        (answer, held)
    };
    let mut call = Call::new(Entry::Decompose, 2, &J);
    let (t, q, work) = (Some(0.0), Some(1.0), Some(0.0));
    assert_eq!(told(&call, 4), (Answer::Accepted(0), [t, q, work]));
    assert_eq!(told(&call, 3), (refused(3, 0, 0), [None; 3]));
    call.budget = 0;
    assert_eq!(told(&call, 4), (refused(5, 0, 0), [None; 3]));
    assert_eq!(told(&call, 5), (refused(3, 0, 0), [None; 3]));
    let call = Call::new(Entry::Plain, 2, &J);
    assert_eq!(told(&call, 4), (refused(10, 0, 0), [None, work, None]));
    let call = Call::new(Entry::Plain, 65, &[0.0; 65 * 65]);
    assert_eq!(told(&call, 0), (refused(2, 0, 0), [None; 3]));
    // The readers have none.
    let call = Call::new(Entry::Real, 1, &[5.0]);
    assert_eq!(
        told(&call, 0),
        (Answer::Accepted(0), [Some(5.0), None, None])
    );
}
