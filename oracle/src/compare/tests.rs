//! That the right side is found right, and each wrong one wrong.

use super::*;
use crate::crate_side;
use crate::door::NAN;
use crate::model::{self, Run};

const MODEL: Side = Side {
    decompose: model_side::decompose,
    eigenvalues: model_side::eigenvalues,
    complex_eigenvalues: model_side::complex_eigenvalues,
    plain_eigenvalues: model_side::plain_eigenvalues,
};

fn options() -> Options {
    Options {
        small: 3000,
        large: 0,
        seed: 1,
        file: None,
    }
}

/// On families, on witnesses, on T's and on calls with faults.
fn mismatches(side: &Side) -> [usize; 4] {
    let options = options();
    let families = of_families(side, &options).into_iter().reduce(Tally::and);
    let all = [
        families.unwrap(),
        of_cases(side, &witnesses::cases()),
        of_shapes(side, &options),
        of_faults(side, &options),
    ];
    all.map(|tally| tally.mismatches)
}

#[test]
fn the_model_is_right() {
    assert_eq!(mismatches(&MODEL), [0; 4]);
    let kept = of_cases(&MODEL, &witnesses::cases());
    assert!(kept.accepted > 0 && kept.budget > 0 && kept.accepted + kept.budget < kept.tried);
}

/// Each number that can occur does so among the calls with faults alone, so it does in every run.
#[test]
fn every_number_is_reached() {
    let options = Options {
        small: 0,
        ..options()
    };
    let tally = of_faults(&MODEL, &options);
    assert_eq!(tally.reached.missing(), []);
}

/// A side whose decomposition is wrong.
fn decomposes(decompose: side::Decompose) -> Side {
    Side { decompose, ..MODEL }
}

fn number(answer: u64) -> u64 {
    answer >> 32
}

/// Whether any of the four kinds of calls finds so many mismatches.
fn found(side: Side, least: usize) {
    let mismatches = mismatches(&side);
    assert!(
        mismatches.iter().any(|&count| count >= least),
        "{mismatches:?}"
    );
}

#[test]
fn zeros_after_a_run_are_found() {
    found(
        decomposes(|n, m, tolerance, budget, wanted, t, q| {
            let answer = (MODEL.decompose)(n, m, tolerance, budget, wanted, t, q);
            if number(answer) >= 7 {
                t.fill(0);
            }
            answer
        }),
        100,
    );
}

#[test]
fn another_nan_is_found() {
    found(
        decomposes(|n, m, tolerance, budget, wanted, t, q| {
            let answer = (MODEL.decompose)(n, m, tolerance, budget, wanted, t, q);
            if number(answer) >= 7 && wanted != 0 {
                let last = q.len() - 8;
                q[last..].copy_from_slice(&(NAN | 1).to_le_bytes());
            }
            answer
        }),
        100,
    );
}

#[test]
fn checks_in_another_order_are_found() {
    // 5 before 4.
    found(
        decomposes(|n, m, tolerance, budget, wanted, t, q| {
            let answer = (MODEL.decompose)(n, m, tolerance, budget, wanted, t, q);
            match number(answer) == 4 && !(1..=1_000_000).contains(&budget) {
                true => 5 << 32,
                false => answer,
            }
        }),
        5,
    );
    // The shape before what is not finite.
    found(
        Side {
            complex_eigenvalues: |n, t, re, im| {
                let answer = (MODEL.complex_eigenvalues)(n, t, re, im);
                let mut finite = t.to_vec();
                for eight in finite.chunks_exact_mut(8) {
                    if !f64::from_le_bytes(eight.try_into().unwrap()).is_finite() {
                        eight.fill(0);
                    }
                }
                match number(answer) {
                    6 => match (MODEL.complex_eigenvalues)(
                        n,
                        &finite,
                        &mut vec![0; 8 * n],
                        &mut vec![0; 8 * n],
                    ) {
                        nine if number(nine) == 9 => nine,
                        _ => answer,
                    },
                    _ => answer,
                }
            },
            ..MODEL
        },
        5,
    );
}

/// Few of the calls have two entries at fault of which the second stands in an earlier row: it takes more calls.
#[test]
fn a_place_told_row_by_row_is_found() {
    let side = decomposes(|n, m, tolerance, budget, wanted, t, q| {
        let answer = (MODEL.decompose)(n, m, tolerance, budget, wanted, t, q);
        if number(answer) != 6 {
            return answer;
        }
        let bad = |entry: usize| {
            let eight = m[8 * entry..8 * entry + 8].try_into().unwrap();
            !f64::from_le_bytes(eight).is_finite()
        };
        let entries = (0..n).flat_map(|row| (0..n).map(move |col| (row, col)));
        let (row, col) = entries
            .into_iter()
            .find(|(row, col)| bad(row + col * n))
            .unwrap();
        (6 << 32) + ((row as u64) << 16) + col as u64
    });
    let options = Options {
        small: 15_000,
        ..options()
    };
    let mismatches = of_faults(&side, &options).mismatches;
    assert!(mismatches >= 5, "{mismatches}");
}

/// A side that looks for 8 in Q before it looks in T answers as the right one does on every run that is
/// known: Q is not finite only at order 2, where the cosine is NaN, and then both begin with NaN. So the
/// order is tried on the judge alone (`t_then_q_then_the_shape`). If this fails, there is a matrix for it.
#[test]
fn where_q_is_not_finite_t_is_so_at_the_same_place() {
    let mut random = Random::stream(3, 0);
    let first = |numbers: &[f64]| numbers.iter().position(|x| !x.is_finite());
    let mut seen = 0;
    for number in 0..60_000 {
        let family = &FAMILIES[number % FAMILIES.len()];
        let case = Case::draw(&mut random, family, 2..=6);
        let Case { order, entries, .. } = &case;
        let Run::Done { t, q, .. } =
            model::schur(entries, *order, case.tolerance, case.budget, true)
        else {
            continue;
        };
        if let Some(place) = first(&q) {
            seen += 1;
            assert_eq!((*order, Some(place)), (2, first(&t)), "{}", case.line());
        }
    }
    assert!(seen > 100, "{seen}");
}

#[test]
fn a_reader_that_takes_minus_zero_for_a_block_is_found() {
    found(
        Side {
            eigenvalues: |n, t, values| {
                let before = values.to_vec();
                let answer = (MODEL.eigenvalues)(n, t, values);
                let below = |k: usize| &t[8 * (k + 1 + k * n)..][..8];
                let minus = (-0.0f64).to_le_bytes();
                if answer == 0 && (0..n - 1).any(|k| below(k) == minus) {
                    values.copy_from_slice(&before);
                    return 10 << 32;
                }
                answer
            },
            ..MODEL
        },
        100,
    );
}

#[test]
fn half_without_plus_zero_is_found() {
    found(
        Side {
            complex_eigenvalues: |n, t, re, im| {
                let answer = (MODEL.complex_eigenvalues)(n, t, re, im);
                let minus = (-0.0f64).to_le_bytes();
                for k in 0..if answer == 0 { n - 1 } else { 0 } {
                    // The first of a pair with the second one's real part.
                    let pair = im[8 * k..8 * k + 8] != [0; 8];
                    if pair && re[8 * k..8 * k + 8] == [0; 8] && re[8 * k + 8..8 * k + 16] == minus
                    {
                        re[8 * k..8 * k + 8].copy_from_slice(&minus);
                    }
                }
                answer
            },
            ..MODEL
        },
        50,
    );
}

#[test]
fn what_must_not_be_touched_is_looked_at() {
    // A refusal before the run.
    found(
        decomposes(|n, m, tolerance, budget, wanted, t, q| {
            let answer = (MODEL.decompose)(n, m, tolerance, budget, wanted, t, q);
            if let (1..=6, Some(last)) = (number(answer), t.last_mut()) {
                *last ^= 1;
            }
            answer
        }),
        100,
    );
    // A Q that is not wanted.
    found(
        decomposes(|n, m, tolerance, budget, wanted, t, q| {
            let answer = (MODEL.decompose)(n, m, tolerance, budget, wanted, t, q);
            if let (0, Some(first)) = (wanted, q.first_mut()) {
                *first ^= 1;
            }
            answer
        }),
        100,
    );
    // A reader's list, after a refusal.
    found(
        Side {
            plain_eigenvalues: |n, m, values| {
                let answer = (MODEL.plain_eigenvalues)(n, m, values);
                if let (10, Some(first)) = (number(answer), values.first_mut()) {
                    *first ^= 1;
                }
                answer
            },
            ..MODEL
        },
        100,
    );
}

/// A number by its eight bytes becomes another, where `which` says so.
fn change(bytes: &mut [u8], which: fn(u64) -> Option<u64>) {
    for eight in bytes.chunks_exact_mut(8) {
        let pattern = u64::from_le_bytes(eight[..].try_into().unwrap());
        if let Some(other) = which(pattern) {
            eight.copy_from_slice(&other.to_le_bytes());
        }
    }
}

/// What would not be seen on memory that holds zeros, or one number throughout.
#[test]
fn lent_patterns_show_what_zeros_would_hide() {
    // Only what is not +0 is written: right if zeros are lent.
    found(
        decomposes(|n, m, tolerance, budget, wanted, t, q| {
            let before = t.to_vec();
            let answer = (MODEL.decompose)(n, m, tolerance, budget, wanted, t, q);
            for (eight, was) in t.chunks_exact_mut(8).zip(before.chunks_exact(8)) {
                if *eight == [0; 8] {
                    eight.copy_from_slice(was);
                }
            }
            answer
        }),
        100,
    );
    // The same of a list.
    found(
        Side {
            complex_eigenvalues: |n, t, re, im| {
                let before = im.to_vec();
                let answer = (MODEL.complex_eigenvalues)(n, t, re, im);
                for (eight, was) in im.chunks_exact_mut(8).zip(before.chunks_exact(8)) {
                    if *eight == [0; 8] {
                        eight.copy_from_slice(was);
                    }
                }
                answer
            },
            ..MODEL
        },
        100,
    );
    // After a refused run what is no NaN becomes one, and a NaN is left as it is.
    found(
        decomposes(|n, m, tolerance, budget, wanted, t, q| {
            let before = t.to_vec();
            let answer = (MODEL.decompose)(n, m, tolerance, budget, wanted, t, q);
            let eights = t.chunks_exact_mut(8).zip(before.chunks_exact(8));
            for (eight, was) in eights.filter(|_| number(answer) >= 7) {
                if f64::from_le_bytes(was.try_into().unwrap()).is_nan() {
                    eight.copy_from_slice(was);
                }
            }
            answer
        }),
        100,
    );
    // A refusal before the run goes over T as floats: a NaN that signals comes back quiet.
    found(
        decomposes(|n, m, tolerance, budget, wanted, t, q| {
            let answer = (MODEL.decompose)(n, m, tolerance, budget, wanted, t, q);
            if (1..=6).contains(&number(answer)) {
                change(t, |x| f64::from_bits(x).is_nan().then_some(x | 1 << 51));
            }
            answer
        }),
        100,
    );
    // The same by sums: -0 comes back as +0 in a Q that is not wanted.
    found(
        decomposes(|n, m, tolerance, budget, wanted, t, q| {
            if wanted == 0 {
                change(q, |x| (x == 1 << 63).then_some(0));
            }
            (MODEL.decompose)(n, m, tolerance, budget, wanted, t, q)
        }),
        100,
    );
    // Subnormal numbers come back as zeros, in the list of a reader that refuses.
    found(
        Side {
            eigenvalues: |n, t, values| {
                let answer = (MODEL.eigenvalues)(n, t, values);
                if answer != 0 {
                    let zero = |x: u64| f64::from_bits(x).is_subnormal().then_some(x & 1 << 63);
                    change(values, zero);
                }
                answer
            },
            ..MODEL
        },
        100,
    );
    // An infinite number in the list of the plain entry becomes the largest.
    found(
        Side {
            plain_eigenvalues: |n, m, values| {
                let answer = (MODEL.plain_eigenvalues)(n, m, values);
                if answer != 0 {
                    change(values, |x| f64::from_bits(x).is_infinite().then_some(x - 1));
                }
                answer
            },
            ..MODEL
        },
        100,
    );
}

#[test]
fn counts_and_budgets_are_looked_at() {
    // Counts the pass that ends the run.
    found(
        decomposes(|n, m, tolerance, budget, wanted, t, q| {
            let answer = (MODEL.decompose)(n, m, tolerance, budget, wanted, t, q);
            answer + (number(answer) == 0) as u64
        }),
        100,
    );
    // Accepts when the last window closes on the last pass.
    found(
        decomposes(|n, m, tolerance, budget, wanted, t, q| {
            let more = if budget < 1_000_000 {
                budget + 1
            } else {
                budget
            };
            match budget {
                0 => (MODEL.decompose)(n, m, tolerance, budget, wanted, t, q),
                _ => (MODEL.decompose)(n, m, tolerance, more, wanted, t, q),
            }
        }),
        100,
    );
    // Refuses all.
    found(decomposes(|_, _, _, _, _, _, _| 7 << 32), 100);
}

#[test]
fn bits_are_looked_at() {
    // Another T if Q is wanted.
    found(
        decomposes(|n, m, tolerance, budget, wanted, t, q| {
            let answer = (MODEL.decompose)(n, m, tolerance, budget, wanted, t, q);
            if number(answer) == 0 && wanted != 0 {
                let last = t.len() - 8;
                t[last] ^= 1;
            }
            answer
        }),
        100,
    );
    // No -0 in T.
    found(
        decomposes(|n, m, tolerance, budget, wanted, t, q| {
            let answer = (MODEL.decompose)(n, m, tolerance, budget, wanted, t, q);
            let eights = if number(answer) == 0 { t } else { &mut [][..] };
            for eight in eights.chunks_exact_mut(8) {
                if *eight == (-0.0f64).to_le_bytes() {
                    eight.fill(0);
                }
            }
            answer
        }),
        30,
    );
}

/// The judge's count is that of a search.
#[test]
fn the_pinned_count_is_that_of_a_search() {
    let mut random = Random::stream(1, 0);
    let mut ended = 0;
    for number in 0..2000 {
        let family = &FAMILIES[number % FAMILIES.len()];
        let case = Case::draw(&mut random, family, SMALL);
        let Case {
            order,
            entries,
            tolerance,
            budget,
        } = &case;
        let search = crate_side::passes(*order, entries, *tolerance, *budget as usize);
        let checked = check(&MODEL, &case, &mut random);
        assert_eq!(checked.wrong, None);
        assert_eq!(checked.number == 7, search.is_none());
        if let Run::Done { passes, .. } = model::schur(entries, *order, *tolerance, *budget, false)
        {
            ended += 1;
            assert_eq!(search, Some(passes as usize));
        }
    }
    assert!(ended > 1000);
}

/// What is odd about a run comes up by itself.
#[test]
fn odd_outcomes_come_up() {
    let mut random = Random::stream(1, 0);
    let mut seen = [0; 5];
    for number in 0..20_000 {
        let case = Case::draw(&mut random, &FAMILIES[number % FAMILIES.len()], SMALL);
        let n = case.order;
        match model::schur(&case.entries, n, case.tolerance, case.budget, false) {
            Run::Done { t, passes, .. } => {
                let below = |c: usize| &t[(c + 2).min(n) + c * n..n + c * n];
                let bulge = (0..n).any(|column| below(column).iter().any(|&x| x != 0.0));
                seen[0] += t.iter().any(|x| !x.is_finite()) as usize;
                seen[1] += t.iter().any(|x| x.to_bits() == 1 << 63) as usize;
                seen[2] += bulge as usize;
                seen[3] += (n > 2 && passes == 0) as usize;
            }
            Run::Budget { .. } => seen[4] += (case.budget > 100) as usize,
        }
    }
    assert!(seen.iter().all(|&count| count > 50), "{seen:?}");
}
