//! The reasons for large figures that `docs/ACCURACY.md` names, each seen on its matrix.

use super::measure::{exponent_of_largest, residual, times, Sum};
use super::*;
use crate::model;
use crate::numbers::{ordinary, power};

/// What a figure is where nothing of the matrix is left.
fn all_lost(order: usize) -> f64 {
    1.0 / (order as f64 * f64::EPSILON)
}

/// A matrix by its rows, at the usual tolerance.
fn rows<const N: usize>(rows: [[f64; N]; N]) -> Case {
    Case {
        order: N,
        entries: (0..N * N).map(|k| rows[k % N][k / N]).collect(),
        tolerance: TOLERANCE,
        budget: 1000,
    }
}

fn scaled(case: &Case) -> Case {
    let entries = times(&case.entries, -exponent_of_largest(&case.entries));
    Case {
        entries,
        ..case.clone()
    }
}

/// The figures of the scaled matrix where what is below 2^-60 of its largest entry was set to 0 before the run; none
/// where that run reaches its budget.
fn tamed(case: &Case) -> Option<Figures> {
    let scaled = scaled(case);
    let entry = |x: &f64| if x.abs() < power(-60) { 0.0 } else { *x };
    let entries = scaled.entries.iter().map(entry).collect();
    let answer = door(&Case {
        entries,
        ..scaled.clone()
    });
    assert!(matches!(answer, Ok(_) | Err(7)));
    let (t, q) = answer.ok()?;
    Some(Figures::of(case.order, &scaled.entries, &t, &q))
}

/// Whether all of its figures are at most this, if it has any.
fn tamed_below(most: f64, case: &Case) -> bool {
    tamed(case).is_none_or(|figures| figures.largest() <= most)
}

fn run(case: &Case) -> (Vec<f64>, Vec<f64>, Figures) {
    let (t, q) = door(case).expect("accepted");
    let figures = Figures::of(case.order, &case.entries, &t, &q);
    (t, q, figures)
}

fn figures(case: &Case) -> Figures {
    run(case).2
}

fn family(name: &str) -> &'static Family {
    let found = FAMILIES.iter().find(|family| family.name == name);
    found.expect("a family of this name")
}

/// Order 2 is not scaled. The squares under the root overflow: cosine and sine are 0, and so are T and Q.
#[test]
fn order_2_products_overflow() {
    let item_m = rows([[1.0, 0.0], [power(700), 1.0]]);
    let (t, q, figures) = run(&item_m);
    assert_eq!((t, q), (vec![0.0; 4], vec![0.0; 4]));
    assert_eq!(figures.residual, all_lost(2));
    assert!(figures.loss > all_lost(2));
    assert_eq!(run(&scaled(&item_m)).2, Figures::default());
}

/// Or they vanish: there is no rotation, and the entry below the diagonal is set to 0 all the same. Or they are
/// subnormal, with few digits: cosine and sine are none.
#[test]
fn order_2_products_vanish() {
    let small =
        |exponent| rows([[1.0, 2.0], [3.0, 4.0]].map(|row| row.map(|x| x * power(exponent))));
    let (t, q, figures) = run(&small(-600));
    assert_eq!(t, [1.0, 0.0, 2.0, 4.0].map(|x| x * power(-600)));
    assert_eq!(q, [1.0, 0.0, -0.0, 1.0]);
    let lost = 3.0 / 30f64.sqrt() * all_lost(2);
    assert!((figures.residual / lost - 1.0).abs() < 1e-9);
    assert!(run(&scaled(&small(-600))).2.largest() < 5.0);
    let (_, q, figures) = run(&rows([[0.0, 0.0], [1.2 * power(-537), 0.0]]));
    assert_eq!(q[1], 1.2);
    assert!(figures.loss > 1e14);
}

/// Order 2 is not delimited. Where the root of the discriminant is lost beside the diagonal, both eigenvalues are
/// the diagonal's, and the block is turned by a right angle: what stood above the diagonal is set to 0.
#[test]
fn order_2_is_not_delimited() {
    let near = |entry| rows([[1.0, 1.0], [entry, 1.0]]);
    let (t, q, figures) = run(&near(power(-108)));
    assert_eq!(t, [1.0, 0.0, -power(-108), 1.0]);
    assert_eq!(q, [0.0, 1.0, -1.0, 0.0]);
    assert!((figures.residual / (all_lost(2) / 3f64.sqrt()) - 1.0).abs() < 1e-9);
    assert_eq!(figures.loss, 0.0);
    // One step larger, or 0, and all is well; and so it is at order 3, which is delimited.
    assert!(run(&near(power(-107))).2.largest() < 1.0);
    assert_eq!(run(&near(0.0)).2, Figures::default());
    let among_three = rows([[1.0, 1.0, 0.0], [power(-108), 1.0, 0.0], [0.0, 0.0, 1.0]]);
    assert!(run(&among_three).2.largest() < 1.0);
    // The squares may have few digits though the largest entry is 1, so scaling does not help.
    let steep = rows([[0.0, 1.0], [f64::from_bits(2048), power(-534)]]);
    assert_eq!(scaled(&steep).entries, steep.entries);
    assert!(run(&steep).2.loss > 1e9);
    assert!(tamed(&steep).unwrap().largest() < 1.0);
    assert!(tamed(&near(power(-108))).unwrap().largest() < 1.0);
}

/// The reduction's columns in which no reflection is made, and the signs with which Q is assembled.
fn reduced(case: &Case) -> (Vec<f64>, Vec<f64>, Vec<usize>) {
    let n = case.order;
    let largest = model::largest(&case.entries);
    let mut h: Vec<f64> = case.entries.iter().map(|x| x / largest).collect();
    let (mut signs, mut turned) = (Vec::new(), Vec::new());
    for k in 0..n - 1 {
        let mut axis = h[k + 1 + k * n..n + k * n].to_vec();
        let (norm, reflected) = model::axis(&mut axis, false);
        let sign = model::signum(norm);
        h[k + 1 + k * n..n + k * n].copy_from_slice(&axis);
        if reflected {
            model::reflect_rows(&mut h, n, &axis, n, k + 1, sign, &mut vec![0.0; n]);
            model::reflect_cols(&mut h, n, &axis, k + 1, k + 1, n, sign, false);
        } else if sign < 0.0 {
            turned.push(k);
        }
        signs.push(norm);
    }
    (h, signs, turned)
}

/// Columns too small to see, of which Q's rows are multiplied by -1.
fn turned(case: &Case) -> Vec<usize> {
    reduced(case).2
}

/// Q as it would be if these columns had the sign 1: the passes turn Q from the right, so what the reduction gave
/// can be taken off from the left and put back otherwise.
fn mended(case: &Case, q: &[f64]) -> Vec<f64> {
    let n = case.order;
    let (h, mut signs, turned) = reduced(case);
    let was = model::assemble_q(&h, n, &signs);
    turned.iter().for_each(|&k| signs[k] = 0.0);
    let right = model::assemble_q(&h, n, &signs);
    let passes = product(n, |row, k| was[k + row * n], q);
    product(n, |row, k| right[row + k * n], &passes)
}

fn product(n: usize, left: impl Fn(usize, usize) -> f64, right: &[f64]) -> Vec<f64> {
    let sum = |row, column: usize| (0..n).map(|k| left(row, k) * right[k + column * n]).sum();
    (0..n * n).map(|place| sum(place % n, place / n)).collect()
}

/// A column whose squares vanish, with a first entry below 0: T is right, and Q has the wrong sign in places.
#[test]
fn a_column_too_small_to_see_turns_q() {
    let entry = |x| rows([[1.0, 1.0, 0.0], [x, 2.0, 0.0], [0.0, 0.0, 3.0]]);
    let case = entry(-power(-600));
    let (t, q, found) = run(&case);
    assert_eq!(turned(&case), [0]);
    assert_eq!(t, [1.0, 0.0, 0.0, 1.0, 2.0, 0.0, 0.0, 0.0, 3.0]);
    assert_eq!(q, [1.0, 0.0, 0.0, 0.0, -1.0, 0.0, 0.0, 0.0, -1.0]);
    assert!((found.residual / (2.0 / 15f64.sqrt() * all_lost(3)) - 1.0).abs() < 1e-9);
    assert_eq!(found.loss, 0.0);
    // Not if it is above 0, or large enough to see.
    for other in [power(-600), -power(-530), 0.0] {
        assert!(turned(&entry(other)).is_empty());
        assert!(figures(&entry(other)).largest() < 1.0);
    }
}

/// A matrix of rank one, of small whole numbers: each column of the reduction leaves roundings below it, so the next
/// is about 2^-52 as large, and the eleventh is too small to see.
#[test]
fn rank_one_gets_too_small_by_itself() {
    let left = [
        -2.0, -3.0, -3.0, 1.0, 2.0, -1.0, 1.0, 1.0, -1.0, -4.0, 2.0, -2.0,
    ];
    let right = [
        3.0, -3.0, -3.0, 4.0, 1.0, 4.0, 3.0, -4.0, -2.0, -3.0, -4.0, -3.0,
    ];
    let case = rows(left.map(|x| right.map(|y| x * y)));
    let (t, q, found) = run(&case);
    assert_eq!(turned(&case), [10]);
    assert!(found.residual > 1e14 && found.loss < 10.0, "{found:?}");
    let good = Figures::of(12, &case.entries, &t, &mended(&case, &q));
    assert!(good.largest() < 10.0, "{good:?}");
}

/// The same at order 6, of 0, 1 and -1: its fifth column gets too small.
#[test]
fn order_6_of_zeros_and_ones() {
    let case = rows([
        [0.0, 0.0, 0.0, 0.0, 0.0, 0.0],
        [0.0, 0.0, 0.0, 0.0, 0.0, 0.0],
        [1.0, 0.0, 1.0, 0.0, 0.0, 0.0],
        [0.0, 0.0, 0.0, 0.0, 0.0, -1.0],
        [0.0, 0.0, 0.0, 1.0, 0.0, 0.0],
        [0.0, 1.0, 0.0, 0.0, 0.0, 0.0],
    ]);
    let (t, q, found) = run(&case);
    assert_eq!(turned(&case), [4]);
    // Two of five ones have the wrong sign.
    let lost = 2.0 / 5f64.sqrt() * all_lost(6);
    assert!((found.residual / lost - 1.0).abs() < 1e-9, "{found:?}");
    let good = Figures::of(6, &case.entries, &t, &mended(&case, &q));
    assert!(good.largest() < 10.0, "{good:?}");
}

/// At orders 3 and up every figure above the bound has one of two reasons: such a column, and then T is right and Q is
/// but for the sign; or T's last digits, where the entries are subnormal.
#[test]
fn large_figures_above_order_2_have_these_reasons() {
    let (mut columns, mut digits) = (0, 0);
    for (number, family) in FAMILIES.iter().enumerate() {
        for (group, count) in [(1, 400), (2, 200), (3, 60), (4, 10)] {
            let mut random = Random::stream(11, (100 * number + group) as u64);
            for _ in 0..count {
                let case = draw(&mut random, family, GROUPS[group], TOLERANCE);
                let Ok((t, q)) = door(&case) else { continue };
                let of = |q: &[f64]| Figures::of(case.order, &case.entries, &t, q);
                if of(&q).largest() <= BOUND {
                    continue;
                }
                if turned(&case).is_empty() {
                    digits += 1;
                    assert!(
                        model::largest(&case.entries) < power(-960),
                        "{}",
                        case.line()
                    );
                    assert!(
                        figures(&scaled(&case)).largest() <= BOUND,
                        "{}",
                        case.line()
                    );
                } else {
                    columns += 1;
                    assert!(of(&mended(&case, &q)).largest() <= BOUND, "{}", case.line());
                    // What the run itself makes small cannot be set to 0 before.
                    let itself = ["rank one", "sparse", "signed zeros"].contains(&family.name);
                    assert!(itself || tamed_below(BOUND, &case), "{}", case.line());
                }
            }
        }
    }
    assert!(columns > 100 && digits > 30, "{columns} {digits}");
}

/// At order 2 what is large is good once the matrix is scaled and its least entries are set to 0.
#[test]
fn taming_helps_order_2() {
    let (mut large, mut scaling) = (0, 0);
    for (number, family) in FAMILIES.iter().enumerate() {
        let mut random = Random::stream(12, number as u64);
        for _ in 0..4000 {
            let case = draw(&mut random, family, (2, 2), TOLERANCE);
            let found = door(&case).map(|_| figures(&case).largest());
            if found.is_ok_and(|figure| figure > BOUND) {
                large += 1;
                scaling += (figures(&scaled(&case)).largest() > 10.0) as usize;
                assert!(tamed_below(10.0, &case), "{}", case.line());
            }
        }
    }
    // Scaling alone does for most.
    assert!(
        large > 2000 && (1..50).contains(&scaling),
        "{large} {scaling}"
    );
}

/// T is rounded to whole multiples of 2^-1074: that of the scaled matrix, rounded so, is as far off.
#[test]
fn subnormal_results_have_few_digits() {
    let least = f64::from_bits(1);
    let case = rows(
        [[1.0, 2.0, 3.0], [4.0, 5.0, 6.0], [7.0, 8.0, 10.0]].map(|row| row.map(|x| x * least)),
    );
    assert!(figures(&case).residual > 1e13);
    assert!(figures(&scaled(&case)).largest() < 10.0);
    let (t, q, _) = run(&scaled(&case));
    let exponent = exponent_of_largest(&case.entries);
    let far = residual(3, &case.entries, &times(&t, exponent), &q);
    let found = figures(&case).residual * 3.0 * f64::EPSILON;
    assert!((0.3..3.0).contains(&(far / found)), "{far} {found}");
}

/// A larger tolerance leaves out what is below it.
#[test]
fn a_larger_tolerance_leaves_out_more() {
    let case = rows([[1.0, 1.0, 0.0], [1e-4, 2.0, 0.0], [0.0, 0.0, 3.0]]);
    assert!(figures(&case).largest() < 10.0);
    let case = Case {
        tolerance: 1e-3,
        ..case
    };
    let (t, q, _) = run(&case);
    let size = (15.0 + 1e-8f64).sqrt();
    assert!((residual(3, &case.entries, &t, &q) / (1e-4 / size) - 1.0).abs() < 1e-9);
}

/// The columns of Q get longer with every pass. An axis is divided by its length twice. After the first time the square
/// of its length is 1 on average; after the second it is above 1. A reflection by an axis that is too long lengthens.
#[test]
fn axes_are_too_long_on_average() {
    let mut random = Random::stream(13, 0);
    let count = 100_000;
    let mut mean = [0.0; 2];
    for _ in 0..count {
        let numbers = [0; 3].map(|_| ordinary(&mut random));
        let mut axis = numbers;
        model::axis(&mut axis, true);
        mean[0] += excess(&divided_once(numbers)) / count as f64;
        mean[1] += excess(&axis) / count as f64;
    }
    assert!(mean[0].abs() < 0.02, "{mean:?}");
    assert!((0.38..0.43).contains(&mean[1]), "{mean:?}");
    // The columns of Q are, at order 32 by about 0.7 eps a pass.
    let case = draw(&mut random, family("normal"), (32, 32), TOLERANCE);
    let run = Schur::try_new(32, &case.entries, TOLERANCE, 1000).expect("it ends");
    let mean = run.q().chunks(32).map(excess).sum::<f64>() / 32.0;
    let pass = mean / run.passes() as f64;
    assert!((0.6..0.9).contains(&pass), "{pass}");
}

/// `reflection_axis_mut` (docs/SUMS.md, 3.1) without the second division.
fn divided_once(mut c: [f64; 3]) -> [f64; 3] {
    let square = (c[0] * c[0] + c[1] * c[1]) + c[2] * c[2];
    let norm = square.sqrt();
    let factor = (square + c[0].abs() * norm) * 2.0;
    c[0] += norm.copysign(c[0]);
    c.map(|x| x / factor.sqrt())
}

/// The square of the length less 1, in eps.
fn excess(numbers: &[f64]) -> f64 {
    let mut sum = Sum::of((-1.0, 0.0));
    numbers.iter().for_each(|x| sum.add_product((*x, 0.0), *x));
    sum.value() / f64::EPSILON
}
