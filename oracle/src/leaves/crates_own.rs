//! The plain functions that the table is made with, held to the crate's own on random numbers: those that
//! `bench` does not reach through our library. Bits are compared; any NaN is as any other.

use super::plain;
use crate::door::one_nan;
use crate::model;
use crate::numbers::{between, list};
use crate::random::Random;
use nalgebra::linalg::givens::GivensRotation;
use nalgebra::linalg::householder;
use nalgebra::{Const, DMatrix, DVector, Dyn, Reflection, SVector, Unit, Vector2};

/// What the plain function gives, and what the crate's.
type Both = (Vec<f64>, Vec<f64>);

const CHECKS: [(&str, fn(&mut Random) -> Both); 13] = [
    ("dot, norms, normalize of two", small_sums::<2>),
    ("dot, norms, normalize of three", small_sums::<3>),
    ("dot, norms, normalize of a run-time length", sums),
    ("camax", camax),
    ("scale_mut, unscale_mut, fill", scalings),
    ("axis of two", axis::<2>),
    ("axis of three", axis::<3>),
    ("columns by an axis of two", columns::<2>),
    ("columns by an axis of three", columns::<3>),
    ("rows by an axis of two", rows::<2>),
    ("rows by an axis of three", rows::<3>),
    ("try_new", try_new),
    ("new, cancel_y", new_and_cancel),
];

/// So many calls of each: how many differ.
pub fn compare(seed: u64, calls: usize) -> usize {
    let mut differences = 0;
    for (number, (name, both)) in CHECKS.iter().enumerate() {
        let mut random = Random::stream(seed, number as u64);
        for _ in 0..calls {
            let (plain, own) = both(&mut random);
            if bits(&plain) != bits(&own) {
                differences += 1;
                println!("{name}: plain {plain:?}, the crate's {own:?}");
            }
        }
    }
    println!(
        "the plain functions against the crate's own: {} calls, {differences} differences, seed {seed:016x}",
        CHECKS.len() * calls
    );
    differences
}

fn bits(numbers: &[f64]) -> Vec<u64> {
    numbers.iter().map(|&x| one_nan(x)).collect()
}

/// A sign as the decomposition has it, or any number but 0: there the crate does not read what it reflects
/// (docs/DIFFERENCES.md).
fn sign(random: &mut Random) -> f64 {
    let any = list(random, 1)[0];
    match random.below(4) {
        0 | 1 => 1.0,
        2 => -1.0,
        _ if any == 0.0 => 1.0,
        _ => any,
    }
}

fn small_sums<const N: usize>(random: &mut Random) -> Both {
    let (v, w) = (list(random, N), list(random, N));
    let (x, y) = (
        SVector::<f64, N>::from_column_slice(&v),
        SVector::<f64, N>::from_column_slice(&w),
    );
    let mut plain = vec![
        model::dot_small(&v, &w),
        plain::norm_squared(&v, true),
        plain::norm(&v, true),
    ];
    let mut own = vec![x.dotc(&y), x.norm_squared(), x.norm()];
    let (mut v, mut x) = (v, x);
    plain::normalize(&mut v, true);
    x.normalize_mut();
    plain.extend(v);
    own.extend(x.iter());
    (plain, own)
}

fn sums(random: &mut Random) -> Both {
    let length = between(random, 0, 20);
    let (v, w) = (list(random, length), list(random, length));
    let (x, y) = (DVector::from_vec(v.clone()), DVector::from_vec(w.clone()));
    let mut plain = vec![
        plain::dot(&v, &w),
        plain::norm_squared(&v, false),
        plain::norm(&v, false),
    ];
    let mut own = vec![x.dotc(&y), x.norm_squared(), x.norm()];
    let (mut v, mut x) = (v, x);
    plain::normalize(&mut v, false);
    x.normalize_mut();
    plain.extend(v);
    own.extend(x.iter());
    (plain, own)
}

fn camax(random: &mut Random) -> Both {
    let length = between(random, 1, 20);
    let v = list(random, length);
    (vec![plain::camax(&v)], vec![DVector::from_vec(v).camax()])
}

fn scalings(random: &mut Random) -> Both {
    let length = between(random, 0, 20);
    let (v, factor) = (list(random, length), list(random, 1)[0]);
    let (mut scaled, mut unscaled) = (v.clone(), v.clone());
    plain::scale(&mut scaled, factor);
    plain::unscale(&mut unscaled, factor);
    let x = DVector::from_vec(v);
    let (mut times, mut over, mut same) = (x.clone(), x.clone(), x);
    times.scale_mut(factor);
    over.unscale_mut(factor);
    same.fill(factor);
    let plain = [scaled, unscaled, vec![factor; length]].concat();
    let own = [times.as_slice(), over.as_slice(), same.as_slice()].concat();
    (plain, own)
}

/// An order, at least so large, and the entries of a matrix of it.
fn matrix(random: &mut Random, least: usize) -> (usize, Vec<f64>) {
    let n = between(random, least, 7);
    (n, list(random, n * n))
}

fn axis<const N: usize>(random: &mut Random) -> Both {
    let v = list(random, N);
    let (mut plain, mut own) = (v.clone(), SVector::<f64, N>::from_column_slice(&v));
    let (norm, reflected) = plain::axis(&mut plain, true);
    let (own_norm, own_reflected) = householder::reflection_axis_mut(&mut own);
    plain.extend([norm, f64::from(reflected)]);
    let mut own = own.as_slice().to_vec();
    own.extend([own_norm, f64::from(own_reflected)]);
    (plain, own)
}

fn columns<const N: usize>(random: &mut Random) -> Both {
    let (n, mut t) = matrix(random, N);
    let row = between(random, 0, n - N);
    let c1 = between(random, 0, n);
    let c0 = between(random, 0, c1);
    let (a, sign) = (list(random, N), sign(random));
    let mut own = DMatrix::from_vec(n, n, t.clone());
    model::reflect_cols(&mut t, n, &a, row, c0, c1, sign, true);
    let axis = SVector::<f64, N>::from_column_slice(&a);
    Reflection::new(Unit::new_unchecked(axis), 0.0).reflect_with_sign(
        &mut own.generic_view_mut((row, c0), (Const::<N>, Dyn(c1 - c0))),
        sign,
    );
    (t, own.as_slice().to_vec())
}

fn rows<const N: usize>(random: &mut Random) -> Both {
    let (n, mut t) = matrix(random, N);
    let (rows, c0) = (between(random, 1, n), between(random, 0, n - N));
    let (a, sign) = (list(random, N), sign(random));
    let mut own = DMatrix::from_vec(n, n, t.clone());
    model::reflect_rows(&mut t, n, &a, rows, c0, sign, &mut vec![0.0; rows]);
    let axis = SVector::<f64, N>::from_column_slice(&a);
    Reflection::new(Unit::new_unchecked(axis), 0.0).reflect_rows_with_sign(
        &mut own.generic_view_mut((0, c0), (Dyn(rows), Const::<N>)),
        &mut DVector::zeros(rows),
        sign,
    );
    (t, own.as_slice().to_vec())
}

/// Cosine, sine and norm, or nothing.
fn told(made: Option<(GivensRotation<f64>, f64)>) -> Vec<f64> {
    made.map_or(vec![], |(turn, norm)| vec![turn.c(), turn.s(), norm])
}

fn try_new(random: &mut Random) -> Both {
    let v = list(random, 2);
    let eps = [0.0, 0.5, list(random, 1)[0]][random.below(3) as usize];
    let plain = plain::try_new(v[0], v[1], eps).map_or(vec![], |(c, s, norm)| vec![c, s, norm]);
    (plain, told(GivensRotation::try_new(v[0], v[1], eps)))
}

fn new_and_cancel(random: &mut Random) -> Both {
    let v = list(random, 2);
    let (c, s, norm) = plain::new(v[0], v[1]);
    let cancel = plain::cancel_y(v[0], v[1]).map_or(vec![], |(c, s, norm)| vec![c, s, norm]);
    let own_cancel = told(GivensRotation::cancel_y(&Vector2::new(v[0], v[1])));
    (
        [vec![c, s, norm], cancel].concat(),
        [told(Some(GivensRotation::new(v[0], v[1]))), own_cancel].concat(),
    )
}
