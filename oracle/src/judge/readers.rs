//! What the readers must answer on a finite T.
//!
//! The crate has its readers on the T of a run alone, and there they answer. On any other T the complex
//! one is asked block by block: at order 2 the crate leaves a block standing whose discriminant is below
//! zero or NaN, and reads it. What is left for us is a block with a discriminant of zero or above.

use super::runs::Remembered;
use super::{at, spoils, without_place, Accepted, After, Refusal};
use crate::crate_side;

pub fn real(order: usize, t: &[f64], known: &Remembered) -> Result<Accepted, Refusal> {
    shape(order, t)?;
    let values = match known.with_t(t) {
        Some(run) => run.real(),
        None => diagonal(order, t),
    };
    let values = values.ok_or(without_place(10))?;
    Ok((0, [After::Numbers(values), After::Untouched]))
}

pub fn complex(order: usize, t: &[f64], known: &Remembered) -> Result<Accepted, Refusal> {
    shape(order, t)?;
    let values = match known.with_t(t) {
        Some(run) => run.complex(),
        None => by_blocks(order, t),
    };
    let first = |wrong: fn(&(f64, f64)) -> bool| values.iter().position(wrong);
    // The imaginary part is NaN exactly if the discriminant is above zero or NaN, and then that of the
    // whole pair is, so the first is the block's upper left entry.
    if let Some(k) = first(|(_, im)| im.is_nan()) {
        return Err(at(11, k + k * order, order));
    }
    if let Some(k) = first(|(re, im)| !(re.is_finite() && im.is_finite())) {
        return Err(at(8, k + k * order, order));
    }
    let (re, im) = values.into_iter().unzip();
    Ok((0, [After::Numbers(re), After::Numbers(im)]))
}

fn shape(order: usize, t: &[f64]) -> Result<(), Refusal> {
    match spoils(t, order) {
        Some(entry) => Err(at(9, entry, order)),
        None => Ok(()),
    }
}

/// The diagonal, if all entries just below it are zeros, of either sign.
pub fn diagonal(order: usize, t: &[f64]) -> Option<Vec<f64>> {
    let below = t.iter().skip(1).step_by(order + 1).take(order - 1);
    let all_zero = below.copied().all(|x| x == 0.0);
    all_zero.then(|| t.iter().copied().step_by(order + 1).collect())
}

pub fn by_blocks(order: usize, t: &[f64]) -> Vec<(f64, f64)> {
    let entry = |row: usize, col: usize| t[row + col * order];
    let mut values = Vec::new();
    while values.len() < order {
        let (k, next) = (values.len(), values.len() + 1);
        if next == order || entry(next, k) == 0.0 {
            values.push((entry(k, k), 0.0));
            continue;
        }
        let block = [
            entry(k, k),
            entry(next, k),
            entry(k, next),
            entry(next, next),
        ];
        values.extend(crate_side::standing_pair(&block).unwrap_or_else(|| rotated_pair(&block)));
    }
    values
}

/// The pair of a block that the crate would rotate: its discriminant is zero or above. The root of -0 is
/// -0, and 0 + -0 and 0 - -0 are both +0; the root of a number below 0 is NaN.
fn rotated_pair([a, below, above, d]: &[f64; 4]) -> Vec<(f64, f64)> {
    let val = (a - d) * 0.5;
    let im = if below * above + val * val > 0.0 {
        f64::NAN
    } else {
        0.0
    };
    let half = (d + a) * 0.5;
    vec![(half + 0.0, im), (half - 0.0, im)]
}
