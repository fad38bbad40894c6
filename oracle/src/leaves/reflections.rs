//! Reflections by an axis that is a slice, that has three numbers, that has two.

use super::case::Case;
use super::draw::{drawn, many};
use super::plain;
use crate::model;

fn columns(c: &Case, t: &mut [f64], a: &[f64], sign: f64, small: bool) {
    if plain::fits(c.n, c.len, c.row, a.len(), 0, c.c1) {
        model::reflect_cols(t, c.n, a, c.row, c.c0, c.c1, sign, small);
    }
}

fn rows(c: &Case, t: &mut [f64], a: &[f64], sign: f64) {
    if plain::fits(c.n, c.len, 0, c.rows, c.c0, a.len()) && !a.is_empty() {
        model::reflect_rows(t, c.n, a, c.rows, c.c0, sign, &mut vec![0.0; c.rows]);
    }
}

/// The name's parts: `reflect`, `_rows` where it is by rows, 2 or 3 where the axis is no slice, `_with_sign`
/// where the sign is not 1.
pub fn reflect(name: &str, c: &Case, slice: &[f64], t: &mut [f64]) -> Option<()> {
    let (stem, sign) = match name.strip_suffix("_with_sign") {
        Some(stem) => (stem, model::signum(drawn(c.other, 9))),
        None => (name, 1.0),
    };
    let (two, three) = (many(2, c.other)?, many(3, c.other)?);
    match stem {
        "reflect" => columns(c, t, slice, sign, false),
        "reflect2" => columns(c, t, &two, sign, true),
        "reflect3" => columns(c, t, &three, sign, true),
        "reflect_rows" => rows(c, t, slice, sign),
        "reflect_rows2" => rows(c, t, &two, sign),
        "reflect_rows3" => rows(c, t, &three, sign),
        _ => return None,
    }
    Some(())
}
