//! Rotations.

use super::case::Case;
use super::draw::drawn;
use super::plain;
use super::say::numbers;
use crate::model;

fn made(rotation: Option<(f64, f64, f64)>) -> String {
    match rotation {
        Some((c, s, norm)) => numbers(&[c, s, norm]),
        None => " none".to_string(),
    }
}

pub fn answer(name: &str, wholes: &[usize]) -> Option<String> {
    let &[seed] = wholes else {
        return None;
    };
    let (x, y, eps) = (drawn(seed, 0), drawn(seed, 1), drawn(seed, 2).abs());
    match name {
        "Rotation::identity" => Some(numbers(&[1.0, 0.0])),
        "Rotation::new" => Some(made(Some(plain::new(x, y)))),
        "Rotation::try_new" => Some(made(plain::try_new(x, y, eps))),
        "Rotation::cancel_y" => Some(made(plain::cancel_y(y, x))),
        "Rotation::inverse" => Some(numbers(&[x, -y])),
        _ => None,
    }
}

pub fn rotate(name: &str, c: &Case, t: &mut [f64]) -> Option<()> {
    let (cosine, sine, _) = plain::new(drawn(c.other, 0), drawn(c.other, 1));
    match name {
        "rotate" if plain::fits(c.n, c.len, c.row, 2, 0, c.c1) => {
            model::turn_cols(t, c.n, cosine, sine, c.row, c.c0, c.c1);
        }
        "rotate_rows" if plain::fits(c.n, c.len, 0, c.rows, c.c0, 2) => {
            model::turn_rows(t, c.n, cosine, sine, c.rows, c.c0);
        }
        "rotate" | "rotate_rows" => {}
        _ => return None,
    }
    Some(())
}
