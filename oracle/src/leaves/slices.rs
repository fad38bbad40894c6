//! The functions on a slice of any length.

use super::draw::{drawn, many};
use super::plain;
use super::say::{numbers, told};

pub fn answer(name: &str, wholes: &[usize]) -> Option<String> {
    match *wholes {
        [len, other_len, seed, other] => {
            of_two(name, &mut many(len, seed)?, &many(other_len, other)?)
        }
        [len, seed] => of_one(name, &mut many(len, seed)?, drawn(seed, len)),
        _ => None,
    }
}

/// A product, or what the first becomes.
fn of_two(name: &str, x: &mut [f64], y: &[f64]) -> Option<String> {
    match name {
        "dot" => return Some(numbers(&[plain::dot(x, y)])),
        // What is too long is not copied.
        "copy_from" => {
            if let Some(front) = x.get_mut(..y.len()) {
                front.copy_from_slice(y);
            }
        }
        _ => return None,
    }
    Some(numbers(x))
}

/// A sum, or what the slice becomes; `next` is the number that would come next.
fn of_one(name: &str, x: &mut [f64], next: f64) -> Option<String> {
    match name {
        "norm_squared" => return Some(numbers(&[plain::norm_squared(x, false)])),
        "norm" => return Some(numbers(&[plain::norm(x, false)])),
        "camax" => return Some(numbers(&[plain::camax(x)])),
        "normalize_mut" => plain::normalize(x, false),
        "scale_mut" => plain::scale(x, next),
        "unscale_mut" => plain::unscale(x, next),
        "fill" => x.fill(next),
        "reflection_axis_mut" => {
            let (norm, reflected) = plain::axis(x, false);
            return Some(told(norm, reflected, x));
        }
        _ => return None,
    }
    Some(numbers(x))
}
