//! Vectors of two and of three: slices of these lengths, with the sums of the static lengths.

use super::draw::{drawn, many};
use super::plain;
use super::say::{numbers, told};
use crate::model;

pub fn answer(name: &str, wholes: &[usize]) -> Option<String> {
    let &[seed] = wholes else {
        return None;
    };
    if let Some(size) = name.strip_prefix("reflection_axis") {
        let mut v = many(length(size)?, seed)?;
        let (norm, reflected) = model::axis(&mut v, true);
        return Some(told(norm, reflected, &v));
    }
    let (size, method) = name.strip_prefix("Vector")?.split_once("::")?;
    of_vector(method, many(length(size)?, seed)?, seed)
}

fn length(size: &str) -> Option<usize> {
    match size {
        "2" => Some(2),
        "3" => Some(3),
        _ => None,
    }
}

fn of_vector(method: &str, mut v: Vec<f64>, seed: usize) -> Option<String> {
    match method {
        "dot" => return Some(numbers(&[model::dot_small(&v, &many(v.len(), 16)?)])),
        "norm_squared" => return Some(numbers(&[plain::norm_squared(&v, true)])),
        "norm" => return Some(numbers(&[plain::norm(&v, true)])),
        "unscale" => plain::unscale(&mut v, drawn(seed, 3)),
        "normalize" => plain::normalize(&mut v, true),
        _ => return None,
    }
    Some(numbers(&v))
}
