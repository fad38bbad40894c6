//! The plain model behind the door's arguments: a side that is right without the library. The wrong
//! sides of the tests are made of it.

use crate::model::{self, Run};

const NAN: u64 = 0x7ff8_0000_0000_0000;
const MOST: usize = 64;

fn numbers(bytes: &[u8]) -> Vec<f64> {
    let number = |eight: &[u8]| f64::from_le_bytes(eight.try_into().unwrap());
    bytes.chunks_exact(8).map(number).collect()
}

fn store(bytes: &mut [u8], numbers: &[f64]) {
    for (eight, x) in bytes.chunks_exact_mut(8).zip(numbers) {
        eight.copy_from_slice(&x.to_le_bytes());
    }
}

fn refused(number: u64, place: Option<usize>, n: usize) -> u64 {
    let (row, col) = place.map_or((0, 0), |place| (place % n, place / n));
    (number << 32) + ((row as u64) << 16) + col as u64
}

/// The checks 1, 2, 3 and 6, with what is to be tested between 3 and 6; then the numbers.
fn read(n: usize, bytes: &[u8], fits: bool, between: Option<u64>) -> Result<Vec<f64>, u64> {
    if n == 0 {
        return Err(refused(1, None, n));
    }
    if n > MOST {
        return Err(refused(2, None, n));
    }
    if bytes.len() != 8 * n * n || !fits {
        return Err(refused(3, None, n));
    }
    if let Some(number) = between {
        return Err(refused(number, None, n));
    }
    let numbers = numbers(bytes);
    match unfinite(&numbers) {
        Some(place) => Err(refused(6, Some(place), n)),
        None => Ok(numbers),
    }
}

fn unfinite(numbers: &[f64]) -> Option<usize> {
    numbers.iter().position(|x| !x.is_finite())
}

fn spoiler(t: &[f64], n: usize) -> Option<usize> {
    let below = |c: usize| t[c + 1 + c * n] != 0.0;
    for c in 0..n {
        for r in c + 1..n {
            let alone = r == c + 1 && (c == 0 || !below(c - 1));
            if t[r + c * n] != 0.0 && !alone {
                return Some(r + c * n);
            }
        }
    }
    None
}

fn square(n: usize, bytes: &[u8]) -> bool {
    n <= MOST && bytes.len() == 8 * n * n
}

fn list(n: usize, bytes: &[u8]) -> bool {
    n <= MOST && bytes.len() == 8 * n
}

pub fn decompose(
    n: usize,
    matrix: &[u8],
    tolerance: u64,
    budget: u64,
    wanted: u32,
    t: &mut [u8],
    q: &mut [u8],
) -> u64 {
    let wanted = wanted != 0;
    let tolerance = f64::from_bits(tolerance);
    let between = match () {
        () if !(0.0..1.0).contains(&tolerance) => Some(4),
        () if budget == 0 || budget > 1_000_000 => Some(5),
        () => None,
    };
    let fits = square(n, t) && (!wanted || square(n, q));
    let entries = match read(n, matrix, fits, between) {
        Ok(entries) => entries,
        Err(refusal) => return refusal,
    };
    let answer = match model::schur(&entries, n, tolerance, budget, wanted) {
        Run::Budget { .. } => refused(7, None, n),
        Run::Done {
            t: found,
            q: turned,
            passes,
        } => {
            let bad = unfinite(&found).or(unfinite(&turned));
            match (bad, spoiler(&found, n)) {
                (Some(place), _) => refused(8, Some(place), n),
                (None, Some(place)) => refused(9, Some(place), n),
                (None, None) => {
                    store(t, &found);
                    if wanted {
                        store(q, &turned);
                    }
                    return passes;
                }
            }
        }
    };
    let nan = vec![f64::from_bits(NAN); n * n];
    store(t, &nan);
    if wanted {
        store(q, &nan);
    }
    answer
}

/// The readers' checks up to 9.
fn read_t(n: usize, bytes: &[u8], fits: bool) -> Result<Vec<f64>, u64> {
    let t = read(n, bytes, fits, None)?;
    match spoiler(&t, n) {
        Some(place) => Err(refused(9, Some(place), n)),
        None => Ok(t),
    }
}

pub fn eigenvalues(n: usize, t: &[u8], values: &mut [u8]) -> u64 {
    let t = match read_t(n, t, list(n, values)) {
        Ok(t) => t,
        Err(refusal) => return refusal,
    };
    match model::real_eigenvalues(&t, n) {
        Some(found) => {
            store(values, &found);
            0
        }
        None => refused(10, None, n),
    }
}

pub fn complex_eigenvalues(n: usize, t: &[u8], re: &mut [u8], im: &mut [u8]) -> u64 {
    let t = match read_t(n, t, list(n, re) && list(n, im)) {
        Ok(t) => t,
        Err(refusal) => return refusal,
    };
    let found = model::complex_eigenvalues(&t, n);
    // The root of a discriminant that is above 0 or NaN is NaN, and no other NaN comes out.
    let diagonal = |k: usize| Some(k + k * n);
    if let Some(k) = found.iter().position(|(_, im)| im.is_nan()) {
        return refused(11, diagonal(k), n);
    }
    let (res, ims): (Vec<f64>, Vec<f64>) = found.into_iter().unzip();
    let finite = |k: &usize| res[*k].is_finite() && ims[*k].is_finite();
    if let Some(k) = (0..n).find(|k| !finite(k)) {
        return refused(8, diagonal(k), n);
    }
    store(re, &res);
    store(im, &ims);
    0
}

pub fn plain_eigenvalues(n: usize, matrix: &[u8], values: &mut [u8]) -> u64 {
    let entries = match read(n, matrix, list(n, values), None) {
        Ok(entries) => entries,
        Err(refusal) => return refusal,
    };
    let found = if n == 2 {
        let pair = model::eig2(entries[0], entries[1], entries[2], entries[3]);
        let pair = pair.map(|(a, b)| vec![a, b]);
        if let Some(k) = pair.as_ref().and_then(|pair| unfinite(pair)) {
            return refused(8, Some(k + k * n), n);
        }
        pair
    } else {
        let Run::Done { t, .. } = model::schur(&entries, n, f64::EPSILON, 10_000, false) else {
            return refused(7, None, n);
        };
        if let Some(place) = unfinite(&t) {
            return refused(8, Some(place), n);
        }
        if let Some(place) = spoiler(&t, n) {
            return refused(9, Some(place), n);
        }
        model::real_eigenvalues(&t, n)
    };
    match found {
        Some(found) => {
            store(values, &found);
            0
        }
        None => refused(10, None, n),
    }
}
