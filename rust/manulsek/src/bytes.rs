//! The library's functions over bytes, which is how it has them, and a list of f64 seen as bytes. All
//! that is `unsafe` in this package is here.
//!
//! A function answers one number: below 2^32 the call was accepted, and it is the pass count of the
//! decomposition and 0 of the others; else it is a refusal, which `crate::Refusal::of` takes apart.
//!
//! `matrix`, `t` and `q` are column by column, eight bytes for each number. Rows of numbers, as C and NumPy have
//! them, are turned by
//! `let columns: Vec<u8> = (0..n * n).flat_map(|k| rows[k % n * n + k / n].to_le_bytes()).collect();`
//! Not turned, they are [read as the transpose](crate#row-order), and nothing says so.
//!
//! The calls are safe for one reason: the slices outlast the call, Rust sees to it that one that is
//! written overlaps no other, and the functions, which take every input, are proved to stay within
//! their slices.

use crate::raw;
use std::mem::size_of_val;

// The library's order of bytes, and the width of its lengths.
const _: () = assert!(cfg!(target_endian = "little") && cfg!(target_pointer_width = "64"));

/// As [`crate::decompose`]: the matrix column by column, rows turned by the [module](self)'s line. `wanted` is 0
/// for "no Q"; then q is not looked at, and may be of any length.
#[inline]
pub fn decompose(
    order: usize,
    matrix: &[u8],
    tolerance: u64,
    budget: u64,
    wanted: u32,
    t: &mut [u8],
    q: &mut [u8],
) -> u64 {
    let (m, mn) = (matrix.as_ptr(), matrix.len());
    let (tn, qn) = (t.len(), q.len());
    let (t, q) = (t.as_mut_ptr(), q.as_mut_ptr());
    // SAFETY: as above.
    unsafe { raw::manulsek_decompose(order, m, mn, tolerance, budget, wanted, t, tn, q, qn) }
}

/// As [`crate::eigenvalues`]: T column by column, rows turned by the [module](self)'s line.
#[inline]
pub fn eigenvalues(order: usize, t: &[u8], values: &mut [u8]) -> u64 {
    let (at, length) = (values.as_mut_ptr(), values.len());
    // SAFETY: as above.
    unsafe { raw::manulsek_eigenvalues(order, t.as_ptr(), t.len(), at, length) }
}

/// As [`crate::complex_eigenvalues`]: T column by column, rows turned by the [module](self)'s line.
#[inline]
pub fn complex_eigenvalues(order: usize, t: &[u8], re: &mut [u8], im: &mut [u8]) -> u64 {
    let (rn, jn) = (re.len(), im.len());
    let (re, im) = (re.as_mut_ptr(), im.as_mut_ptr());
    // SAFETY: as above.
    unsafe { raw::manulsek_complex_eigenvalues(order, t.as_ptr(), t.len(), re, rn, im, jn) }
}

/// As [`crate::plain_eigenvalues`]: the matrix column by column, rows turned by the [module](self)'s line.
#[inline]
pub fn plain_eigenvalues(order: usize, matrix: &[u8], values: &mut [u8]) -> u64 {
    let (m, mn) = (matrix.as_ptr(), matrix.len());
    // SAFETY: as above.
    unsafe { raw::manulsek_plain_eigenvalues(order, m, mn, values.as_mut_ptr(), values.len()) }
}

/// As [`crate::sqrt`], from pattern to pattern.
#[inline]
pub fn sqrt(pattern: u64) -> u64 {
    // SAFETY: a number in, a number out.
    unsafe { raw::manulsek_sqrt(pattern) }
}

/// The bytes of these numbers.
#[inline]
pub fn of(numbers: &[f64]) -> &[u8] {
    // SAFETY: the same memory for as long. An f64 is eight bytes without gaps, and a byte may have any
    // address.
    unsafe { std::slice::from_raw_parts(numbers.as_ptr().cast(), size_of_val(numbers)) }
}

/// The bytes of these numbers, to be written.
#[inline]
pub fn of_mut(numbers: &mut [f64]) -> &mut [u8] {
    // SAFETY: as above; and any eight bytes are an f64.
    unsafe { std::slice::from_raw_parts_mut(numbers.as_mut_ptr().cast(), size_of_val(numbers)) }
}

#[cfg(test)]
mod tests {
    use super::*;

    #[test]
    fn numbers_are_their_patterns_lowest_byte_first() {
        let mut numbers = [1.0, -0.0];
        let right = [0, 0, 0, 0, 0, 0, 0xf0, 0x3f, 0, 0, 0, 0, 0, 0, 0, 0x80];
        assert_eq!(of(&numbers), right);
        of_mut(&mut numbers)[15] = 0x40;
        assert_eq!(numbers, [1.0, 2.0]);
        assert!(of(&[]).is_empty());
    }
}
