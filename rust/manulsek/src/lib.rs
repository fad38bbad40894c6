//! The real Schur decomposition of nalgebra 0.35.0, bit for bit, from a library in which every function
//! is proved: for f64 matrices of order 1 to 64, with T, Q, the pass count and the eigenvalues, or with a
//! refusal by number and place. No call panics in the library, none goes on for ever, and a missing number
//! never becomes a zero. What is accepted may still be far from the matrix: see
//! [What an acceptance promises](#what-an-acceptance-promises).
//!
//! Matrices are lists of `order * order` numbers, column by column, which is not how C and NumPy have them: see
//! [Row order](#row-order). Rows and columns count from 0.
//!
//! ```
//! use manulsek::{Refusal, Schur};
//!
//! // Rows (0 -1 5), (1 0 6), (0 0 2): a complex pair, and a real number.
//! let matrix = [0.0, 1.0, 0.0, -1.0, 0.0, 0.0, 5.0, 6.0, 2.0];
//! let schur = Schur::try_new(3, &matrix, f64::EPSILON, 1000)?;
//! assert_eq!(schur.passes(), 0);
//! assert_eq!(schur.complex_eigenvalues()?, [(0.0, 1.0), (0.0, -1.0), (2.0, 0.0)]);
//!
//! // The real reader says that they are complex, by its number.
//! let refusal = schur.eigenvalues().unwrap_err();
//! assert_eq!(refusal.number, 10);
//! assert_eq!(refusal.to_string(), "some eigenvalues are complex");
//!
//! // A missing number is refused, with its place.
//! let missing = [1.0, 2.0, f64::NAN, 4.0];
//! let refusal = Schur::try_new(2, &missing, f64::EPSILON, 1000).unwrap_err();
//! assert_eq!(refusal, Refusal { number: 6, row: 0, col: 1 });
//! # Ok::<(), Refusal>(())
//! ```
//!
//! Who has memory of his own lends it: [`decompose`], [`eigenvalues`], [`complex_eigenvalues`] and
//! [`plain_eigenvalues`] allocate nothing. Who has bytes takes the same functions of [`bytes`]. The
//! numbers of the refusals are told by [`Refusal`]. What the library works in stands on the stack:
//! 76 KiB, which Rust's own threads have.
//!
//! # Row order
//!
//! A matrix of order n is read column by column: row r, column c stands at `r + c * n`. C and NumPy have it row by
//! row. Lent like that it is read as its transpose, and nothing says so. In exact arithmetic the transpose has the
//! same eigenvalues. Here rounding may change them, most often in the last bits, and by far more where eigenvalues
//! meet; their order, the pass count, and whether and why the call is refused may differ too. T and Q are others,
//! unless the matrix is symmetric. One line turns rows into columns:
//!
//! ```
//! use manulsek::{Refusal, Schur};
//!
//! let n = 3;
//! let rows = [1.0, 2.0, 3.0, 4.0, 5.0, 6.0, 7.0, 8.0, 10.0];
//! let columns: Vec<f64> = (0..n * n).map(|k| rows[k % n * n + k / n]).collect();
//! let schur = Schur::try_new(n, &columns, f64::EPSILON, 1000)?;
//!
//! // The bits of the matrix that was written column by column; not those of the rows as they are.
//! let bits = |t: &[f64]| -> Vec<u64> { t.iter().map(|x| x.to_bits()).collect() };
//! let by_hand = [1.0, 4.0, 7.0, 2.0, 5.0, 8.0, 3.0, 6.0, 10.0];
//! let right = Schur::try_new(n, &by_hand, f64::EPSILON, 1000)?;
//! assert_eq!(bits(schur.t()), bits(right.t()));
//! let wrong = Schur::try_new(n, &rows, f64::EPSILON, 1000)?;
//! assert_ne!(bits(schur.t()), bits(wrong.t()));
//!
//! // T and Q are column by column too. The same line makes rows of them: here T's first.
//! let t = schur.t();
//! let t_rows: Vec<f64> = (0..n * n).map(|k| t[k % n * n + k / n]).collect();
//! assert_eq!(t_rows[..n], [t[0], t[n], t[2 * n]]);
//! # Ok::<(), Refusal>(())
//! ```
//!
//! # What an acceptance promises
//!
//! It is proved that an accepted T is finite and has the shape that [`decompose`] tells, that Q is finite, and that
//! the pass count is below the budget. That Q T Q' is near the matrix, and Q near an orthogonal one, is **not**
//! promised. It was measured, not proved: on usual matrices, which take few passes, both are off by a small multiple
//! of `n * 2^-52`, the first one times the matrix's norm, and the repository's `docs/ACCURACY.md` has the figures. It
//! is false of some matrices that are accepted. We know of these:
//!
//! - Order 2 is not scaled, so products of large entries overflow, and those of small ones vanish or lose digits.
//!   Rows (1 0), (2^700 1) give zeros for T and Q. Rows (0 1e-200), (1e-200 0) give a T with the eigenvalues 0, 0.
//! - At order 2 an entry below the diagonal that is small beside the others is not set to 0 before it is looked at.
//!   Rows (1 1), (2^-108 1) give a T with -2^-108 at row 0, column 1, and lose the 1.
//! - From order 3 on, the part of a column below the diagonal, in the matrix or in what the reduction has made of it,
//!   is not zero, but so small beside the largest entry that its squares vanish. It may turn Q, and does not turn T.
//!   Rows (1 1 0), (-2^-600 2 0), (0 0 3) give a T with 1 at row 0, column 1, where the matrix has 1 and Q T Q' has -1.
//!   The reduction may make such a column of plain entries: `docs/ACCURACY.md` has a matrix of order 6 of 0, 1 and -1.
//! - The largest entry is near or below 2^-1022, where an f64 has fewer digits.
//! - The tolerance is above 2^-52: larger entries are set to zero.
//!
//! Who relies on it multiplies Q T Q' and compares. The readers' eigenvalues are those of T, and share its errors;
//! of those of the plain entry no more is promised.

pub mod bytes;
pub mod raw;
mod refusal;
mod schur;

pub use refusal::Refusal;
pub use schur::Schur;

/// The largest order that the library takes.
pub const MAX_ORDER: usize = 64;

/// The largest budget that the library takes.
pub const MAX_BUDGET: u64 = 1_000_000;

/// What an entry of T or Q is after a run that was refused: 7FF8000000000000, whatever `f64::NAN` is.
pub const NAN: f64 = f64::from_bits(0x7ff8_0000_0000_0000);

/// T of a matrix, Q too if it is asked for, and the pass count.
///
/// The matrix is read column by column, and t and q are written so. Rows, as C and NumPy have them, are turned by
/// `let columns: Vec<f64> = (0..n * n).map(|k| rows[k % n * n + k / n]).collect();`
/// Not turned, they are [read as the transpose](crate#row-order).
///
/// The matrix, t, and q if there is one, have `order * order` numbers. The tolerance is from 0 to below
/// 1, `f64::EPSILON` for most uses; the budget is from 1 to [`MAX_BUDGET`], and the pass count of an
/// accepted call is below it. An accepted t is finite, and zero two or more places below its diagonal, and
/// of two neighbours just below it at least one is zero; it is the same whether q is asked for or not. An
/// accepted q is finite. What t and q held before makes no difference. That Q T Q' is near the matrix is
/// [not promised](crate#what-an-acceptance-promises).
///
/// Refused with 1 to 6, nothing was touched. Refused with 7, 8 or 9, every number of t and q is [`NAN`].
#[inline]
pub fn decompose(
    order: usize,
    matrix: &[f64],
    tolerance: f64,
    budget: u64,
    t: &mut [f64],
    q: Option<&mut [f64]>,
) -> Result<u32, Refusal> {
    let wanted = u32::from(q.is_some());
    Refusal::of(bytes::decompose(
        order,
        bytes::of(matrix),
        tolerance.to_bits(),
        budget,
        wanted,
        bytes::of_mut(t),
        bytes::of_mut(q.unwrap_or_default()),
    ))
}

/// The real reader: the eigenvalues of a T, if all of them are real. They stand on its diagonal.
///
/// T is read column by column, as the decomposition writes it. Rows, as C and NumPy have them, are turned by
/// `let columns: Vec<f64> = (0..n * n).map(|k| rows[k % n * n + k / n]).collect();`
/// Not turned, they are [read as the transpose](crate#row-order), of which most are refused: that of a T with rows
/// (2 1), (0 3) with 10, "complex", though its eigenvalues are 2 and 3.
///
/// `values` has `order` numbers. On the T of an accepted decomposition there are two answers: the
/// diagonal, exactly if every entry just below it is zero, and else 10, some are complex. Refused,
/// nothing was touched.
#[inline]
pub fn eigenvalues(order: usize, t: &[f64], values: &mut [f64]) -> Result<(), Refusal> {
    done(bytes::eigenvalues(
        order,
        bytes::of(t),
        bytes::of_mut(values),
    ))
}

/// The complex reader: the real and the imaginary parts of the eigenvalues of a T. A pair stands in two
/// places one after the other: first the one with the imaginary part above 0, then the one below 0. Where
/// the block's discriminant is 0, as where its products vanish, both imaginary parts are +0.
///
/// T is read column by column, as the decomposition writes it. Rows, as C and NumPy have them, are turned by
/// `let columns: Vec<f64> = (0..n * n).map(|k| rows[k % n * n + k / n]).collect();`
/// Not turned, they are [read as the transpose](crate#row-order), of which most are refused: that of a T with rows
/// (2 1), (0 3) with 11.
///
/// `re` and `im` have `order` numbers each. Refused, nothing was touched.
#[inline]
pub fn complex_eigenvalues(
    order: usize,
    t: &[f64],
    re: &mut [f64],
    im: &mut [f64],
) -> Result<(), Refusal> {
    let (re, im) = (bytes::of_mut(re), bytes::of_mut(im));
    done(bytes::complex_eigenvalues(order, bytes::of(t), re, im))
}

/// The plain entry: the eigenvalues of a matrix, if all of them are real, without T and Q; with the
/// tolerance 2^-52 and the budget 10,000. At order 2 the larger comes first.
///
/// The matrix is read column by column. Rows, as C and NumPy have them, are turned by
/// `let columns: Vec<f64> = (0..n * n).map(|k| rows[k % n * n + k / n]).collect();`
/// Not turned, they are [read as the transpose](crate#row-order).
///
/// `values` has `order` numbers. Refused, nothing was touched.
#[inline]
pub fn plain_eigenvalues(order: usize, matrix: &[f64], values: &mut [f64]) -> Result<(), Refusal> {
    let values = bytes::of_mut(values);
    done(bytes::plain_eigenvalues(order, bytes::of(matrix), values))
}

/// The square root, rounded as IEEE 754 says; [`NAN`] for a NaN and for a number below 0.
#[inline]
pub fn sqrt(x: f64) -> f64 {
    f64::from_bits(bytes::sqrt(x.to_bits()))
}

fn done(answer: u64) -> Result<(), Refusal> {
    Refusal::of(answer).map(|_| ())
}

#[cfg(test)]
mod tests;
