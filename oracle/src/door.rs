//! Our side: the functions that the Rattle crates `door` and `leaf_door` export, each with a safe
//! wrapper. Those of `door` are declared in the package `rust/manulsek`, for its users and for us.
//!
//! Nothing checks these declarations against the libraries. A slice is a pointer and a length in
//! elements; numbers are themselves.

pub use manulsek::bytes::{complex_eigenvalues, decompose, eigenvalues, plain_eigenvalues, sqrt};

/// The bits that ours answers for every NaN.
pub const NAN: u64 = 0x7ff8_0000_0000_0000;

/// The bits of x, with ours for any NaN. Not inlined: behind an inlined root LLVM takes the test away
/// and leaves the processor's own NaN, since either is a NaN to it (seen with rustc 1.95.0).
#[inline(never)]
pub fn one_nan(x: f64) -> u64 {
    if x.is_nan() {
        NAN
    } else {
        x.to_bits()
    }
}

/// The kernels, of `leaf_door`. A matrix of order n, at most 64, is a slice of n * n numbers, column
/// by column. Where the arguments do not fit each other nothing is done, and an answer is one fixed
/// number; so nothing is checked here.
///
/// All are safe for one reason: the slices outlast the call, one that is written overlaps no other,
/// and the functions, which take every input, are proved to stay within their slices.
pub mod leaf {
    mod raw {
        unsafe extern "C" {
            pub fn manulsek_leaf_dot(x: *const f64, xn: usize, y: *const f64, yn: usize) -> f64;
            pub fn manulsek_leaf_axis(c: *mut f64, cn: usize) -> f64;
            pub fn manulsek_leaf_reflect(
                a: *const f64,
                an: usize,
                t: *mut f64,
                tn: usize,
                n: usize,
                row: usize,
                c0: usize,
                c1: usize,
                sign: f64,
            );
            pub fn manulsek_leaf_reflect_rows(
                a: *const f64,
                an: usize,
                t: *mut f64,
                tn: usize,
                n: usize,
                rows: usize,
                c0: usize,
                sign: f64,
            );
            pub fn manulsek_leaf_reflect3(
                x: f64,
                y: f64,
                z: f64,
                t: *mut f64,
                tn: usize,
                n: usize,
                row: usize,
                c0: usize,
                c1: usize,
            );
            pub fn manulsek_leaf_reflect_rows3(
                x: f64,
                y: f64,
                z: f64,
                t: *mut f64,
                tn: usize,
                n: usize,
                rows: usize,
                c0: usize,
            );
            pub fn manulsek_leaf_rotate(
                c: f64,
                s: f64,
                t: *mut f64,
                tn: usize,
                n: usize,
                i: usize,
                c0: usize,
                c1: usize,
            );
            pub fn manulsek_leaf_rotate_rows(
                c: f64,
                s: f64,
                t: *mut f64,
                tn: usize,
                n: usize,
                k: usize,
                rows: usize,
            );
            pub fn manulsek_leaf_clear_column(
                t: *mut f64,
                tn: usize,
                n: usize,
                icol: usize,
                work: *mut f64,
                wn: usize,
            ) -> f64;
            pub fn manulsek_leaf_assemble_q(
                m: *const f64,
                mn: usize,
                n: usize,
                signs: *const f64,
                sn: usize,
                q: *mut f64,
                qn: usize,
            );
        }
    }

    #[inline]
    pub fn dot(x: &[f64], y: &[f64]) -> f64 {
        // SAFETY: as above.
        unsafe { raw::manulsek_leaf_dot(x.as_ptr(), x.len(), y.as_ptr(), y.len()) }
    }

    /// c becomes the axis of its reflection; the answer is the norm with its sign.
    #[inline]
    pub fn axis(c: &mut [f64]) -> f64 {
        // SAFETY: as above.
        unsafe { raw::manulsek_leaf_axis(c.as_mut_ptr(), c.len()) }
    }

    /// The columns c0 to below c1, in as many rows from `row` on as a is long.
    #[inline]
    pub fn reflect(
        a: &[f64],
        t: &mut [f64],
        n: usize,
        row: usize,
        c0: usize,
        c1: usize,
        sign: f64,
    ) {
        let (at, an) = (a.as_ptr(), a.len());
        // SAFETY: as above.
        unsafe { raw::manulsek_leaf_reflect(at, an, t.as_mut_ptr(), t.len(), n, row, c0, c1, sign) }
    }

    /// The first `rows` rows, in as many columns from c0 on as a is long.
    #[inline]
    pub fn reflect_rows(a: &[f64], t: &mut [f64], n: usize, rows: usize, c0: usize, sign: f64) {
        let (at, an) = (a.as_ptr(), a.len());
        // SAFETY: as above.
        unsafe {
            raw::manulsek_leaf_reflect_rows(at, an, t.as_mut_ptr(), t.len(), n, rows, c0, sign)
        }
    }

    /// Rows `row` to row + 2 of the columns c0 to below c1.
    #[inline]
    pub fn reflect3(a: [f64; 3], t: &mut [f64], n: usize, row: usize, c0: usize, c1: usize) {
        let [x, y, z] = a;
        // SAFETY: as above.
        unsafe { raw::manulsek_leaf_reflect3(x, y, z, t.as_mut_ptr(), t.len(), n, row, c0, c1) }
    }

    /// Columns c0 to c0 + 2 of the first `rows` rows.
    #[inline]
    pub fn reflect_rows3(a: [f64; 3], t: &mut [f64], n: usize, rows: usize, c0: usize) {
        let [x, y, z] = a;
        // SAFETY: as above.
        unsafe { raw::manulsek_leaf_reflect_rows3(x, y, z, t.as_mut_ptr(), t.len(), n, rows, c0) }
    }

    /// Rows i and i + 1 of the columns c0 to below c1, by a cosine and a sine.
    #[inline]
    pub fn rotate(turn: [f64; 2], t: &mut [f64], n: usize, i: usize, c0: usize, c1: usize) {
        let [c, s] = turn;
        // SAFETY: as above.
        unsafe { raw::manulsek_leaf_rotate(c, s, t.as_mut_ptr(), t.len(), n, i, c0, c1) }
    }

    /// Columns k and k + 1 of the first `rows` rows, by a cosine and a sine.
    #[inline]
    pub fn rotate_rows(turn: [f64; 2], t: &mut [f64], n: usize, k: usize, rows: usize) {
        let [c, s] = turn;
        // SAFETY: as above.
        unsafe { raw::manulsek_leaf_rotate_rows(c, s, t.as_mut_ptr(), t.len(), n, k, rows) }
    }

    /// Column icol of a reduction, which leaves the axis below its diagonal; the answer is the norm
    /// with its sign.
    #[inline]
    pub fn clear_column(t: &mut [f64], n: usize, icol: usize, work: &mut [f64]) -> f64 {
        let (at, wn) = (work.as_mut_ptr(), work.len());
        // SAFETY: as above.
        unsafe { raw::manulsek_leaf_clear_column(t.as_mut_ptr(), t.len(), n, icol, at, wn) }
    }

    /// q from the axes below the diagonal of m, with the signs of these numbers.
    #[inline]
    pub fn assemble_q(m: &[f64], n: usize, signs: &[f64], q: &mut [f64]) {
        // SAFETY: as above.
        unsafe {
            raw::manulsek_leaf_assemble_q(
                m.as_ptr(),
                m.len(),
                n,
                signs.as_ptr(),
                signs.len(),
                q.as_mut_ptr(),
                q.len(),
            )
        }
    }
}
