//! The crate's side: nalgebra's real Schur decomposition with run-time (`Dyn`) dimensions.
//!
//! Matrices are lists of n * n entries, column by column.

use nalgebra::{DMatrix, Dyn, Schur};

/// T and Q of a matrix, or `None` where the counted passes reach the budget. A budget of 0 is none
/// at all: the crate then goes on for as long as it takes.
pub fn schur(
    order: usize,
    entries: &[f64],
    tolerance: f64,
    budget: usize,
) -> Option<(Vec<f64>, Vec<f64>)> {
    let matrix = DMatrix::from_column_slice(order, order, entries);
    let (q, t) = Schur::try_new(matrix, tolerance, budget)?.unpack();
    Some((t.as_slice().to_vec(), q.as_slice().to_vec()))
}

/// A run that ended, with the crate's own readers.
pub struct Run {
    pub t: Vec<f64>,
    pub q: Vec<f64>,
    schur: Schur<f64, Dyn>,
}

/// As `schur`, for what comes after T and Q.
pub fn run(order: usize, entries: &[f64], tolerance: f64, budget: usize) -> Option<Run> {
    let matrix = DMatrix::from_column_slice(order, order, entries);
    let schur = Schur::try_new(matrix, tolerance, budget)?;
    let (q, t) = schur.clone().unpack();
    Some(Run {
        t: t.as_slice().to_vec(),
        q: q.as_slice().to_vec(),
        schur,
    })
}

impl Run {
    /// The real reader.
    pub fn real(&self) -> Option<Vec<f64>> {
        Some(self.schur.eigenvalues()?.as_slice().to_vec())
    }

    /// The complex reader: real and imaginary parts.
    pub fn complex(&self) -> Vec<(f64, f64)> {
        let values = self.schur.complex_eigenvalues();
        values.iter().map(|z| (z.re, z.im)).collect()
    }
}

/// The complex reader on a block of two alone, if the crate leaves it standing: then T is the block.
pub fn standing_pair(block: &[f64; 4]) -> Option<Vec<(f64, f64)>> {
    let run = run(2, block, f64::EPSILON, 1)?;
    let stands = run
        .t
        .iter()
        .zip(block)
        .all(|(x, y)| x.to_bits() == y.to_bits());
    stands.then(|| run.complex())
}

/// The plain entry at order 2, where it makes no run.
pub fn plain_of_two(entries: &[f64]) -> Option<Vec<f64>> {
    let values = DMatrix::from_column_slice(2, 2, entries).eigenvalues()?;
    Some(values.as_slice().to_vec())
}

/// The pass count, which the crate does not tell: the largest budget from 1 on that gives `None`,
/// or 0 if none does. `None` where even `limit`, a budget of at least 1, is not enough.
pub fn passes(order: usize, entries: &[f64], tolerance: f64, limit: usize) -> Option<usize> {
    let refused = |budget| schur(order, entries, tolerance, budget).is_none();
    // A run that is refused at one budget is refused at every smaller one, so the count lies
    // between two bounds: `low` is refused, or 0; `high` is accepted, once the doubling has ended.
    let mut low = 0;
    let mut high = 1;
    while refused(high) {
        if high >= limit {
            return None;
        }
        low = high;
        high = (high * 2).min(limit);
    }
    while low + 1 < high {
        let middle = low + (high - low) / 2;
        if refused(middle) {
            low = middle;
        } else {
            high = middle;
        }
    }
    Some(low)
}

#[cfg(test)]
mod tests {
    use super::*;
    use crate::random::Random;
    use nalgebra::linalg::givens::GivensRotation;
    use nalgebra::{DVector, Reflection, Unit};

    const TOLERANCE: f64 = f64::EPSILON;
    /// The block with rows (0 -1), (1 0).
    const J: [f64; 4] = [0.0, 1.0, -1.0, 0.0];

    fn bits(entries: &[f64]) -> Vec<u64> {
        entries.iter().map(|x| x.to_bits()).collect()
    }

    fn assert_schur(order: usize, entries: &[f64], t: &[f64], q: &[f64]) {
        let (found_t, found_q) = schur(order, entries, TOLERANCE, 1).expect("accepted at budget 1");
        assert_eq!(bits(&found_t), bits(t));
        assert_eq!(bits(&found_q), bits(q));
        assert_eq!(passes(order, entries, TOLERANCE, 1), Some(0));
    }

    /// A matrix with these blocks of order 1 and 2 on its diagonal.
    fn diagonal(blocks: &[&[f64]]) -> DMatrix<f64> {
        let side = |block: &[f64]| if block.len() == 1 { 1 } else { 2 };
        let order = blocks.iter().map(|block| side(block)).sum();
        let mut matrix = DMatrix::zeros(order, order);
        let mut at = 0;
        for block in blocks {
            let n = side(block);
            matrix.view_mut((at, at), (n, n)).copy_from_slice(block);
            at += n;
        }
        matrix
    }

    fn passes_of(blocks: &[&[f64]], limit: usize) -> Option<usize> {
        let matrix = diagonal(blocks);
        passes(matrix.nrows(), matrix.as_slice(), TOLERANCE, limit)
    }

    #[test]
    fn item_a_order_1() {
        assert_schur(1, &[5.0], &[5.0], &[1.0]);
    }

    #[test]
    fn item_b_a_standing_block() {
        assert_schur(2, &J, &J, &[1.0, 0.0, 0.0, 1.0]);
        let run = Schur::try_new(DMatrix::from_column_slice(2, 2, &J), TOLERANCE, 1).unwrap();
        assert!(run.eigenvalues().is_none());
        let pair: Vec<_> = run
            .complex_eigenvalues()
            .iter()
            .map(|z| (z.re, z.im))
            .collect();
        assert_eq!(pair, [(0.0, 1.0), (0.0, -1.0)]);
    }

    #[test]
    fn item_c_zeros() {
        let (t, _) = schur(3, &[0.0; 9], TOLERANCE, 1).expect("accepted at budget 1");
        assert_eq!(t, [0.0; 9]);
        assert_eq!(passes(3, &[0.0; 9], TOLERANCE, 1), Some(0));
    }

    #[test]
    fn items_e_f_g_count_passes() {
        assert_eq!(passes_of(&[&J, &[2.0]], 10), Some(0));
        assert_eq!(passes_of(&[&J, &J], 1), None);
        assert_eq!(passes_of(&[&J, &J], 2), Some(1));
        assert_eq!(passes_of(&[&[1.0], &[2.0], &J], 1), None);
        assert_eq!(passes_of(&[&[1.0], &[2.0], &J], 10), Some(1));
    }

    /// The inputs of docs/DIFFERENCES.md on which the crate gives an answer that looks odd.
    #[test]
    fn odd_answers() {
        let large = 2f64.powi(700);
        // Item l: the result is not finite.
        let (t, _) = schur(2, &[0.0, large, large, 0.0], TOLERANCE, 1).unwrap();
        assert!(!t[0].is_finite());
        // Item m: T is all zeros.
        let (t, _) = schur(2, &[1.0, large, 0.0, 1.0], TOLERANCE, 1).unwrap();
        assert_eq!(t, [0.0; 4]);
        // Products of two small numbers vanish: the eigenvalues are 1e-200 and -1e-200.
        let (t, _) = schur(2, &[0.0, 1e-200, 1e-200, 0.0], TOLERANCE, 1).unwrap();
        assert_eq!((t[0], t[1], t[3]), (0.0, 0.0, 0.0));
        // Order 2 is not delimited: the 1 above the diagonal is lost.
        let small = 2f64.powi(-108);
        let (t, _) = schur(2, &[1.0, small, 1.0, 1.0], TOLERANCE, 1).unwrap();
        assert_eq!(t, [1.0, 0.0, -small, 1.0]);
        // The smallest numbers have one digit: 0.38 and 2.62 of them become 0 and 3.
        let one = f64::from_bits(1);
        let entries = [one, one, 0.0, one, 2.0 * one, 0.0, 0.0, 0.0, one];
        let (t, _) = schur(3, &entries, TOLERANCE, 10).unwrap();
        assert_eq!([t[0], t[4], t[8]], [0.0, 3.0 * one, one]);
        // A column too small to see: Q's rows are turned by -1, and T is not.
        let entries = [1.0, -(2f64.powi(-600)), 0.0, 1.0, 2.0, 0.0, 0.0, 0.0, 3.0];
        let (t, q) = schur(3, &entries, TOLERANCE, 10).unwrap();
        assert_eq!(t, [1.0, 0.0, 0.0, 1.0, 2.0, 0.0, 0.0, 0.0, 3.0]);
        assert_eq!(q, [1.0, 0.0, 0.0, 0.0, -1.0, 0.0, 0.0, 0.0, -1.0]);
    }

    #[test]
    fn odd_eigenvalues() {
        // The plain entry has the larger first at order 2, the reader of T the diagonal.
        let matrix: DMatrix<f64> = DMatrix::from_column_slice(2, 2, &[2.0, 0.0, 0.0, 3.0]);
        let plain = matrix.eigenvalues().unwrap();
        assert_eq!(plain.as_slice(), [3.0, 2.0]);
        let reader = Schur::new(matrix).eigenvalues().unwrap();
        assert_eq!(reader.as_slice(), [2.0, 3.0]);
        // A standing block whose squares vanish after the unscaling: one real number twice.
        let small: f64 = 1e-200;
        let entries = [0.0, small, 0.0, -small, 0.0, 0.0, 0.0, 0.0, 2.0 * small];
        let run = Schur::new(DMatrix::from_column_slice(3, 3, &entries));
        assert!(run.eigenvalues().is_none());
        let pairs: Vec<_> = run
            .complex_eigenvalues()
            .iter()
            .map(|z| (z.re.to_bits(), z.im.to_bits()))
            .collect();
        assert_eq!(pairs, [(0, 0), (0, 0), ((2.0 * small).to_bits(), 0)]);
    }

    /// The inputs of docs/DIFFERENCES.md that are refused here and that the crate answers, or never
    /// does.
    #[test]
    fn answers_where_we_refuse() {
        let rows = |rows: [[f64; 3]; 3]| DMatrix::from_fn(3, 3, |i, j| rows[i][j]);
        let run =
            |m: &DMatrix<f64>, tolerance, budget| schur(m.nrows(), m.as_slice(), tolerance, budget);
        assert!(run(&DMatrix::zeros(0, 0), TOLERANCE, 1).is_some());
        assert!(run(&DMatrix::zeros(65, 65), TOLERANCE, 1).is_some());
        assert!(std::panic::catch_unwind(|| schur(3, &[0.0; 8], TOLERANCE, 1)).is_err());
        // A tolerance of NaN closes no window; one of 1 takes a complex pair for two real numbers.
        let coupled = rows([[1.0, 2.0, 3.0], [4.0, 5.0, 6.0], [7.0, 8.0, 10.0]]);
        assert!(run(&coupled, f64::NAN, 10_000).is_none());
        let turning = rows([[0.0, -1.0, 0.0], [1.0, 0.0, 0.0], [0.0, 0.0, 2.0]]);
        let (t, _) = run(&turning, 1.0, 1).unwrap();
        assert_eq!(t[1], 0.0);
        // A budget of 0 is no bound.
        assert!(run(&diagonal(&[&J, &J]), TOLERANCE, 0).is_some());
        // Item h: with one NaN no window closes.
        let mut missing = coupled.clone();
        missing[(2, 1)] = f64::NAN;
        assert!(run(&missing, TOLERANCE, 10_000).is_none());
        // An axis whose squares vanish leaves a bulge below.
        let p = |k| 2f64.powi(k);
        let steep = rows([[0.0; 3], [p(-521), 1.0, -1.0], [0.0, p(-47), p(-506)]]);
        let (t, _) = run(&steep, 0.0, 10).unwrap();
        assert_ne!(t[2], 0.0);
        // The plain entry has no bound: on a cycle of order 6 it would still be at it.
        let cycle = DMatrix::from_fn(6, 6, |i, j| ((j + 1) % 6 == i) as u8 as f64);
        assert!(run(&cycle, TOLERANCE, 10_000).is_none());
        // At order 2 it hands out what is not finite.
        let values = plain_of_two(&[0.0, p(700), p(700), 0.0]).unwrap();
        assert_eq!(values, [f64::INFINITY, f64::NEG_INFINITY]);
        // A standing block whose discriminant is infinity less infinity after the unscaling.
        let large = rows([[5e299, -1e300, 0.0], [1e300, -5e299, 0.0], [0.0; 3]]);
        let pair = Schur::new(large).complex_eigenvalues();
        assert!(pair[0].im.is_nan());
    }

    /// The inputs of docs/DIFFERENCES.md on which a kernel of ours does nothing, or something else.
    #[test]
    fn leaves_where_we_differ() {
        let column = |entries: &[f64]| DVector::from_column_slice(entries);
        let panics = |run: fn()| std::panic::catch_unwind(run).is_err();
        assert!(panics(|| {
            let (one, two) = (DVector::from_element(1, 1.0), DVector::from_element(2, 1.0));
            let _: f64 = one.dotc(&two);
        }));
        assert!(panics(|| {
            let mut matrix: DMatrix<f64> = DMatrix::zeros(4, 4);
            GivensRotation::identity().rotate(&mut matrix.rows_mut(3, 2));
        }));
        let mut large: DMatrix<f64> = DMatrix::from_element(65, 65, 1.0);
        GivensRotation::new(3.0, 4.0)
            .0
            .rotate(&mut large.rows_mut(0, 2));
        assert_ne!(large[(0, 0)], 1.0);
        // With the sign 0 the old entries are not read, and no +0 is added to -0.
        let mut matrix: DMatrix<f64> = DMatrix::from_column_slice(2, 1, &[1.0, 2.0]);
        let axis = Unit::new_unchecked(column(&[1.0, 0.0]));
        Reflection::new(axis, 0.0).reflect_with_sign(&mut matrix, 0.0);
        assert_eq!(bits(matrix.as_slice()), bits(&[-0.0, -0.0]));
    }

    #[test]
    fn counts_as_a_linear_search_does() {
        let mut random = Random::stream(1, 0);
        for order in 3..12 {
            let entries: Vec<f64> = (0..order * order)
                .map(|_| random.below(1000) as f64 - 500.0)
                .collect();
            let by_steps = (1..)
                .find(|&budget| schur(order, &entries, TOLERANCE, budget).is_some())
                .unwrap()
                - 1;
            assert_eq!(passes(order, &entries, TOLERANCE, 1000), Some(by_steps));
        }
    }
}
