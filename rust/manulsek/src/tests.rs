//! The matrices with known outcomes of document 01, by their letters, and what is lent around them.

use super::*;

const TOLERANCE: f64 = f64::EPSILON;

/// The block with rows (0 -1), (1 0).
const J: [f64; 4] = [0.0, 1.0, -1.0, 0.0];

/// The matrix with this number of order 1, or this block of order 2, at each place of its diagonal.
fn diagonal(blocks: &[&[f64]]) -> Vec<f64> {
    let side = |block: &[f64]| if block.len() == 1 { 1 } else { 2 };
    let n: usize = blocks.iter().map(|block| side(block)).sum();
    let mut matrix = vec![0.0; n * n];
    let mut at = 0;
    for block in blocks {
        let size = side(block);
        for (place, &x) in block.iter().enumerate() {
            matrix[at + place % size + (at + place / size) * n] = x;
        }
        at += size;
    }
    matrix
}

fn order(entries: &[f64]) -> usize {
    entries.len().isqrt()
}

fn run(entries: &[f64], budget: u64) -> Result<Schur, Refusal> {
    Schur::try_new(order(entries), entries, TOLERANCE, budget)
}

fn refusal(number: u32, row: usize, col: usize) -> Refusal {
    Refusal { number, row, col }
}

fn bits(numbers: &[f64]) -> Vec<u64> {
    numbers.iter().map(|x| x.to_bits()).collect()
}

#[test]
fn a_order_1() {
    let schur = run(&[5.0], 1).unwrap();
    assert_eq!((schur.t(), schur.q()), (&[5.0][..], &[1.0][..]));
    assert_eq!((schur.passes(), schur.order()), (0, 1));
}

#[test]
fn b_a_standing_block() {
    let schur = run(&J, 1).unwrap();
    assert_eq!(bits(schur.t()), bits(&J));
    assert_eq!(schur.eigenvalues(), Err(refusal(10, 0, 0)));
    let pair = [(0.0, 1.0), (0.0, -1.0)];
    assert_eq!(schur.complex_eigenvalues().unwrap(), pair);
}

/// Where a pair's discriminant is 0 neither imaginary part is above it. Here its products vanish: the block is
/// rows (0 -1e-200), (1e-200 0), in a matrix that docs/DIFFERENCES.md names.
#[test]
fn a_pair_without_imaginary_parts() {
    let mut matrix = [0.0; 9];
    (matrix[1], matrix[3], matrix[8]) = (1e-200, -1e-200, 2e-200);
    let schur = run(&matrix, 1).unwrap();
    assert!(schur.t()[1] != 0.0);
    assert_eq!(schur.eigenvalues(), Err(refusal(10, 0, 0)));
    let (re, im): (Vec<f64>, Vec<f64>) = schur.complex_eigenvalues().unwrap().into_iter().unzip();
    assert_eq!(bits(&re), bits(&[0.0, 0.0, 2e-200]));
    assert_eq!(bits(&im), [0; 3]);
}

#[test]
fn c_zeros() {
    let schur = run(&[0.0; 9], 1).unwrap();
    assert_eq!(bits(schur.t()), [0; 9]);
    assert_eq!(schur.passes(), 0);
}

#[test]
fn d_a_diagonal() {
    let matrix = diagonal(&[&[1.0], &[2.0], &[4.0]]);
    let schur = run(&matrix, 1).unwrap();
    assert_eq!(schur.eigenvalues().unwrap(), [1.0, 2.0, 4.0]);
    assert_eq!(schur.passes(), 0);
    let mut values = [0.0; 3];
    assert_eq!(plain_eigenvalues(3, &matrix, &mut values), Ok(()));
    assert_eq!(values, [1.0, 2.0, 4.0]);
}

#[test]
fn e_f_g_passes_and_budgets() {
    assert_eq!(run(&diagonal(&[&J, &[2.0]]), 1).unwrap().passes(), 0);
    for matrix in [diagonal(&[&J, &J]), diagonal(&[&[1.0], &[2.0], &J])] {
        assert_eq!(run(&matrix, 1).unwrap_err(), refusal(7, 0, 0));
        assert_eq!(run(&matrix, 2).unwrap().passes(), 1);
    }
}

#[test]
fn h_to_k_checks_before_the_run() {
    let mut missing = [1.0; 9];
    missing[2 + 3] = f64::NAN;
    assert_eq!(run(&missing, 9).unwrap_err(), refusal(6, 2, 1));
    assert_eq!(run(&[1.0; 65 * 65], 9).unwrap_err(), refusal(2, 0, 0));
    assert_eq!(run(&[], 9).unwrap_err(), refusal(1, 0, 0));
    let j = |tolerance, budget| Schur::try_new(2, &J, tolerance, budget).unwrap_err();
    assert_eq!(j(1.0, 1), refusal(4, 0, 0));
    assert_eq!(j(TOLERANCE, 0), refusal(5, 0, 0));
}

#[test]
fn l_m_order_2_is_not_scaled() {
    let large = 2f64.powi(700);
    assert_eq!(
        run(&[0.0, large, large, 0.0], 1).unwrap_err(),
        refusal(8, 0, 0)
    );
    let zeros = run(&[1.0, large, 0.0, 1.0], 1).unwrap();
    assert_eq!(bits(zeros.t()), [0; 4]);
}

/// The matrix with these rows.
fn columns(rows: &[f64]) -> Vec<f64> {
    let n = order(rows);
    (0..n * n).map(|k| rows[k % n * n + k / n]).collect()
}

/// How far Q T Q' is from the matrix, and Q' Q from the identity: the largest of the entries' distances.
fn apart(matrix: &[f64], schur: &Schur) -> (f64, f64) {
    let (n, t, q) = (schur.order(), schur.t(), schur.q());
    let (mut far, mut skew) = (0f64, 0f64);
    for (row, col) in (0..n * n).map(|k| (k % n, k / n)) {
        let (mut product, mut square) = (0.0, 0.0);
        for i in 0..n {
            square += q[i + row * n] * q[i + col * n];
            product += (0..n)
                .map(|j| q[row + i * n] * t[i + j * n] * q[col + j * n])
                .sum::<f64>();
        }
        far = far.max((matrix[row + col * n] - product).abs());
        skew = skew.max((square - f64::from(row == col)).abs());
    }
    (far, skew)
}

/// What is not promised, on matrices for which it holds. The bound is wide; docs/ACCURACY.md has the figures.
#[test]
fn q_t_q_is_near_a_usual_matrix() {
    let mut usual = vec![
        columns(&[0.0, -1.0, 5.0, 1.0, 0.0, 6.0, 0.0, 0.0, 2.0]),
        columns(&[1.0, 2.0, 3.0, 4.0, 5.0, 6.0, 7.0, 8.0, 10.0]),
        columns(&[1.0, 2.0, 3.0, 4.0]),
    ];
    // Entries from -1 to 1 without a pattern that the eye sees.
    usual.extend([4, 8, 16].map(|n: i32| {
        (0..n * n)
            .map(|k| f64::from(k * k % 101 - 50) / 50.0)
            .collect()
    }));
    for matrix in usual {
        let schur = run(&matrix, 1000).unwrap();
        let largest = matrix.iter().fold(0f64, |most, x| most.max(x.abs()));
        let (far, skew) = apart(&matrix, &schur);
        assert!(
            far <= 1e-13 * largest && skew <= 1e-13,
            "{far:e} {skew:e} {matrix:?}"
        );
    }
}

/// And on matrices that are accepted though it does not hold: those that the package's documentation names.
#[test]
fn q_t_q_is_far_from_some_that_are_accepted() {
    // Item m: zeros for T and Q, so Q is far from an orthogonal matrix too.
    let large = 2f64.powi(700);
    let matrix = columns(&[1.0, 0.0, large, 1.0]);
    let schur = run(&matrix, 1).unwrap();
    assert_eq!((schur.t(), schur.q()), (&[0.0; 4][..], &[0.0; 4][..]));
    assert_eq!(apart(&matrix, &schur), (large, 1.0));

    // Products vanish: the eigenvalues are 1e-200 and -1e-200.
    let matrix = columns(&[0.0, 1e-200, 1e-200, 0.0]);
    let schur = run(&matrix, 1).unwrap();
    assert_eq!(schur.eigenvalues().unwrap(), [0.0, 0.0]);
    assert_eq!(apart(&matrix, &schur), (1e-200, 0.0));

    // Order 2 is not delimited: the block is turned by a right angle, and its 1 is lost.
    let small = 2f64.powi(-108);
    let matrix = columns(&[1.0, 1.0, small, 1.0]);
    let schur = run(&matrix, 1).unwrap();
    assert_eq!(schur.t(), columns(&[1.0, -small, 0.0, 1.0]));
    assert_eq!(apart(&matrix, &schur), (1.0, 0.0));

    // The reduction makes a column whose squares vanish, of plain entries.
    let mut matrix = [0.0; 36];
    for (row, col, x) in [
        (2, 0, 1.0),
        (2, 2, 1.0),
        (3, 5, -1.0),
        (4, 3, 1.0),
        (5, 1, 1.0),
    ] {
        matrix[row + 6 * col] = x;
    }
    let (far, skew) = apart(&matrix, &run(&matrix, 1000).unwrap());
    assert!(far > 1.9 && skew <= 1e-13, "{far:e} {skew:e}");

    // A column whose squares vanish turns Q and not T. With the other sign it does not turn Q.
    let small = 2f64.powi(-600);
    let matrix = columns(&[1.0, 1.0, 0.0, -small, 2.0, 0.0, 0.0, 0.0, 3.0]);
    let schur = run(&matrix, 1).unwrap();
    assert_eq!(
        schur.t(),
        columns(&[1.0, 1.0, 0.0, 0.0, 2.0, 0.0, 0.0, 0.0, 3.0])
    );
    assert_eq!(
        schur.q(),
        columns(&[1.0, 0.0, 0.0, 0.0, -1.0, 0.0, 0.0, 0.0, -1.0])
    );
    assert_eq!(apart(&matrix, &schur), (2.0, 0.0));
    let matrix = columns(&[1.0, 1.0, 0.0, small, 2.0, 0.0, 0.0, 0.0, 3.0]);
    assert_eq!(apart(&matrix, &run(&matrix, 1).unwrap()), (small, 0.0));

    // The smallest numbers that there are have one digit: two eigenvalues, 0.38 and 2.62 of them, become 0 and 3.
    let one = f64::from_bits(1);
    let matrix = columns(&[one, one, 0.0, one, 2.0 * one, 0.0, 0.0, 0.0, one]);
    let schur = run(&matrix, 1).unwrap();
    assert_eq!(schur.eigenvalues().unwrap(), [0.0, 3.0 * one, one]);

    // A large tolerance.
    let matrix = columns(&[1.0, 2.0, 3.0, 4.0, 5.0, 6.0, 7.0, 8.0, 10.0]);
    let (far, skew) = apart(&matrix, &Schur::try_new(3, &matrix, 0.5, 1000).unwrap());
    assert!(far > 0.1 && skew <= 1e-13, "{far:e} {skew:e}");
}

/// Rows that are not turned are read as the transpose: another T, and another answer of the readers.
#[test]
fn rows_that_are_not_turned() {
    let rows = [1.0, 2.0, 3.0, 4.0, 5.0, 6.0, 7.0, 8.0, 10.0];
    let (right, wrong) = (run(&columns(&rows), 100).unwrap(), run(&rows, 100).unwrap());
    assert_ne!(bits(right.t()), bits(wrong.t()));
    assert_ne!(bits(right.q()), bits(wrong.q()));
    let (right, wrong) = (right.eigenvalues().unwrap(), wrong.eigenvalues().unwrap());
    let far = right
        .iter()
        .zip(&wrong)
        .fold(0f64, |most, (x, y)| most.max((x - y).abs()));
    assert!(far <= 1e-13 && bits(&right) != bits(&wrong), "{far:e}");

    // Where eigenvalues meet, half the digits are gone.
    let jordan = [1.0, 1.0, 0.0, 0.0, 1.0, 1.0, 0.0, 0.0, 1.0];
    let values = |entries: &[f64]| run(entries, 100).unwrap().eigenvalues().unwrap();
    assert_eq!(values(&columns(&jordan)), [1.0; 3]);
    assert!(values(&jordan).iter().any(|x| (x - 1.0).abs() > 1e-9));

    let t = [2.0, 1.0, 0.0, 3.0];
    let (mut re, mut im) = ([7.0; 2], [7.0; 2]);
    assert_eq!(eigenvalues(2, &t, &mut re), Err(refusal(10, 0, 0)));
    assert_eq!(
        complex_eigenvalues(2, &t, &mut re, &mut im),
        Err(refusal(11, 0, 0))
    );
    assert_eq!(eigenvalues(2, &columns(&t), &mut re), Ok(()));
    assert_eq!(re, [2.0, 3.0]);

    // The matrix of docs/DIFFERENCES.md that is refused with 9, and its transpose, which is not.
    let mut spoiled = [0.0; 9];
    (spoiled[3], spoiled[4], spoiled[5]) = (2f64.powi(-521), 1.0, -1.0);
    (spoiled[7], spoiled[8]) = (2f64.powi(-47), 2f64.powi(-506));
    let answer = |entries: &[f64]| Schur::try_new(3, entries, 0.0, 1000).map(|_| ());
    assert_eq!(answer(&columns(&spoiled)), Err(refusal(9, 2, 0)));
    assert_eq!(answer(&spoiled), Ok(()));
}

/// The line of `bytes` and `raw`: the bytes of the columns.
#[test]
fn rows_become_bytes() {
    let (n, rows) = (2, [1.0, 2.0, 3.0, -0.0f64]);
    let turned: Vec<u8> = (0..n * n)
        .flat_map(|k| rows[k % n * n + k / n].to_le_bytes())
        .collect();
    assert_eq!(turned, bytes::of(&[1.0, 3.0, 2.0, -0.0]));
}

#[test]
fn n_a_spoiled_shape() {
    let mut t = [0.0; 9];
    (t[1], t[5]) = (1.0, 1.0);
    let (mut re, mut im) = ([7.0; 3], [7.0; 3]);
    assert_eq!(eigenvalues(3, &t, &mut re), Err(refusal(9, 2, 1)));
    let answer = complex_eigenvalues(3, &t, &mut re, &mut im);
    assert_eq!(answer, Err(refusal(9, 2, 1)));
    assert_eq!((re, im), ([7.0; 3], [7.0; 3]));
}

#[test]
fn roots() {
    assert_eq!(sqrt(2.0).to_bits(), 0x3ff6_a09e_667f_3bcd);
    assert_eq!(sqrt(f64::from_bits(1)), 2f64.powi(-537));
    assert_eq!(sqrt(-1.0).to_bits(), NAN.to_bits());
    assert_eq!(sqrt(-0.0).to_bits(), 1 << 63);
}

/// A refusal before the run touches nothing; one after it leaves NaN, never zeros.
#[test]
fn what_is_lent_after_a_refusal() {
    let j_twice = diagonal(&[&J, &J]);
    let (mut t, mut q) = ([7.0; 16], [7.0; 16]);
    let mut missing = j_twice.clone();
    missing[3] = f64::INFINITY;
    let answer = decompose(4, &missing, TOLERANCE, 1, &mut t, Some(&mut q));
    assert_eq!(answer, Err(refusal(6, 3, 0)));
    assert_eq!((t, q), ([7.0; 16], [7.0; 16]));

    let answer = decompose(4, &j_twice, TOLERANCE, 1, &mut t, Some(&mut q));
    assert_eq!(answer, Err(refusal(7, 0, 0)));
    assert_eq!(bits(&t), [NAN.to_bits(); 16]);
    assert_eq!(bits(&q), [NAN.to_bits(); 16]);
}

/// Without Q T has the same bits; a slice of another length is refused, whichever it is.
#[test]
fn what_is_lent_for_a_run() {
    let matrix = [1.0, 4.0, 7.0, 2.0, 5.0, 8.0, 3.0, 6.0, 10.0];
    let schur = run(&matrix, 100).unwrap();
    let mut t = [7.0; 9];
    let passes = decompose(3, &matrix, TOLERANCE, 100, &mut t, None);
    assert_eq!(passes, Ok(schur.passes()));
    assert_eq!(bits(&t), bits(schur.t()));

    let wrong = Err(refusal(3, 0, 0));
    let (mut long, mut q) = ([7.0; 10], [7.0; 8]);
    let with = |matrix: &[f64], t: &mut [f64], q: &mut [f64]| {
        decompose(3, matrix, TOLERANCE, 100, t, Some(q))
    };
    assert_eq!(with(&matrix, &mut t, &mut q), wrong);
    assert_eq!(with(&matrix, &mut long, &mut [7.0; 9]), wrong);
    assert_eq!(with(&matrix[1..], &mut t, &mut [7.0; 9]), wrong);
    assert_eq!(with(&matrix, &mut t, &mut []), wrong);
    let mut values = [7.0; 3];
    assert_eq!(eigenvalues(3, &t, &mut values[..2]).map(|_| 0), wrong);
    assert_eq!(plain_eigenvalues(3, &t[1..], &mut values).map(|_| 0), wrong);
    let answer = complex_eigenvalues(3, &t, &mut values, &mut [7.0; 4]);
    assert_eq!(answer.map(|_| 0), wrong);
    assert_eq!(values, [7.0; 3]);
    assert_eq!(
        Schur::try_new(usize::MAX, &matrix, TOLERANCE, 1).unwrap_err(),
        refusal(2, 0, 0)
    );
}

/// At order 2 the plain entry has the larger first, the reader of T the diagonal.
#[test]
fn the_plain_entry_at_order_2() {
    let matrix = [2.0, 0.0, 0.0, 3.0];
    let mut values = [0.0; 2];
    plain_eigenvalues(2, &matrix, &mut values).unwrap();
    assert_eq!(values, [3.0, 2.0]);
    assert_eq!(run(&matrix, 1).unwrap().eigenvalues().unwrap(), [2.0, 3.0]);
    let answer = plain_eigenvalues(2, &J, &mut values);
    assert_eq!(answer, Err(refusal(10, 0, 0)));
    let large = 2f64.powi(700);
    let answer = plain_eigenvalues(2, &[0.0, large, large, 0.0], &mut values);
    assert_eq!(answer, Err(refusal(8, 0, 0)));
}
