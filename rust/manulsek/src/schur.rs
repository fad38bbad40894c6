//! A decomposition that owns its memory.

use crate::{complex_eigenvalues, decompose, eigenvalues, Refusal, MAX_ORDER};

/// T, Q and the pass count of a matrix.
///
/// Q T Q' is near the matrix for most, but that is measured and not proved, and it is false of some matrices that are
/// accepted: see [what an acceptance promises](crate#what-an-acceptance-promises).
#[derive(Clone, Debug)]
pub struct Schur {
    order: usize,
    t: Vec<f64>,
    q: Vec<f64>,
    passes: u32,
}

impl Schur {
    /// Decomposes the matrix with these entries, column by column. See [`decompose`], which says what is promised of T
    /// and Q, and what is not.
    ///
    /// Rows, as C and NumPy have them, are turned by
    /// `let columns: Vec<f64> = (0..n * n).map(|k| rows[k % n * n + k / n]).collect();`
    /// Not turned, they are [read as the transpose](crate#row-order).
    pub fn try_new(
        order: usize,
        entries: &[f64],
        tolerance: f64,
        budget: u64,
    ) -> Result<Schur, Refusal> {
        // An order above 64 is refused, whatever is lent.
        let length = if order <= MAX_ORDER { order * order } else { 0 };
        let (mut t, mut q) = (vec![0.0; length], vec![0.0; length]);
        let passes = decompose(order, entries, tolerance, budget, &mut t, Some(&mut q))?;
        Ok(Schur {
            order,
            t,
            q,
            passes,
        })
    }

    pub fn order(&self) -> usize {
        self.order
    }

    /// T, column by column: zero two or more places below its diagonal, and of two neighbours just below it
    /// at least one is zero. `(0..n * n).map(|k| t[k % n * n + k / n])` has it row by row, as C and NumPy would.
    pub fn t(&self) -> &[f64] {
        &self.t
    }

    /// Q, column by column. `(0..n * n).map(|k| q[k % n * n + k / n])` has it row by row, as C and NumPy would.
    pub fn q(&self) -> &[f64] {
        &self.q
    }

    /// How many passes were counted: below the budget.
    pub fn passes(&self) -> u32 {
        self.passes
    }

    /// The eigenvalues, if all of them are real. See [`eigenvalues`].
    pub fn eigenvalues(&self) -> Result<Vec<f64>, Refusal> {
        let mut values = vec![0.0; self.order];
        eigenvalues(self.order, &self.t, &mut values)?;
        Ok(values)
    }

    /// The eigenvalues, each with its real and its imaginary part. See [`complex_eigenvalues`].
    pub fn complex_eigenvalues(&self) -> Result<Vec<(f64, f64)>, Refusal> {
        let (mut re, mut im) = (vec![0.0; self.order], vec![0.0; self.order]);
        complex_eigenvalues(self.order, &self.t, &mut re, &mut im)?;
        Ok(re.into_iter().zip(im).collect())
    }
}
