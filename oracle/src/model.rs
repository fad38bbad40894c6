//! A plain model of nalgebra 0.35.0's real f64 `Schur::try_new` (and of `SymmetricEigen::try_new`)
//! with `Dyn` dimensions, holding exactly the formulas of SUMS-facts.md: counted loops over column-major
//! slices, one rounding per operation, no nalgebra. Entry (r, c) of order n stands at r + c*n.
//! Here some of its functions are `pub(crate)` besides, for the command `leaves`, and the roots of the
//! decomposition go through `root`, which keeps their arguments where the command `speed` asks for them;
//! and a run that reaches its budget tells its window, for the command `budgets`. Nothing else was changed.

use std::cell::RefCell;

thread_local! {
    /// The arguments of the roots since `schur_roots` began, on this thread; none are kept outside it.
    static ROOTS: RefCell<Option<Vec<f64>>> = const { RefCell::new(None) };
}

/// The processor's root; its argument is kept if `schur_roots` is at work.
fn root(x: f64) -> f64 {
    ROOTS.with_borrow_mut(|roots| roots.iter_mut().for_each(|roots| roots.push(x)));
    x.sqrt()
}

/// The arguments of all roots that `schur` takes, in their order.
pub fn schur_roots(mat: &[f64], n: usize, eps: f64, budget: u64, want_q: bool) -> Vec<f64> {
    ROOTS.set(Some(Vec::new()));
    schur(mat, n, eps, budget, want_q);
    ROOTS.take().unwrap_or_default()
}

/// What a run ended with.
pub enum Run {
    /// `passes` counted passes, T and (if asked for) Q.
    Done { t: Vec<f64>, q: Vec<f64>, passes: u64 },
    /// The counted passes reached the budget: the window behind the last, after delimiting.
    Budget { window: Window },
}

/// Start and end of a window. They are the same, 0, if it has closed.
pub type Window = (usize, usize);

/// to_exp of a real: (magnitude, sign). -0 answers (-0, 1); NaN answers (NaN, -1).
pub fn to_exp(x: f64) -> (f64, f64) {
    if x >= 0.0 { (x, 1.0) } else { (-x, -1.0) }
}

/// signum: NaN for NaN, else +-1 by the sign BIT (so -0 answers -1).
pub fn signum(x: f64) -> f64 {
    if x != x { x } else if x.to_bits() >> 63 == 1 { -1.0 } else { 1.0 }
}

/// The dot product for run-time lengths: eight accumulators, then the tail in order.
pub fn dot(x: &[f64], y: &[f64]) -> f64 {
    let n = x.len();
    let whole = n - n % 8;
    let mut acc = [0.0f64; 8];
    let mut i = 0;
    while i < whole {
        for l in 0..8 { acc[l] += x[i + l] * y[i + l]; }
        i += 8;
    }
    let mut res = 0.0;
    for l in 0..4 { res += acc[l] + acc[l + 4]; }
    while i < n { res += x[i] * y[i]; i += 1; }
    res
}

/// The dot product for the static lengths 2 and 3: no leading zero.
pub(crate) fn dot_small(x: &[f64], y: &[f64]) -> f64 {
    if x.len() == 2 { x[0] * y[0] + x[1] * y[1] }
    else { (x[0] * y[0] + x[1] * y[1]) + x[2] * y[2] }
}

/// `reflection_axis_mut`; `small` tells the static length 2 or 3 from a run-time length.
pub fn axis(c: &mut [f64], small: bool) -> (f64, bool) {
    let d = |c: &[f64]| if small { dot_small(c, c) } else { dot(c, c) };
    let sq = 0.0 + d(c);
    let norm = root(sq);
    let (modulus, sign) = to_exp(c[0]);
    let signed = sign * norm;
    let factor = (sq + modulus * norm) * 2.0;
    c[0] += signed;
    if factor == 0.0 { return (signed, false); }
    let f = root(factor);
    for e in c.iter_mut() { *e /= f; }
    let n = root(0.0 + d(c));
    for e in c.iter_mut() { *e /= n; }
    (-signed, true)
}

/// Reflect columns c0..c1 of `m` (order n), rows r0..r0+a.len(), with a sign.
pub(crate) fn reflect_cols(m: &mut [f64], n: usize, a: &[f64], r0: usize, c0: usize, c1: usize, sign: f64, small: bool) {
    let k = a.len();
    for c in c0..c1 {
        let col = &mut m[r0 + c * n..r0 + c * n + k];
        let d = if small { dot_small(a, col) } else { dot(a, col) };
        let factor = (d - 0.0) * (sign * -2.0);
        for i in 0..k { col[i] = factor * a[i] + sign * col[i]; }
    }
}

/// Reflect rows 0..rows of `m`, columns c0..c0+a.len(), with a sign; `work` holds rows numbers.
pub(crate) fn reflect_rows(m: &mut [f64], n: usize, a: &[f64], rows: usize, c0: usize, sign: f64, work: &mut [f64]) {
    for i in 0..rows { work[i] = m[i + c0 * n] * a[0]; }
    for j in 1..a.len() {
        for i in 0..rows { work[i] = m[i + (c0 + j) * n] * a[j] + work[i]; }
    }
    let m_two = sign * -2.0;
    for j in 0..a.len() {
        let f = m_two * a[j];
        for i in 0..rows {
            let e = &mut m[i + (c0 + j) * n];
            *e = f * work[i] + sign * *e;
        }
    }
}

/// Hessenberg reduction with H unpacked; Q if wanted.
fn hessenberg(h: &mut [f64], n: usize, want_q: bool, work: &mut [f64]) -> Vec<f64> {
    let mut sub = vec![0.0; n - 1];
    let mut a = vec![0.0; n];
    for k in 0..n - 1 {
        let len = n - 1 - k;
        a[..len].copy_from_slice(&h[k + 1 + k * n..n + k * n]);
        let (norm, yes) = axis(&mut a[..len], false);
        h[k + 1 + k * n..n + k * n].copy_from_slice(&a[..len]);
        if yes {
            let sign = signum(norm);
            reflect_rows(h, n, &a[..len], n, k + 1, sign, work);
            reflect_cols(h, n, &a[..len], k + 1, k + 1, n, sign, false);
        }
        sub[k] = norm;
    }
    let q = if want_q { assemble_q(h, n, &sub) } else { Vec::new() };
    for c in 0..n { for r in c + 2..n { h[r + c * n] = 0.0; } }
    for k in 0..n - 1 { h[k + 1 + k * n] = sub[k].abs(); }
    q
}

pub(crate) fn assemble_q(h: &[f64], n: usize, signs: &[f64]) -> Vec<f64> {
    let mut q = vec![0.0; n * n];
    for i in 0..n { q[i + i * n] = 1.0; }
    for i in (0..n - 1).rev() {
        let a = h[i + 1 + i * n..n + i * n].to_vec();
        reflect_cols(&mut q, n, &a, i + 1, i, n, signum(signs[i]), false);
    }
    q
}

/// Delimiting. The window (start, end).
fn delimit(t: &mut [f64], n: usize, eps: f64, end: usize) -> (usize, usize) {
    let abs_tol = eps * eps;
    let mut e = end;
    while e > 0 {
        let m = e - 1;
        let off = t[e + m * n].abs();
        if off <= abs_tol || off <= eps * (t[e + e * n].abs() + t[m + m * n].abs()) { t[e + m * n] = 0.0; } else { break; }
        e -= 1;
    }
    if e == 0 { return (0, 0); }
    let mut s = e - 1;
    while s > 0 {
        let m = s - 1;
        let off = t[s + m * n].abs();
        if t[s + m * n] == 0.0 || off <= abs_tol || off <= eps * (t[s + s * n].abs() + t[m + m * n].abs()) {
            t[s + m * n] = 0.0;
            break;
        }
        s -= 1;
    }
    (s, e)
}

/// `compute_2x2_eigvals`
pub fn eig2(h00: f64, h10: f64, h01: f64, h11: f64) -> Option<(f64, f64)> {
    let val = (h00 - h11) * 0.5;
    let discr = h10 * h01 + val * val;
    if !(discr >= 0.0) { return None; }
    let root = root(discr);
    let half = (h00 + h11) * 0.5;
    Some((half + root, half - root))
}

/// GivensRotation::try_new: (cosine, sine), or none.
pub(crate) fn givens(c: f64, s: f64, eps: f64) -> Option<(f64, f64)> {
    let (m, sign) = to_exp(c);
    let denom = root(m * m + s * s);
    if denom > eps { Some((m / denom, s / (sign * denom))) } else { None }
}

/// `compute_2x2_basis`
fn basis2(h00: f64, h10: f64, h01: f64, h11: f64) -> Option<(f64, f64)> {
    if h10 == 0.0 { return None; }
    let (e1, e2) = eig2(h00, h10, h01, h11)?;
    let (x1, x2) = (e1 - h11, e2 - h11);
    let x = if x1.abs() > x2.abs() { x1 } else { x2 };
    Some(givens(x, h10, 0.0).unwrap_or((1.0, 0.0)))
}

/// rows r, r+1 of columns c0..c1 turned by (c, s)
pub(crate) fn turn_cols(m: &mut [f64], n: usize, c: f64, s: f64, r: usize, c0: usize, c1: usize) {
    for j in c0..c1 {
        let (a, b) = (m[r + j * n], m[r + 1 + j * n]);
        m[r + j * n] = a * c - s * b;
        m[r + 1 + j * n] = s * a + b * c;
    }
}

/// columns k, k+1 of rows 0..rows turned by (c, s)
pub(crate) fn turn_rows(m: &mut [f64], n: usize, c: f64, s: f64, rows: usize, k: usize) {
    for i in 0..rows {
        let (a, b) = (m[i + k * n], m[i + (k + 1) * n]);
        m[i + k * n] = a * c + s * b;
        m[i + (k + 1) * n] = -s * a + b * c;
    }
}

fn double_shift_pass(t: &mut [f64], q: &mut [f64], n: usize, want_q: bool, start: usize, end: usize, work: &mut [f64]) {
    let (m, e) = (end - 1, end);
    let at = |t: &[f64], r: usize, c: usize| t[r + c * n];
    let (h11, h12) = (at(t, start, start), at(t, start, start + 1));
    let (h21, h22) = (at(t, start + 1, start), at(t, start + 1, start + 1));
    let h32 = at(t, start + 2, start + 1);
    let (hnn, hmm, hnm, hmn) = (at(t, e, e), at(t, m, m), at(t, e, m), at(t, m, e));
    let tra = hnn + hmm;
    let det = hnn * hmm - hnm * hmn;
    let mut a = [((h11 * h11 + h12 * h21) - tra * h11) + det, h21 * ((h11 + h22) - tra), h21 * h32];
    for k in start..e - 1 {
        let (norm, yes) = axis(&mut a, true);
        if yes {
            if k > start {
                t[k + (k - 1) * n] = norm;
                t[k + 1 + (k - 1) * n] = 0.0;
                t[k + 2 + (k - 1) * n] = 0.0;
            }
            let rows = (k + 4).min(end + 1);
            reflect_cols(t, n, &a, k, k, n, 1.0, true);
            reflect_rows(t, n, &a, rows, k, 1.0, work);
            if want_q { reflect_rows(q, n, &a, n, k, 1.0, work); }
        }
        a[0] = at(t, k + 1, k);
        a[1] = at(t, k + 2, k);
        if k < e - 2 { a[2] = at(t, k + 3, k); }
    }
    let mut b = [a[0], a[1]];
    let (norm, yes) = axis(&mut b, true);
    if yes {
        t[m + (m - 1) * n] = norm;
        t[e + (m - 1) * n] = 0.0;
        reflect_cols(t, n, &b, m, m, n, 1.0, true);
        reflect_rows(t, n, &b, end + 1, m, 1.0, work);
        if want_q { reflect_rows(q, n, &b, n, m, 1.0, work); }
    }
}

/// `Schur::try_new(m, eps, budget)`; budget 0 would mean no bound and is not used here.
pub fn schur(mat: &[f64], n: usize, eps: f64, budget: u64, want_q: bool) -> Run {
    let mut t = mat.to_vec();
    if n == 1 { return Run::Done { t, q: if want_q { vec![1.0] } else { vec![] }, passes: 0 }; }
    if n == 2 {
        let mut q = if want_q { vec![1.0, 0.0, 0.0, 1.0] } else { vec![] };
        if let Some((c, s)) = basis2(t[0], t[1], t[2], t[3]) {
            turn_cols(&mut t, 2, c, -s, 0, 0, 2);
            turn_rows(&mut t, 2, c, s, 2, 0);
            t[1] = 0.0;
            if want_q { q = vec![c, s, -s, c]; }
        }
        return Run::Done { t, q, passes: 0 };
    }
    let amax = largest(&t);
    if amax != 0.0 { for e in t.iter_mut() { *e /= amax; } }
    let mut work = vec![0.0; n];
    let mut q = hessenberg(&mut t, n, want_q, &mut work);
    let mut passes = 0;
    let (mut start, mut end) = delimit(&mut t, n, eps, n - 1);
    while end != start {
        if end - start + 1 > 2 {
            double_shift_pass(&mut t, &mut q, n, want_q, start, end, &mut work);
        } else {
            let i = start + start * n;
            if let Some((c, s)) = basis2(t[i], t[i + 1], t[i + n], t[i + n + 1]) {
                turn_cols(&mut t, n, c, -s, start, start, n);
                turn_rows(&mut t, n, c, s, end + 1, start);
                t[end + start * n] = 0.0;
                if want_q { turn_rows(&mut q, n, c, s, n, start); }
            }
            if end > 2 { end -= 2; } else { break; }
        }
        (start, end) = delimit(&mut t, n, eps, end);
        passes += 1;
        if passes == budget { return Run::Budget { window: (start, end) }; }
    }
    for e in t.iter_mut() { *e *= amax; }
    Run::Done { t, q, passes }
}

/// camax: the first magnitude, then each later one unless the one held is >= it.
pub(crate) fn largest(m: &[f64]) -> f64 {
    let mut a = m[0].abs();
    for e in &m[1..] { let b = e.abs(); if !(a >= b) { a = b; } }
    a
}

/// The real reader's values, if no entry just below the diagonal is nonzero.
pub fn real_eigenvalues(t: &[f64], n: usize) -> Option<Vec<f64>> {
    for k in 0..n - 1 { if t[k + 1 + k * n] != 0.0 { return None; } }
    Some((0..n).map(|k| t[k + k * n]).collect())
}

/// The complex reader's values (real part, imaginary part).
pub fn complex_eigenvalues(t: &[f64], n: usize) -> Vec<(f64, f64)> {
    let mut out = Vec::new();
    let mut m = 0;
    while m + 1 < n {
        let i = m + m * n;
        if t[i + 1] == 0.0 { out.push((t[i], 0.0)); m += 1; continue; }
        let (hmm, hnm, hmn, hnn) = (t[i], t[i + 1], t[i + n], t[i + n + 1]);
        let val = (hmm - hnn) * 0.5;
        let discr = hnm * hmn + val * val;
        let root = (-discr).sqrt();
        let half = (hnn + hmm) * 0.5;
        out.push((half + 0.0, 0.0 + root));
        out.push((half - 0.0, 0.0 - root));
        m += 2;
    }
    if m == n - 1 { out.push((t[m + m * n], 0.0)); }
    out
}

/// The plain entry `m.eigenvalues()`; budget instead of no bound. Err(()) = budget reached.
pub fn plain(mat: &[f64], n: usize, budget: u64) -> Result<Option<Vec<f64>>, ()> {
    if n == 2 { return Ok(eig2(mat[0], mat[1], mat[2], mat[3]).map(|(a, b)| vec![a, b])); }
    match schur(mat, n, f64::EPSILON, budget, false) {
        Run::Done { t, .. } => Ok(real_eigenvalues(&t, n)),
        Run::Budget { .. } => Err(()),
    }
}

// ---------------------------------------------------------------- the symmetric run (P1)

pub enum SymRun {
    Done { vals: Vec<f64>, vecs: Vec<f64>, passes: u64 },
    Budget,
    /// a window of 2 without real eigenvalues (the crate panics there)
    NoReal,
}

/// Rows and columns from 0. Only the lower triangle is read after the scaling.
pub fn symmetric(mat: &[f64], n: usize, eps: f64, budget: u64) -> SymRun {
    let mut m = mat.to_vec();
    let amax = largest(&m);
    if amax != 0.0 { for e in m.iter_mut() { *e /= amax; } }
    // tridiagonal reduction
    let mut off = vec![0.0; n - 1];
    let mut p = vec![0.0; n - 1];
    for i in 0..n - 1 {
        let k = n - 1 - i;
        let mut a = m[i + 1 + i * n..n + i * n].to_vec();
        let (norm, yes) = axis(&mut a, false);
        m[i + 1 + i * n..n + i * n].copy_from_slice(&a);
        off[i] = norm;
        if !yes { continue; }
        let b = (i + 1) * (n + 1); // place of the trailing block's upper left entry
        let p = &mut p[i..];
        // p = 2 * M * a, by the lower triangle
        let f = 2.0 * a[0];
        for r in 0..k { p[r] = f * m[b + r]; }
        p[0] += 2.0 * dot(&m[b + 1..b + k], &a[1..]);
        for j in 1..k {
            let d = dot(&m[b + j * n + j..b + j * n + k], &a[j..]);
            p[j] += 2.0 * d;
            let f = 2.0 * a[j];
            for r in j + 1..k { p[r] = f * m[b + r + j * n] + p[r]; }
        }
        let d = dot(&a, p);
        for j in 0..k { let f = -1.0 * a[j]; for r in j..k { let e = &mut m[b + r + j * n]; *e = f * p[r] + *e; } }
        for j in 0..k { let f = -1.0 * p[j]; for r in j..k { let e = &mut m[b + r + j * n]; *e = f * a[r] + *e; } }
        let d2 = d * 2.0;
        for j in 0..k { let f = d2 * a[j]; for r in j..k { let e = &mut m[b + r + j * n]; *e = f * a[r] + *e; } }
    }
    let mut diag: Vec<f64> = (0..n).map(|i| m[i + i * n]).collect();
    let mut q = assemble_q(&m, n, &off);
    for e in off.iter_mut() { *e = e.abs(); }
    if n == 1 {
        diag[0] *= amax;
        return SymRun::Done { vals: diag, vecs: q, passes: 0 };
    }
    let mut passes = 0;
    let (mut start, mut end) = sym_delimit(&diag, &mut off, n - 1, eps);
    while end != start {
        if end - start + 1 > 2 {
            let (mm, e) = (end - 1, end);
            let mut v = (diag[start] - wilkinson(diag[mm], diag[e], off[mm]), off[start]);
            for i in start..e {
                let j = i + 1;
                if v.1 == 0.0 { break; }
                let (mod0, sign0) = to_exp(v.0);
                let denom = (mod0 * mod0 + v.1 * v.1).sqrt();
                let c = mod0 / denom;
                let s = -v.1 / (sign0 * denom);
                if i > start { off[i - 1] = sign0 * denom; }
                let (mii, mjj, mij) = (diag[i], diag[j], off[i]);
                let (cc, ss, cs) = (c * c, s * s, c * s);
                let b = (cs * 2.0) * mij;
                diag[i] = (cc * mii + ss * mjj) - b;
                diag[j] = (ss * mii + cc * mjj) + b;
                off[i] = cs * (mii - mjj) + mij * (cc - ss);
                if i != e - 1 {
                    v = (off[i], -s * off[i + 1]);
                    off[i + 1] *= c;
                }
                turn_rows(&mut q, n, c, -s, n, i);
            }
            if off[mm].abs() <= eps * (diag[mm].abs() + diag[e].abs()) { end -= 1; }
        } else {
            let (d0, d1, o) = (diag[start], diag[start + 1], off[start]);
            let Some((x, y)) = eig2(d0, o, o, d1) else { return SymRun::NoReal };
            let (bx, by) = if (x - d1).abs() > (x - d0).abs() { (x - d1, o) } else { (o, x - d0) };
            diag[start] = x;
            diag[start + 1] = y;
            if let Some((c, s)) = givens(bx, by, eps) { turn_rows(&mut q, n, c, s, n, start); }
            end -= 1;
        }
        (start, end) = sym_delimit(&diag, &mut off, end, eps);
        passes += 1;
        if passes == budget { return SymRun::Budget; }
    }
    for e in diag.iter_mut() { *e *= amax; }
    SymRun::Done { vals: diag, vecs: q, passes }
}

pub fn wilkinson(tmm: f64, tnn: f64, tmn: f64) -> f64 {
    let sq = tmn * tmn;
    if sq == 0.0 { return tnn; }
    let d = (tmm - tnn) * 0.5;
    tnn - sq / (d + signum(d) * (d * d + sq).sqrt())
}

fn sym_delimit(diag: &[f64], off: &mut [f64], end: usize, eps: f64) -> (usize, usize) {
    let mut e = end;
    while e > 0 {
        if off[e - 1].abs() > eps * (diag[e].abs() + diag[e - 1].abs()) { break; }
        e -= 1;
    }
    if e == 0 { return (0, 0); }
    let mut s = e - 1;
    while s > 0 {
        let m = s - 1;
        if off[m] == 0.0 || off[m].abs() <= eps * (diag[s].abs() + diag[m].abs()) { off[m] = 0.0; break; }
        s -= 1;
    }
    (s, e)
}
