//! The formulas of docs/SUMS.md, each once and under its number there, with the plausible alternatives
//! beside it. `ALT` says which alternative is in force; `Stated` is the page.

use nalgebra::DMatrix;
use std::cell::Cell;
use std::ops::Range;

pub type V = Vec<f64>;
pub type M = DMatrix<f64>;
pub type Dot = fn(&[f64], &[f64]) -> f64;

/// What a formula could have been instead.
#[derive(Clone, Copy, PartialEq, Debug)]
pub enum Alt {
    Stated,
    // Scalars.
    /// zero by its bits alone
    ZeroByBits,
    /// the magnitude of -0 is -0
    KeepsMinus,
    /// `to_exp` by the sign bit
    ExpByBit,
    /// `to_exp(-0)` has the magnitude +0
    ExpDropsMinus,
    /// `signum(-0)` is 1
    SignumByValue,
    /// a root above 0 only
    RootOnlyAbove0,
    /// a maximum that passes NaN over
    MaxDropsNaN,
    /// a product with the reciprocal
    Reciprocal,
    /// a fused sum
    Fused,
    // Dots and products.
    /// one accumulator
    LeftToRight,
    /// lanes added 0 + 1
    Lanes01,
    /// no leading +0
    BareDot,
    /// a leading +0 in the static dot
    StaticZero,
    /// a + (b + c)
    StaticRight,
    /// eight accumulators in matrix times vector
    TimesByEight,
    /// a leading +0 there
    TimesZero,
    /// -2*(a*w)
    ProductFirst,
    /// y is read at b = 0
    ReadsY,
    /// M*a row by row
    FullProduct,
    /// the diagonal outside the dot
    DiagonalApart,
    // Axis.
    /// one normalization
    OneNormalization,
    /// a minus without a reflection
    MinusAtNone,
    /// c_0 untouched then
    KeepsC0,
    /// columns before rows
    ColumnsFirst,
    /// Q skips what was not reflected
    SkipsNone,
    // Rotations.
    /// hypot
    ByHypot,
    /// no identity at none
    NoIdentity,
    /// the sine over den without the sign
    SineOverDen,
    /// >= for >
    TieTakesFirst,
    // Order 2 and the readers.
    /// by trace and determinant
    DiscrByTrace,
    /// the halves added
    HalvesApart,
    /// the smaller first
    SmallerFirst,
    /// order 2 scaled
    ScalesOrder2,
    /// half without + 0.0
    HalfKept,
    /// r without 0.0 +
    RootBare,
    /// the root of |discr|
    RootOfMagnitude,
    // Runs.
    /// no absolute test
    RelativeOnly,
    /// reflections to the window only
    ToWindow,
    /// reflections on all rows
    AllRows,
    /// other brackets in x
    ShiftRight,
    /// other brackets in y
    ShiftY,
    /// a count for the last pass
    CountsLast,
    /// a window closed at the budget is accepted
    AcceptsClosed,
    /// division by 0
    ZeroDivided,
    // The symmetric run, and NaN in delimiting.
    /// an absolute test too
    AbsoluteToo,
    /// the other basis at a tie
    TieBasis,
    /// a rotation above 0 and not above eps
    EpsZero,
    /// a NaN stops the symmetric delimiting
    NaNStops,
    /// a NaN entry deflates
    NaNDeflates,
    /// a NaN neighbour stops
    NaNNeighbourStops,
}

use Alt::*;

thread_local!(pub static ALT: Cell<Alt> = const { Cell::new(Stated) });

/// Whether this alternative is in force.
pub fn alt(a: Alt) -> bool {
    ALT.get() == a
}

/// 1.5
pub fn to_exp(x: f64) -> (f64, f64) {
    if alt(ExpByBit) {
        return (x.abs(), 1f64.copysign(x));
    }
    if x >= 0.0 {
        (if alt(ExpDropsMinus) { x.abs() } else { x }, 1.0)
    } else {
        (-x, -1.0)
    }
}

/// 1.6
pub fn signum(x: f64) -> f64 {
    if x.is_nan() {
        x
    } else if alt(SignumByValue) {
        if x >= 0.0 {
            1.0
        } else {
            -1.0
        }
    } else {
        1f64.copysign(x)
    }
}

/// 1.9
pub fn over(x: f64, f: f64) -> f64 {
    if alt(Reciprocal) {
        x * (1.0 / f)
    } else {
        x / f
    }
}

/// (a*b) + c
pub fn plus(a: f64, b: f64, c: f64) -> f64 {
    if alt(Fused) {
        a.mul_add(b, c)
    } else {
        a * b + c
    }
}

/// 2.1
pub fn largest(x: &[f64]) -> f64 {
    let mut a = x[0].abs();
    for e in &x[1..] {
        a = if alt(MaxDropsNaN) {
            a.max(e.abs())
        } else if a >= e.abs() {
            a
        } else {
            e.abs()
        };
    }
    a
}

/// 2.2
pub fn dot(x: &[f64], y: &[f64]) -> f64 {
    let (n, p) = (x.len(), |i: usize| x[i] * y[i]);
    let w = if alt(LeftToRight) { 0 } else { n - n % 8 };
    let mut acc = [0.0; 8];
    for i in 0..w {
        acc[i % 8] = plus(x[i], y[i], acc[i % 8]);
    }
    if alt(BareDot) && 0 < n && n < 8 {
        return (1..n).fold(p(0), |r, i| r + p(i));
    }
    let mut r = 0.0;
    for l in 0..4 {
        r += if alt(Lanes01) {
            acc[2 * l] + acc[2 * l + 1]
        } else {
            acc[l] + acc[l + 4]
        };
    }
    for i in w..n {
        r = plus(x[i], y[i], r);
    }
    r
}

/// 2.3
pub fn fixed(x: &[f64], y: &[f64]) -> f64 {
    let a = if alt(StaticZero) {
        0.0 + x[0] * y[0]
    } else {
        x[0] * y[0]
    };
    if x.len() == 2 {
        return plus(x[1], y[1], a);
    }
    if alt(StaticRight) {
        a + (x[1] * y[1] + x[2] * y[2])
    } else {
        plus(x[2], y[2], plus(x[1], y[1], a))
    }
}

/// 2.9: one row
pub fn times(row: &[f64], v: &[f64]) -> f64 {
    if alt(TimesByEight) {
        return dot(row, v);
    }
    let w = if alt(TimesZero) {
        0.0 + row[0] * v[0]
    } else {
        row[0] * v[0]
    };
    (1..v.len()).fold(w, |w, j| plus(row[j], v[j], w))
}

/// 3.1
pub fn axis(c: &mut [f64], dot: Dot) -> (f64, bool) {
    let sq = 0.0 + dot(c, c);
    let norm = sq.sqrt();
    let (modulus, sign) = to_exp(c[0]);
    let signed = sign * norm;
    let factor = (sq + modulus * norm) * 2.0;
    if !(alt(KeepsC0) && factor == 0.0) {
        c[0] += signed;
    }
    if factor == 0.0 {
        return (if alt(MinusAtNone) { -signed } else { signed }, false);
    }
    for e in c.iter_mut() {
        *e = over(*e, factor.sqrt());
    }
    let n = (0.0 + dot(c, c)).sqrt();
    if !alt(OneNormalization) {
        for e in c.iter_mut() {
            *e = over(*e, n);
        }
    }
    (-signed, true)
}

/// 4.1 (s = 1), 4.2: rows r.. of the columns told
pub fn reflect(m: &mut M, a: &[f64], r: usize, cols: Range<usize>, s: f64, dot: Dot) {
    for c in cols {
        let col: V = (0..a.len()).map(|i| m[(r + i, c)]).collect();
        let d = dot(a, &col);
        for i in 0..a.len() {
            m[(r + i, c)] = if alt(ProductFirst) {
                (d * a[i]) * (s * -2.0) + s * col[i]
            } else {
                plus(d * (s * -2.0), a[i], s * col[i])
            };
        }
    }
}

/// 4.3 (s = 1), 4.4: columns c.. of the rows told
pub fn reflect_rows(m: &mut M, a: &[f64], rows: Range<usize>, c: usize, s: f64) {
    for i in rows {
        let row: V = (0..a.len()).map(|j| m[(i, c + j)]).collect();
        let w = times(&row, a);
        for j in 0..a.len() {
            m[(i, c + j)] = if alt(ProductFirst) {
                (a[j] * w) * (s * -2.0) + s * row[j]
            } else {
                plus((s * -2.0) * a[j], w, s * row[j])
            };
        }
    }
}

/// 3.4
pub fn clear(m: &mut M, k: usize) -> f64 {
    let (n, mut a) = (
        m.nrows(),
        m.as_slice()[k + 1 + k * m.nrows()..(k + 1) * m.nrows()].to_vec(),
    );
    let (norm, yes) = axis(&mut a, dot);
    for (i, e) in a.iter().enumerate() {
        m[(k + 1 + i, k)] = *e;
    }
    if yes {
        let s = signum(norm);
        if alt(ColumnsFirst) {
            reflect(m, &a, k + 1, k + 1..n, s, dot);
        }
        reflect_rows(m, &a, 0..n, k + 1, s);
        if !alt(ColumnsFirst) {
            reflect(m, &a, k + 1, k + 1..n, s, dot);
        }
    }
    norm
}

/// 3.5
pub fn assemble(m: &M, signs: &[f64]) -> M {
    let n = m.nrows();
    let mut q = M::from_fn(n, n, |i, j| if i == j { 1.0 } else { 0.0 });
    for i in (0..n - 1).rev() {
        if alt(SkipsNone) && signs[i] == 0.0 {
            continue;
        }
        reflect(
            &mut q,
            &m.as_slice()[i + 1 + i * n..(i + 1) * n],
            i + 1,
            i..n,
            signum(signs[i]),
            dot,
        );
    }
    q
}

/// 6: Q, H
pub fn hessenberg(mut m: M) -> (M, M) {
    let sub: V = (0..m.nrows() - 1).map(|k| clear(&mut m, k)).collect();
    let q = assemble(&m, &sub);
    (
        q,
        M::from_fn(m.nrows(), m.nrows(), |i, j| {
            if i > j + 1 {
                0.0
            } else if i == j + 1 {
                sub[j].abs()
            } else {
                m[(i, j)]
            }
        }),
    )
}

/// 5.1
pub fn try_new(x: f64, y: f64, eps: f64) -> Option<(f64, f64)> {
    let (m, g) = to_exp(x);
    let den = if alt(ByHypot) {
        m.hypot(y)
    } else {
        plus(m, m, y * y).sqrt()
    };
    (den > eps).then(|| {
        (
            m / den,
            if alt(SineOverDen) {
                y / den
            } else {
                y / (g * den)
            },
        )
    })
}

/// 5.2
pub fn new(x: f64, y: f64) -> (f64, f64) {
    try_new(x, y, 0.0).unwrap_or(if alt(NoIdentity) {
        (0.0, 0.0)
    } else {
        (1.0, 0.0)
    })
}

/// 5.3: cosine, sine, norm
pub fn cancel_y(x: f64, y: f64) -> Option<(f64, f64, f64)> {
    if y == 0.0 {
        return None;
    }
    let (m, g) = to_exp(x);
    let den = if alt(ByHypot) {
        m.hypot(y)
    } else {
        plus(m, m, y * y).sqrt()
    };
    Some((
        m / den,
        -y / if alt(SineOverDen) { den } else { g * den },
        g * den,
    ))
}

/// 5.5: rows r, r+1 of the columns told
pub fn turn(m: &mut M, (c, s): (f64, f64), r: usize, cols: Range<usize>) {
    for j in cols {
        let (a, b) = (m[(r, j)], m[(r + 1, j)]);
        (m[(r, j)], m[(r + 1, j)]) = (plus(a, c, -(s * b)), plus(s, a, b * c));
    }
}

/// 5.6: columns k, k+1 of the rows told
pub fn turn_rows(m: &mut M, (c, s): (f64, f64), rows: Range<usize>, k: usize) {
    for i in rows {
        let (a, b) = (m[(i, k)], m[(i, k + 1)]);
        (m[(i, k)], m[(i, k + 1)]) = (plus(a, c, s * b), plus(-s, a, b * c));
    }
}

/// 7.2
pub fn eig2(h00: f64, h10: f64, h01: f64, h11: f64) -> Option<(f64, f64)> {
    let val = (h00 - h11) * 0.5;
    let mut half = (h00 + h11) * 0.5;
    if alt(HalvesApart) {
        half = h00 * 0.5 + h11 * 0.5;
    }
    let discr = if alt(DiscrByTrace) {
        half * half - (h00 * h11 - h10 * h01)
    } else {
        plus(h10, h01, val * val)
    };
    (discr >= 0.0).then(|| (half + discr.sqrt(), half - discr.sqrt()))
}

/// 7.3, the block at k
pub fn basis2(t: &M, k: usize) -> Option<(f64, f64)> {
    let (h10, h11) = (t[(k + 1, k)], t[(k + 1, k + 1)]);
    if h10 == 0.0 {
        return None;
    }
    let (e1, e2) = eig2(t[(k, k)], h10, t[(k, k + 1)], h11)?;
    let (x1, x2) = (e1 - h11, e2 - h11);
    Some(new(
        if x1.abs() > x2.abs() || alt(TieTakesFirst) && x1.abs() == x2.abs() {
            x1
        } else {
            x2
        },
        h10,
    ))
}

/// 7.6
pub fn delimit(t: &mut M, eps: f64, mut e: usize) -> (usize, usize) {
    let small = |t: &M, i: usize| {
        let (off, sum) = (
            t[(i, i - 1)].abs(),
            t[(i, i)].abs() + t[(i - 1, i - 1)].abs(),
        );
        if alt(NaNDeflates) && off.is_nan() || alt(NaNNeighbourStops) && sum.is_nan() {
            return off.is_nan();
        }
        off <= eps * eps && !alt(RelativeOnly) || off <= eps * sum
    };
    while e > 0 && small(t, e) {
        t[(e, e - 1)] = 0.0;
        e -= 1;
    }
    if e == 0 {
        return (0, 0);
    }
    let mut s = e - 1;
    while s > 0 {
        if t[(s, s - 1)] == 0.0 || small(t, s) {
            t[(s, s - 1)] = 0.0;
            break;
        }
        s -= 1;
    }
    (s, e)
}

/// 7.7
pub fn pass(t: &mut M, q: &mut M, s: usize, e: usize) {
    let (n, m) = (t.nrows(), e - 1);
    let (h11, h21, h22) = (t[(s, s)], t[(s + 1, s)], t[(s + 1, s + 1)]);
    let tra = t[(e, e)] + t[(m, m)];
    let det = t[(e, e)] * t[(m, m)] - t[(e, m)] * t[(m, e)];
    let x = h11 * h11 + t[(s, s + 1)] * h21;
    let x = if alt(ShiftRight) {
        x - (tra * h11 - det)
    } else {
        (x - tra * h11) + det
    };
    let y = if alt(ShiftY) {
        h21 * (h11 + (h22 - tra))
    } else {
        h21 * ((h11 + h22) - tra)
    };
    let mut a = vec![x, y, h21 * t[(s + 2, s + 1)]];
    for k in s..e {
        if k == m {
            a.truncate(2);
        }
        let (norm, yes) = axis(&mut a, fixed);
        if yes {
            if k > s {
                t[(k, k - 1)] = norm;
                for i in 1..a.len() {
                    t[(k + i, k - 1)] = 0.0;
                }
            }
            reflect(
                t,
                &a,
                k,
                k..if alt(ToWindow) { e + 1 } else { n },
                1.0,
                fixed,
            );
            reflect_rows(
                t,
                &a,
                0..if alt(AllRows) { n } else { (k + 4).min(e + 1) },
                k,
                1.0,
            );
            reflect_rows(q, &a, 0..n, k, 1.0);
        }
        for i in 0..if k < e - 1 { 3.min(e - k) } else { 0 } {
            a[i] = t[(k + 1 + i, k)];
        }
    }
}

/// 7: Q and T, or none at the budget
pub fn schur(mut t: M, eps: f64, budget: usize) -> Option<(M, M)> {
    let n = t.nrows();
    let mut q = M::from_fn(n, n, |i, j| if i == j { 1.0 } else { 0.0 });
    let amax = if n > 2 || alt(ScalesOrder2) {
        largest(t.as_slice())
    } else {
        1.0
    };
    if amax != 0.0 || alt(ZeroDivided) {
        for e in t.iter_mut() {
            *e = over(*e, amax);
        }
    }
    if n == 2 {
        if let Some((c, s)) = basis2(&t, 0) {
            turn(&mut t, (c, -s), 0, 0..2);
            turn_rows(&mut t, (c, s), 0..2, 0);
            t[(1, 0)] = 0.0;
            q = M::from_column_slice(2, 2, &[c, s, -s, c]);
        }
    }
    if n > 2 {
        (q, t) = hessenberg(t);
        let (mut s, mut e) = delimit(&mut t, eps, n - 1);
        let mut count = 0;
        while s != e {
            let mut last = false;
            if e - s > 1 {
                pass(&mut t, &mut q, s, e);
            } else {
                if let Some((c, w)) = basis2(&t, s) {
                    turn(&mut t, (c, -w), s, s..n);
                    turn_rows(&mut t, (c, w), 0..e + 1, s);
                    t[(e, s)] = 0.0;
                    turn_rows(&mut q, (c, w), 0..n, s);
                }
                last = e <= 2;
                if last && !alt(CountsLast) {
                    break;
                }
                e = if last { s } else { e - 2 };
            }
            if !last {
                (s, e) = delimit(&mut t, eps, e);
            }
            count += 1;
            if count == budget && !(alt(AcceptsClosed) && s == e) {
                return None;
            }
        }
    }
    for e in t.iter_mut() {
        *e *= amax;
    }
    Some((q, t))
}

/// 8.2: real part, imaginary part of each
pub fn complex(t: &M) -> V {
    let (n, mut k, mut out) = (t.nrows(), 0, vec![]);
    while k < n {
        if k == n - 1 || t[(k + 1, k)] == 0.0 {
            out.extend([t[(k, k)], 0.0]);
            k += 1;
            continue;
        }
        let val = (t[(k, k)] - t[(k + 1, k + 1)]) * 0.5;
        let discr = plus(t[(k + 1, k)], t[(k, k + 1)], val * val);
        let r = if alt(RootOfMagnitude) {
            discr.abs().sqrt()
        } else {
            (-discr).sqrt()
        };
        let half = (t[(k + 1, k + 1)] + t[(k, k)]) * 0.5;
        out.extend([
            if alt(HalfKept) { half } else { half + 0.0 },
            if alt(RootBare) { r } else { 0.0 + r },
            half - 0.0,
            0.0 - r,
        ]);
        k += 2;
    }
    out
}

/// 2.11
pub fn hegemv(m: &M, a: &[f64]) -> V {
    let k = a.len();
    let col = |j: usize, r: usize| &m.as_slice()[r + j * k..(j + 1) * k];
    if alt(FullProduct) {
        return (0..k)
            .map(|r| 2.0 * times(&(0..k).map(|j| m[(r.max(j), r.min(j))]).collect::<V>(), a))
            .collect();
    }
    let mut p: V = (0..k).map(|r| (2.0 * a[0]) * m[(r, 0)]).collect();
    p[0] = plus(2.0, dot(col(0, 1), &a[1..]), p[0]);
    for j in 1..k {
        p[j] += if alt(DiagonalApart) {
            2.0 * (m[(j, j)] * a[j] + dot(col(j, j + 1), &a[j + 1..]))
        } else {
            2.0 * dot(col(j, j), &a[j..])
        };
        for r in j + 1..k {
            p[r] = plus(2.0 * a[j], m[(r, j)], p[r]);
        }
    }
    p
}

/// 2.12
pub fn hegerc(m: &mut M, alpha: f64, x: &[f64], y: &[f64]) {
    for j in 0..x.len() {
        for r in j..x.len() {
            m[(r, j)] = if alt(ProductFirst) {
                alpha * (y[j] * x[r]) + m[(r, j)]
            } else {
                plus(alpha * y[j], x[r], m[(r, j)])
            };
        }
    }
}

/// 9.2: Q, diagonal, off
pub fn tridiagonal(mut m: M) -> (M, V, V) {
    let n = m.nrows();
    let mut off = vec![];
    for i in 0..n - 1 {
        let mut a = m.as_slice()[i + 1 + i * n..(i + 1) * n].to_vec();
        let (norm, yes) = axis(&mut a, dot);
        off.push(norm);
        for (r, e) in a.iter().enumerate() {
            m[(i + 1 + r, i)] = *e;
        }
        if yes {
            let mut b = m.view((i + 1, i + 1), (n - 1 - i, n - 1 - i)).clone_owned();
            let p = hegemv(&b, &a);
            let d = dot(&a, &p);
            hegerc(&mut b, -1.0, &p, &a);
            hegerc(&mut b, -1.0, &a, &p);
            hegerc(&mut b, d * 2.0, &a, &a);
            m.view_mut((i + 1, i + 1), (n - 1 - i, n - 1 - i))
                .copy_from(&b);
        }
    }
    (
        assemble(&m, &off),
        (0..n).map(|i| m[(i, i)]).collect(),
        off.iter().map(|e| e.abs()).collect(),
    )
}

/// 9.4
pub fn wilkinson(tmm: f64, tnn: f64, tmn: f64) -> f64 {
    let q = tmn * tmn;
    if q == 0.0 {
        return tnn;
    }
    let d = (tmm - tnn) * 0.5;
    tnn - q / (d + signum(d) * plus(d, d, q).sqrt())
}

/// 9: eigenvalues and Q, or none at the budget
pub fn symmetric(mut m: M, eps: f64, budget: usize) -> Option<V> {
    let (n, amax) = (m.nrows(), largest(m.as_slice()));
    if amax != 0.0 || alt(ZeroDivided) {
        for e in m.iter_mut() {
            *e = over(*e, amax);
        }
    }
    let (mut q, mut diag, mut off) = tridiagonal(m);
    let delimit = |d: &V, off: &mut V, mut e: usize| {
        let bound = |d: &V, i: usize| eps * (d[i].abs() + d[i - 1].abs());
        let open = |d: &V, off: &V, i: usize| {
            (off[i - 1].abs() > bound(d, i) && !(alt(AbsoluteToo) && off[i - 1].abs() <= eps * eps))
                || alt(NaNStops) && off[i - 1].is_nan()
        };
        while e > 0 && !open(d, off, e) {
            e -= 1;
        }
        let mut s = e.max(1) - 1;
        while s > 0 {
            if off[s - 1] == 0.0 || off[s - 1].abs() <= bound(d, s) {
                off[s - 1] = 0.0;
                break;
            }
            s -= 1;
        }
        (s, e)
    };
    let (mut s, mut e) = delimit(&diag, &mut off, n - 1);
    let mut count = 0;
    while s != e {
        if e - s > 1 {
            let m = e - 1;
            let (mut x, mut y) = (diag[s] - wilkinson(diag[m], diag[e], off[m]), off[s]);
            for i in s..e {
                let Some((c, w, norm)) = cancel_y(x, y) else {
                    break;
                };
                if i > s {
                    off[i - 1] = norm;
                }
                let (di, dj, o, cc, ss, cs) = (diag[i], diag[i + 1], off[i], c * c, w * w, c * w);
                let b = (cs * 2.0) * o;
                diag[i] = plus(cc, di, ss * dj) - b;
                diag[i + 1] = plus(ss, di, cc * dj) + b;
                off[i] = plus(cs, di - dj, o * (cc - ss));
                if i != e - 1 {
                    (x, y) = (off[i], -w * off[i + 1]);
                    off[i + 1] *= c;
                }
                turn_rows(&mut q, (c, -w), 0..n, i);
            }
            if off[m].abs() <= eps * (diag[m].abs() + diag[e].abs()) {
                e -= 1;
            }
        } else {
            let (d0, d1, o) = (diag[s], diag[e], off[s]);
            let (x, y) = eig2(d0, o, o, d1)?;
            let tie = alt(TieBasis) && (x - d1).abs() == (x - d0).abs();
            let b = if (x - d1).abs() > (x - d0).abs() || tie {
                (x - d1, o)
            } else {
                (o, x - d0)
            };
            (diag[s], diag[e]) = (x, y);
            if let Some(r) = try_new(b.0, b.1, if alt(EpsZero) { 0.0 } else { eps }) {
                turn_rows(&mut q, r, 0..n, s);
            }
            e -= 1;
        }
        (s, e) = delimit(&diag, &mut off, e);
        count += 1;
        if count == budget {
            return None;
        }
    }
    Some(
        diag.iter()
            .map(|d| d * amax)
            .chain(q.iter().copied())
            .collect(),
    )
}
