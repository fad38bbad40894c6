//! Command `sums`: docs/SUMS.md, the order of every sum and the sign at every zero, held to the crate
//! through the public interface of nalgebra and simba. A statement holds if the crate has the stated
//! formula's bits on every input tried, and if each alternative named gives other bits on at least one
//! of them: so the inputs do tell.

mod formulas;

use crate::random::Random;
use formulas::Alt::*;
use formulas::*;
use nalgebra::linalg::{givens::GivensRotation, householder, wilkinson_shift};
use nalgebra::{ComplexField, DVector, Hessenberg, RealField, Reflection, Schur, SimdPartialOrd};
use nalgebra::{SymmetricEigen, SymmetricTridiagonal, Unit, Vector2, Vector3};

/// Random inputs of several kinds.
struct Rng(Random);
impl Rng {
    fn next(&mut self) -> u64 {
        self.0.word() >> 11
    }
    fn of<T: Copy>(&mut self, list: &[T]) -> T {
        list[(self.next() % list.len() as u64) as usize]
    }
    fn upto(&mut self, p: usize, q: usize) -> usize {
        p + (self.next() % (q - p + 1) as u64) as usize
    }
    /// kind 0: ordinary; 1: few values, zeros of both signs; 2: wide; 3: squares that vanish or nearly; 4: sixteenths
    fn num(&mut self, kind: usize) -> f64 {
        let u = self.next() as f64 / (1u64 << 52) as f64 - 1.0;
        match kind {
            1 => self.of(&[0.0, -0.0, 1.0, -1.0, 2.0, -0.5]),
            2 => u * 2f64.powi(self.upto(0, 1100) as i32 - 600),
            3 => self.of(&[u * 2f64.powi(-537), u * 2f64.powi(-540), 0.0, -0.0, u]),
            4 => (u * 32.0).round() / 16.0,
            _ => u,
        }
    }
    fn vec(&mut self, n: usize, kind: usize) -> V {
        (0..n).map(|_| self.num(kind)).collect()
    }
    fn mat(&mut self, n: usize, kind: usize) -> M {
        M::from_vec(n, n, self.vec(n * n, kind))
    }
}

type Formula = Box<dyn Fn() -> V>;
struct List {
    done: usize,
    rng: Rng,
}

impl List {
    /// `f` gives the crate's bits on one input and the stated formula on the same input.
    fn check(
        &mut self,
        name: &str,
        alts: &[Alt],
        tries: usize,
        f: impl Fn(&mut Rng) -> (V, Formula),
    ) -> Result<(), String> {
        let bit = |(x, y): (&f64, &f64)| x.to_bits() == y.to_bits() || x.is_nan() && y.is_nan();
        let same = |a: &V, b: &V| a.len() == b.len() && a.iter().zip(b).all(bit);
        let mut silent = alts.to_vec();
        for i in 0..tries {
            let (got, stated) = f(&mut self.rng);
            let want = stated();
            if !same(&got, &want) {
                return Err(format!(
                    "{name}: input {i}: the crate gives {got:?}, stated is {want:?}"
                ));
            }
            silent.retain(|a| {
                ALT.set(*a);
                same(&got, &stated())
            });
            ALT.set(Stated);
        }
        if !silent.is_empty() {
            return Err(format!(
                "{name}: no input tells the statement from {silent:?}"
            ));
        }
        self.done += 1;
        Ok(())
    }
}

fn both(got: impl Into<V>, stated: impl Fn() -> V + 'static) -> (V, Formula) {
    (got.into(), Box::new(stated))
}

fn each(f: fn(f64) -> V) -> V {
    [
        0.0,
        -0.0,
        f64::NAN,
        f64::INFINITY,
        f64::NEG_INFINITY,
        -2.5,
        2.0,
        3.0,
        -5e-324,
    ]
    .into_iter()
    .flat_map(f)
    .collect()
}

fn bit(b: bool) -> f64 {
    b as u8 as f64
}

fn dv(x: &V) -> DVector<f64> {
    DVector::from_vec(x.clone())
}

/// the entries after `f`
fn after(m: &M, f: impl FnOnce(&mut M)) -> V {
    let mut m = m.clone();
    f(&mut m);
    m.as_slice().to_vec()
}

fn two((a, b): (M, M)) -> V {
    [a.as_slice(), b.as_slice()].concat()
}

fn list(x: Option<(f64, f64)>) -> V {
    x.map_or(vec![], |(a, b)| vec![a, b])
}

fn given(r: Option<(GivensRotation<f64>, f64)>) -> V {
    list(r.map(|(r, _)| (r.c(), r.s())))
}

fn house(c: &V) -> V {
    let mut v = dv(c);
    let (a, b) = householder::reflection_axis_mut(&mut v);
    [&[a, bit(b)], v.as_slice()].concat()
}

fn stated_axis(c: &V, dot: Dot) -> V {
    let mut c = c.clone();
    let (a, b) = axis(&mut c, dot);
    [&[a, bit(b)], &c[..]].concat()
}

fn is_zero<T: ComplexField>(x: T) -> bool {
    x.is_zero()
}

fn epsilon<T: RealField>() -> T {
    T::default_epsilon()
}

fn crate_schur(m: &M, eps: f64, budget: usize) -> V {
    Schur::try_new(m.clone(), eps, budget).map_or(vec![], |s| two(s.unpack()))
}

fn crate_symmetric(m: &M, eps: f64, budget: usize) -> V {
    SymmetricEigen::try_new(m.clone(), eps, budget).map_or(vec![], |s| {
        [s.eigenvalues.as_slice(), s.eigenvectors.as_slice()].concat()
    })
}

fn crate_values(m: &M) -> V {
    m.eigenvalues().map_or(vec![], |e| e.as_slice().to_vec())
}

fn mirrored(mut m: M) -> M {
    m.fill_upper_triangle_with_lower_triangle();
    m
}

fn spoilt(g: &mut Rng) -> M {
    let n = g.upto(2, 6);
    let (mut m, k) = (g.mat(n, 0), g.upto(0, n * n - 1));
    m[k] = g.of(&[f64::NAN, f64::INFINITY, f64::NEG_INFINITY]);
    m
}

pub fn run(arguments: &[String]) -> Result<usize, String> {
    if !arguments.is_empty() {
        return Err("takes no arguments".to_string());
    }
    match statements() {
        Ok(number) => {
            println!("{number} statements of docs/SUMS.md hold");
            Ok(0)
        }
        Err(why) => {
            println!("{why}");
            Ok(1)
        }
    }
}

/// The number of statements that hold, or the first that does not.
fn statements() -> Result<usize, String> {
    let mut l = List {
        done: 0,
        rng: Rng(Random::stream(0x5eed, 0)),
    };

    // 1 scalars
    l.check("1.2 is_zero", &[ZeroByBits], 1, |_| {
        both(each(|x| vec![bit(is_zero(x))]), move || {
            each(|x| {
                vec![bit(if alt(ZeroByBits) {
                    x.to_bits() == 0
                } else {
                    x == 0.0
                })]
            })
        })
    })?;
    l.check(
        "1.3, 1.4, 1.7 norm1, modulus, abs, modulus_squared, conjugate",
        &[KeepsMinus],
        1,
        |_| {
            both(
                each(|x| {
                    vec![
                        x.norm1(),
                        x.modulus(),
                        ComplexField::abs(x),
                        x.modulus_squared(),
                        x.conjugate(),
                    ]
                }),
                move || {
                    each(|x| {
                        let a = if alt(KeepsMinus) && x == 0.0 {
                            x
                        } else {
                            x.abs()
                        };
                        vec![a, a, a, x * x, x]
                    })
                },
            )
        },
    )?;
    l.check("1.5 to_exp", &[ExpByBit, ExpDropsMinus], 1, |_| {
        both(each(|x| list(Some(x.to_exp()))), move || {
            each(|x| list(Some(to_exp(x))))
        })
    })?;
    l.check("1.6 signum", &[SignumByValue], 1, |_| {
        both(each(|x| vec![ComplexField::signum(x)]), move || {
            each(|x| vec![signum(x)])
        })
    })?;
    l.check("1.8, 1.9 scale, unscale", &[Reciprocal], 50, |g| {
        let (x, f) = (g.num(0), g.num(0));
        both([x.scale(f), x.unscale(f)], move || vec![x * f, over(x, f)])
    })?;
    l.check("1.10, 1.11 try_sqrt", &[RootOnlyAbove0], 1, |_| {
        both(each(|x| x.try_sqrt().into_iter().collect()), move || {
            each(|x| {
                if x > 0.0 || x == 0.0 && !alt(RootOnlyAbove0) {
                    vec![x.sqrt()]
                } else {
                    vec![]
                }
            })
        })
    })?;
    l.check("1.12 simd_max", &[MaxDropsNaN], 1, |_| {
        both([1f64.simd_max(f64::NAN), f64::NAN.simd_max(1.0)], || {
            vec![largest(&[1.0, f64::NAN]), largest(&[f64::NAN, 1.0])]
        })
    })?;
    l.check("1.15 default_epsilon", &[], 1, |_| {
        both([epsilon()], || vec![2f64.powi(-52)])
    })?;

    // 2 building stones
    l.check("2.1 camax", &[MaxDropsNaN], 50, |g| {
        let mut m = g.mat(3, 0);
        m[g.upto(0, 8)] = f64::NAN;
        both([m.camax()], move || vec![largest(m.as_slice())])
    })?;
    for (n, alts) in [
        (0, &[][..]),
        (1, &[BareDot]),
        (2, &[BareDot]),
        (3, &[BareDot]),
        (7, &[BareDot, Fused]),
        (8, &[LeftToRight, Lanes01]),
        (9, &[LeftToRight, Lanes01, Fused]),
        (16, &[LeftToRight, Lanes01]),
        (17, &[LeftToRight, Lanes01]),
        (63, &[LeftToRight, Lanes01]),
    ] {
        l.check(
            &format!("2.2, 2.4 dot, run-time length {n}"),
            alts,
            100,
            |g| {
                let (x, y) = if g.of(&[true, false]) {
                    (vec![-0.0; n], vec![1.0; n])
                } else {
                    (g.vec(n, 0), g.vec(n, 0))
                };
                both([dv(&x).dotc(&dv(&y))], move || vec![dot(&x, &y)])
            },
        )?;
    }
    l.check("2.3 dot, static length 2", &[StaticZero, Fused], 200, |g| {
        let k = g.upto(0, 1);
        let (x, y) = (g.vec(2, k), g.vec(2, k));
        both(
            [Vector2::from_column_slice(&x).dotc(&Vector2::from_column_slice(&y))],
            move || vec![fixed(&x, &y)],
        )
    })?;
    l.check(
        "2.3 dot, static length 3",
        &[StaticZero, StaticRight, Fused],
        200,
        |g| {
            let k = g.upto(0, 1);
            let (x, y) = (g.vec(3, k), g.vec(3, k));
            both(
                [Vector3::from_column_slice(&x).dotc(&Vector3::from_column_slice(&y))],
                move || vec![fixed(&x, &y)],
            )
        },
    )?;
    l.check(
        "2.5, 2.6 norm_squared, norm, normalize_mut",
        &[LeftToRight, Reciprocal],
        50,
        |g| {
            let n = g.upto(1, 20);
            let x = g.vec(n, 0);
            let mut v = dv(&x);
            let (sq, norm, _) = (v.norm_squared(), v.norm(), v.normalize_mut());
            both([&[sq, norm], v.as_slice()].concat(), move || {
                let sq = 0.0 + dot(&x, &x);
                [sq, sq.sqrt()]
                    .into_iter()
                    .chain(x.iter().map(|e| over(*e, sq.sqrt())))
                    .collect()
            })
        },
    )?;
    l.check("2.7 unscale_mut, scale_mut", &[Reciprocal], 50, |g| {
        let (m, f, h) = (g.mat(3, 0), g.num(0), g.num(0));
        both(
            after(&m, |m| {
                m.unscale_mut(f);
                m.scale_mut(h)
            }),
            move || m.iter().map(|e| over(*e, f) * h).collect(),
        )
    })?;
    l.check("2.8 axpy", &[Fused, ReadsY], 100, |g| {
        let (a, x, b) = (g.num(0), g.vec(4, 0), g.num(0));
        let b = g.of(&[0.0, -0.0, b]);
        let y = if b == 0.0 {
            vec![f64::NAN; 4]
        } else {
            g.vec(4, 0)
        };
        let mut v = dv(&y);
        v.axpy(a, &dv(&x), b);
        both(v.as_slice(), move || {
            (0..4)
                .map(|i| {
                    if b == 0.0 && !alt(ReadsY) {
                        a * x[i]
                    } else {
                        plus(a, x[i], b * y[i])
                    }
                })
                .collect()
        })
    })?;
    l.check(
        "2.9 matrix times vector",
        &[TimesZero, TimesByEight, Fused],
        200,
        |g| {
            let (n, k) = (g.of(&[1, 2, 3, 8, 9, 20]), g.upto(0, 1));
            let (m, v) = (g.mat(n, k), g.vec(n, k));
            let mut w = dv(&vec![f64::NAN; n]);
            m.mul_to(&dv(&v), &mut w);
            both(w.as_slice(), move || {
                (0..n)
                    .map(|i| times(&m.row(i).iter().copied().collect::<V>(), &v))
                    .collect()
            })
        },
    )?;
    l.check("2.10 gerc", &[ProductFirst, Fused], 200, |g| {
        let (m, x, y, b) = (g.mat(3, 3), g.vec(3, 3), g.vec(3, 3), g.of(&[1.0, -1.0]));
        both(
            after(&m, |m| m.gerc(-2.0, &dv(&x), &dv(&y), b)),
            move || {
                after(&m, |m| {
                    for k in 0..9 {
                        let (i, j) = (k % 3, k / 3);
                        m[k] = if alt(ProductFirst) {
                            -2.0 * (y[j] * x[i]) + b * m[k]
                        } else {
                            plus(-2.0 * y[j], x[i], b * m[k])
                        };
                    }
                })
            },
        )
    })?;
    l.check(
        "2.11 hegemv",
        &[FullProduct, DiagonalApart, LeftToRight],
        100,
        |g| {
            let n = g.upto(1, 20);
            let (mut m, a) = (g.mat(n, 0), g.vec(n, 0));
            m.fill_upper_triangle(f64::NAN, 1);
            let mut p = dv(&vec![f64::NAN; n]);
            p.hegemv(2.0, &m, &dv(&a), 0.0);
            both(p.as_slice(), move || hegemv(&m, &a))
        },
    )?;
    l.check("2.12 hegerc", &[ProductFirst, Fused], 100, |g| {
        let (m, x, y, d) = (g.mat(4, 3), g.vec(4, 3), g.vec(4, 3), -2.0 * g.num(0));
        both(
            after(&m, |m| m.hegerc(d, &dv(&x), &dv(&y), 1.0)),
            move || after(&m, |m| hegerc(m, d, &x, &y)),
        )
    })?;
    l.check("2.13 identity, fill_lower_triangle", &[], 1, |g| {
        let m = g.mat(4, 0);
        both(
            two((
                M::identity(4, 4),
                M::from_vec(4, 4, after(&m, |m| m.fill_lower_triangle(0.0, 2))),
            )),
            move || {
                two((
                    M::from_fn(4, 4, |i, j| bit(i == j)),
                    M::from_fn(4, 4, |i, j| if i >= j + 2 { 0.0 } else { m[(i, j)] }),
                ))
            },
        )
    })?;

    // 3 axis, clearing a column, assembling Q
    l.check(
        "3.1 axis, run-time",
        &[LeftToRight, OneNormalization, Reciprocal, ExpByBit],
        300,
        |g| {
            let (n, k) = (g.upto(1, 20), g.upto(0, 3));
            let c = g.vec(n, k);
            both(house(&c), move || stated_axis(&c, dot))
        },
    )?;
    l.check(
        "3.1 axis, static length 3",
        &[StaticRight, OneNormalization],
        300,
        |g| {
            let k = g.upto(0, 3);
            let c = g.vec(3, k);
            let mut v = Vector3::from_column_slice(&c);
            let (a, b) = householder::reflection_axis_mut(&mut v);
            both([&[a, bit(b)], v.as_slice()].concat(), move || {
                stated_axis(&c, fixed)
            })
        },
    )?;
    l.check(
        "3.2 no reflection",
        &[MinusAtNone, KeepsC0, ExpByBit],
        1,
        |_| {
            let c = [0.0, -0.0, 1e-200, -1e-200].map(|c| vec![c, -1e-170]);
            both(c.clone().map(|c| house(&c)).concat(), move || {
                c.clone().map(|c| stated_axis(&c, dot)).concat()
            })
        },
    )?;
    // the answer is put into [0,0], which clearing does not touch
    l.check(
        "3.4 clearing a column",
        &[ColumnsFirst, TimesByEight, LeftToRight, Fused],
        100,
        |g| {
            let n = g.upto(2, 12);
            let (m, k) = (g.mat(n, 0), g.upto(0, n - 2));
            both(
                after(&m, |m| {
                    let a = householder::clear_column_unchecked(
                        m,
                        k,
                        1,
                        Some(&mut dv(&vec![f64::NAN; n])),
                    );
                    m[0] = a
                }),
                move || {
                    after(&m, |m| {
                        let a = clear(m, k);
                        m[0] = a
                    })
                },
            )
        },
    )?;
    l.check(
        "3.5 assembling Q",
        &[SkipsNone, SignumByValue, BareDot, LeftToRight],
        300,
        |g| {
            let (n, k) = (g.upto(1, 12), g.of(&[1, 3]));
            let (m, s) = (g.mat(n, k), g.vec(n - 1, 1));
            both(householder::assemble_q(&m, &s).as_slice(), move || {
                assemble(&m, &s).as_slice().to_vec()
            })
        },
    )?;

    // 4 reflections
    let refl = |a: &V| Reflection::new(Unit::new_unchecked(dv(a)), 0.0);
    l.check(
        "4.1 reflect, run-time",
        &[LeftToRight, BareDot, ProductFirst, Fused],
        300,
        |g| {
            let (n, k) = (g.upto(1, 12), g.upto(0, 3));
            let (m, a) = (g.mat(n, k), g.vec(n, k));
            both(after(&m, |m| refl(&a).reflect(m)), move || {
                after(&m, |m| reflect(m, &a, 0, 0..n, 1.0, dot))
            })
        },
    )?;
    l.check(
        "4.1 reflect, static length 3",
        &[StaticZero, StaticRight],
        300,
        |g| {
            let k = g.upto(0, 3);
            let (m, a) = (g.mat(3, k), g.vec(3, k));
            both(
                after(&m, |m| {
                    Reflection::new(Unit::new_unchecked(Vector3::from_column_slice(&a)), 0.0)
                        .reflect(m)
                }),
                move || after(&m, |m| reflect(m, &a, 0, 0..3, 1.0, fixed)),
            )
        },
    )?;
    l.check(
        "4.2 reflect_with_sign",
        &[LeftToRight, BareDot, Fused],
        300,
        |g| {
            let (n, k, s) = (g.upto(1, 12), g.upto(0, 1), g.of(&[1.0, -1.0]));
            let (m, a) = (g.mat(n, k), g.vec(n, k));
            both(after(&m, |m| refl(&a).reflect_with_sign(m, s)), move || {
                after(&m, |m| reflect(m, &a, 0, 0..n, s, dot))
            })
        },
    )?;
    l.check(
        "4.3 reflect_rows",
        &[TimesByEight, TimesZero, ProductFirst, Fused],
        300,
        |g| {
            let (n, k) = (g.upto(1, 12), g.upto(0, 3));
            let (m, a) = (g.mat(n, k), g.vec(n, k));
            both(
                after(&m, |m| refl(&a).reflect_rows(m, &mut dv(&a))),
                move || after(&m, |m| reflect_rows(m, &a, 0..n, 0, 1.0)),
            )
        },
    )?;
    l.check(
        "4.4 reflect_rows_with_sign",
        &[TimesByEight, TimesZero, Fused],
        300,
        |g| {
            let (n, k, s) = (g.upto(1, 12), g.upto(0, 1), g.of(&[1.0, -1.0]));
            let (m, a) = (g.mat(n, k), g.vec(n, k));
            both(
                after(&m, |m| refl(&a).reflect_rows_with_sign(m, &mut dv(&a), s)),
                move || after(&m, |m| reflect_rows(m, &a, 0..n, 0, s)),
            )
        },
    )?;

    // 5 rotations
    l.check(
        "5.1 try_new",
        &[ByHypot, SineOverDen, ExpByBit, Fused],
        300,
        |g| {
            let k = g.upto(0, 3);
            let (x, y, e) = (g.num(k), g.num(k), g.of(&[0.0, 0.5]));
            both(given(GivensRotation::try_new(x, y, e)), move || {
                list(try_new(x, y, e))
            })
        },
    )?;
    l.check("5.2 new", &[NoIdentity, ExpDropsMinus], 300, |g| {
        let k = g.of(&[1, 3]);
        let (x, y) = (g.num(k), g.num(k));
        both(given(Some(GivensRotation::new(x, y))), move || {
            list(Some(new(x, y)))
        })
    })?;
    l.check(
        "5.3, 5.4 cancel_y, inverse",
        &[ByHypot, SineOverDen, ExpByBit, Fused],
        300,
        |g| {
            let k = g.upto(0, 3);
            let (x, y) = (g.num(k), g.num(k));
            both(
                GivensRotation::cancel_y(&Vector2::new(x, y))
                    .map_or(vec![], |(r, n)| vec![r.inverse().c(), r.inverse().s(), n]),
                move || cancel_y(x, y).map_or(vec![], |(c, s, n)| vec![c, -s, n]),
            )
        },
    )?;
    l.check("5.5 rotate", &[Fused], 100, |g| {
        let k = g.upto(0, 1);
        let (m, c, s) = (g.mat(2, k), g.num(k), g.num(k));
        both(
            after(&m, |m| GivensRotation::new_unchecked(c, s).rotate(m)),
            move || after(&m, |m| turn(m, (c, s), 0, 0..2)),
        )
    })?;
    l.check("5.6 rotate_rows", &[Fused], 100, |g| {
        let k = g.upto(0, 1);
        let (m, c, s) = (g.mat(2, k), g.num(k), g.num(k));
        both(
            after(&m, |m| GivensRotation::new_unchecked(c, s).rotate_rows(m)),
            move || after(&m, |m| turn_rows(m, (c, s), 0..2, 0)),
        )
    })?;

    // 6, 7, 8 Hessenberg, Schur, readers
    l.check(
        "6 Hessenberg, Q and H",
        &[
            ColumnsFirst,
            TimesByEight,
            LeftToRight,
            MinusAtNone,
            OneNormalization,
            SkipsNone,
        ],
        300,
        |g| {
            let (n, k) = (g.upto(2, 13), g.upto(0, 4));
            let m = g.mat(n, k);
            both(two(Hessenberg::new(m.clone()).unpack()), move || {
                two(hessenberg(m.clone()))
            })
        },
    )?;
    l.check(
        "7.2, 8.3 eigenvalues() at order 2",
        &[DiscrByTrace, HalvesApart, SmallerFirst, Fused],
        500,
        |g| {
            let k = g.of(&[0, 1, 3, 4]);
            let mut v = g.vec(4, k);
            if g.of(&[true, false]) {
                v[0] = g.of(&[5e-324, v[0]]);
                v[3] = v[0];
            }
            let m = M::from_vec(2, 2, v);
            both(crate_values(&m), move || {
                let mut e = list(eig2(m[0], m[1], m[2], m[3]));
                if alt(SmallerFirst) {
                    e.reverse()
                }
                e
            })
        },
    )?;
    let minus = M::from_vec(2, 2, vec![-5e-324, 1.0, 0.0, 0.0]);
    l.check(
        "7.1, 7.3, 7.4 orders 1 and 2",
        &[
            TieTakesFirst,
            ScalesOrder2,
            NoIdentity,
            ExpDropsMinus,
            Fused,
        ],
        2000,
        |g| {
            let (n, k) = (g.upto(1, 2), g.upto(0, 5));
            let m = if k == 5 { minus.clone() } else { g.mat(n, k) };
            both(crate_schur(&m, 0.0, 1), move || {
                schur(m.clone(), 0.0, 1).map_or(vec![], two)
            })
        },
    )?;
    let zeros = M::from_vec(
        4,
        4,
        vec![
            -0.0, -0.0, 2.0, 0.0, -0.0, 2.0, 1.0, 0.0, -1.0, -1.0, 2.0, 0.0, 0.0, -0.0, 0.0, 2.0,
        ],
    );
    l.check(
        "7.5 to 7.10 orders 3 to 12: T, Q, count",
        &[
            RelativeOnly,
            ToWindow,
            AllRows,
            ShiftRight,
            ShiftY,
            StaticRight,
            StaticZero,
            CountsLast,
            AcceptsClosed,
            ZeroDivided,
            LeftToRight,
            TimesByEight,
            TimesZero,
            BareDot,
            ExpByBit,
            SignumByValue,
            MinusAtNone,
            SkipsNone,
            TieTakesFirst,
            Reciprocal,
            Fused,
        ],
        8000,
        |g| {
            let (n, k, eps, budget) = (
                g.upto(3, 12),
                g.upto(0, 4),
                g.of(&[0.0, f64::EPSILON, 1e-3, 0.5, 0.99]),
                g.of(&[1, 2, 3, 5, 60]),
            );
            let m = match g.upto(0, 50) {
                0 => M::zeros(n, n),
                1 => zeros.clone(),
                _ => g.mat(n, k),
            };
            both(crate_schur(&m, eps, budget), move || {
                schur(m.clone(), eps, budget).map_or(vec![], two)
            })
        },
    )?;
    l.check(
        "8.1 real reader: -0 below the diagonal passes, -0 on it stays",
        &[ZeroByBits],
        1,
        |_| {
            both(
                Schur::new(M::from_vec(2, 2, vec![-0.0, -0.0, 1.0, 3.0]))
                    .eigenvalues()
                    .map_or(vec![], |e| e.as_slice().to_vec()),
                || {
                    if alt(ZeroByBits) {
                        vec![]
                    } else {
                        vec![-0.0, 3.0]
                    }
                },
            )
        },
    )?;
    // three blocks that stand: real parts of -0; squares that vanish, so that discr = +0; a discriminant above 0 after the unscaling
    let blocks = [
        vec![-0.0, 1.0, -1.0, -0.0],
        vec![0.0, 1e-200, 0.0, -1e-200, 0.0, 0.0, 0.0, 0.0, 2e-200],
        [
            0x41b0358c7db40c80u64,
            0x3b2dab7e4a11f990,
            0xbab0a5fbfab242d5,
            0x40fb864175a908e0,
            0x3c312038c7a9af00,
            0x463605a335300eb4,
            0xc0850a216156d4e0,
            0xbd7e13c38fd50520,
            0x3d9d933cfc1b3c60,
        ]
        .map(f64::from_bits)
        .to_vec(),
    ]
    .map(|v| M::from_vec(v.len().isqrt(), v.len().isqrt(), v));
    l.check(
        "8.2 complex reader",
        &[HalfKept, RootBare, RootOfMagnitude, Fused],
        200,
        |g| {
            let (n, k) = (g.upto(1, 6), g.upto(0, 4));
            let m = match g.upto(0, 9) {
                i @ 0..=2 => blocks[i].clone(),
                _ => g.mat(n, k),
            };
            let Some(s) = Schur::try_new(m, f64::EPSILON, 60) else {
                return both([], Vec::new);
            };
            let t = s.clone().unpack().1;
            both(
                s.complex_eigenvalues()
                    .iter()
                    .flat_map(|z| [z.re, z.im])
                    .collect::<V>(),
                move || complex(&t),
            )
        },
    )?;
    l.check("7.7 T without Q", &[ShiftRight, ShiftY], 100, |g| {
        let n = g.upto(1, 8);
        let m = g.mat(n, 0);
        both(
            m.complex_eigenvalues()
                .iter()
                .flat_map(|z| [z.re, z.im])
                .collect::<V>(),
            move || schur(m.clone(), f64::EPSILON, 0).map_or(vec![], |(_, t)| complex(&t)),
        )
    })?;
    l.check(
        "8.3 plain entry, orders 1 and 3 to 8",
        &[ShiftRight, ShiftY],
        200,
        |g| {
            let n = g.of(&[1, 3, 4, 5, 6, 7, 8]);
            let m = g.mat(n, 0);
            let m = if g.of(&[true, false]) { mirrored(m) } else { m };
            both(crate_values(&m), move || {
                schur(m.clone(), f64::EPSILON, 0).map_or(vec![], |(_, t)| {
                    if (1..n).all(|i| t[(i, i - 1)] == 0.0) {
                        (0..n).map(|i| t[(i, i)]).collect()
                    } else {
                        vec![]
                    }
                })
            })
        },
    )?;

    // 9 symmetric run, 10 NaN and infinity
    l.check(
        "9.2 tridiagonal reduction",
        &[FullProduct, DiagonalApart, SkipsNone, LeftToRight, Fused],
        200,
        |g| {
            let (n, k) = (g.upto(1, 12), g.upto(0, 4));
            let m = g.mat(n, k);
            let (q, d, o) = SymmetricTridiagonal::new(m.clone()).unpack();
            both(
                [q.as_slice(), d.as_slice(), o.as_slice()].concat(),
                move || {
                    let (q, d, o) = tridiagonal(m.clone());
                    [q.as_slice(), &d, &o].concat()
                },
            )
        },
    )?;
    l.check("9.4 wilkinson_shift", &[SignumByValue, Fused], 500, |g| {
        let k = g.upto(0, 1);
        let (a, b, c) = (g.num(k), g.num(k), g.num(k));
        both([wilkinson_shift(a, b, c)], move || vec![wilkinson(a, b, c)])
    })?;
    let tie = M::from_vec(
        3,
        3,
        vec![1.0, -0.5, -0.5, -0.5, 1.0, -0.0, -0.5, -0.0, 1.0],
    );
    l.check(
        "9.1, 9.3, 9.5 to 9.9 symmetric run",
        &[
            TieBasis,
            EpsZero,
            AbsoluteToo,
            ZeroDivided,
            ExpByBit,
            Reciprocal,
            Fused,
        ],
        2000,
        |g| {
            let (n, k, eps, budget) = (
                g.upto(1, 9),
                g.upto(0, 4),
                g.of(&[0.0, f64::EPSILON, 1e-3, 0.5, 0.99]),
                g.of(&[1, 2, 3, 5, 60]),
            );
            let m = match g.upto(0, 50) {
                0 => M::zeros(n, n),
                1 => -M::zeros(1, 1),
                2 => tie.clone(),
                _ => mirrored(g.mat(n, k)),
            };
            both(crate_symmetric(&m, eps, budget), move || {
                symmetric(m.clone(), eps, budget).unwrap_or_default()
            })
        },
    )?;
    let apart = M::from_diagonal(&dv(&vec![1.0, 2.0, 4.0, f64::NAN, 8.0]));
    l.check(
        "10 NaN and infinity in a run",
        &[NaNDeflates, NaNNeighbourStops],
        300,
        |g| {
            let (m, eps, budget) = (
                if g.upto(0, 20) == 0 {
                    apart.clone()
                } else {
                    spoilt(g)
                },
                g.of(&[0.0, f64::EPSILON]),
                g.of(&[1, 9]),
            );
            both(crate_schur(&m, eps, budget), move || {
                schur(m.clone(), eps, budget).map_or(vec![], two)
            })
        },
    )?;
    l.check(
        "10 NaN and infinity in the symmetric run",
        &[NaNStops],
        300,
        |g| {
            let (m, eps) = (mirrored(spoilt(g)), g.of(&[0.0, f64::EPSILON]));
            both(crate_symmetric(&m, eps, 9), move || {
                symmetric(m.clone(), eps, 9).unwrap_or_default()
            })
        },
    )?;
    Ok(l.done)
}
