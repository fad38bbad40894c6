//! What the kernels are run on: numbers in memory, and what a call is told of them.

use crate::numbers::{between, list, ordinary, Numbers};
use crate::random::Random;
use nalgebra::{DMatrix, DVector};
use std::slice::from_ref;

/// The largest order that the library takes.
pub const MOST: usize = 64;

/// The order for which memory is laid out where a call is told anything: room behind every slice, so
/// that a write beyond one is seen.
const ROOM: usize = MOST + 16;

/// The arguments of a call: places in the matrix, lengths of slices, and the numbers that travel by
/// value. Each kernel reads what it needs.
#[derive(Clone)]
pub struct Told {
    /// The order.
    pub n: usize,
    /// The first row of a block, or how many rows it has from the top.
    pub row: usize,
    pub rows: usize,
    /// The first column of a block, and the one behind its last. The column that is cleared is c0.
    pub c0: usize,
    pub c1: usize,
    /// The first of the rows or columns of an axis of three or of a rotation.
    pub k: usize,
    pub sign: f64,
    pub axis: [f64; 3],
    /// Cosine and sine.
    pub turn: [f64; 2],
    /// The lengths of the slices of `Item`.
    pub an: usize,
    pub cn: usize,
    pub tn: usize,
    pub qn: usize,
    pub sn: usize,
    pub wn: usize,
}

/// The memory of a call, each list at least as long as the slice that the call gets of it.
#[derive(Clone)]
pub struct Item {
    pub told: Told,
    /// An axis of run-time length, which is read.
    pub a: DVector<f64>,
    /// A column, which is read or rewritten.
    pub c: DVector<f64>,
    pub t: DMatrix<f64>,
    pub q: DMatrix<f64>,
    pub signs: Vec<f64>,
    /// Our workspace, and the crate's.
    pub work: Vec<f64>,
    pub crates_work: DVector<f64>,
    pub answer: f64,
}

impl Told {
    /// Arguments that fit: all of a matrix, the block that a step of a reduction reflects, which has
    /// every row and ends with the matrix, or any block.
    pub fn inside(random: &mut Random, fits: fn(&Told) -> bool) -> Told {
        loop {
            let most = [8, 16, 32, MOST][random.below(4) as usize];
            let first = if random.below(16) == 0 { most } else { 1 };
            let n = between(random, first, most);
            let mut told = Told::whole(n);
            match random.below(4) {
                0 => {}
                1 => {
                    told.c0 = between(random, 0, n);
                    told.an = n - told.c0;
                    told.row = told.c0;
                }
                _ => {
                    told.c0 = between(random, 0, n);
                    told.c1 = between(random, told.c0, n);
                    told.an = between(random, 0, n);
                    told.row = between(random, 0, n - told.an);
                    told.rows = between(random, 0, n);
                }
            }
            told.cn = told.an;
            told.k = between(random, 0, n);
            // The crate takes every sign from `signum`, which answers one of these.
            told.sign = match random.below(16) {
                0 => f64::NAN,
                word => [1.0, -1.0][word as usize % 2],
            };
            let mut numbers = Numbers::of_some_kind(random);
            told.axis = [0; 3].map(|_| numbers.next());
            told.turn = [0; 2].map(|_| numbers.next());
            if fits(&told) {
                return told;
            }
        }
    }

    /// Arguments that do not fit: up to three of those that do are changed.
    pub fn outside(random: &mut Random, fits: fn(&Told) -> bool) -> Told {
        loop {
            let mut told = Told::inside(random, fits);
            for _ in 0..between(random, 1, 3) {
                told.change(random);
            }
            if !fits(&told) {
                return told;
            }
        }
    }

    /// Changes one place or length. No slice grows beyond its list.
    fn change(&mut self, random: &mut Random) {
        let (n, square) = (self.n, ROOM * ROOM);
        let (field, limit) = match random.below(12) {
            0 => (&mut self.n, usize::MAX),
            1 => (&mut self.row, usize::MAX),
            2 => (&mut self.rows, usize::MAX),
            3 => (&mut self.c0, usize::MAX),
            4 => (&mut self.c1, usize::MAX),
            5 => (&mut self.k, usize::MAX),
            6 => (&mut self.an, ROOM),
            7 => (&mut self.cn, ROOM),
            8 => (&mut self.tn, square),
            9 => (&mut self.qn, square),
            10 => (&mut self.sn, ROOM),
            _ => (&mut self.wn, 2 * ROOM),
        };
        let new = match random.below(8) {
            0 => between(random, 0, ROOM),
            1 => field.wrapping_add(1),
            2 => field.wrapping_sub(1),
            3 => n.wrapping_add(1),
            4 => n.wrapping_sub(1),
            5 => 0,
            // Sums and products with these wrap.
            6 => 1 << between(random, 31, 63),
            _ => usize::MAX - between(random, 0, MOST),
        };
        *field = new.min(limit);
        // Slices of the length that goes with the order, even if no matrix can have that.
        if random.below(2) == 0 {
            let entries = self.n.wrapping_mul(self.n);
            if entries <= square {
                (self.tn, self.qn) = (entries, entries);
            }
        }
    }

    /// All of a matrix.
    fn whole(n: usize) -> Told {
        Told {
            n,
            row: 0,
            rows: n,
            c0: 0,
            c1: n,
            k: 0,
            sign: 1.0,
            axis: [0.0; 3],
            turn: [0.0; 2],
            an: n,
            cn: n,
            tn: n * n,
            qn: n * n,
            sn: n - 1,
            wn: 2 * n,
        }
    }
}

impl Item {
    /// Memory for arguments that fit, each list with numbers of a kind of its own.
    pub fn inside(random: &mut Random, told: Told) -> Item {
        Item::new(told.n, told, |length| list(random, length))
    }

    /// Memory for any arguments. What is put back for a call stands there already.
    pub fn with_room(random: &mut Random) -> Item {
        let mut item = Item::new(ROOM, Told::whole(MOST), |length| {
            (0..length).map(|_| ordinary(random)).collect()
        });
        item.put_back_c();
        item.put_back_t();
        item
    }

    /// Matrices of 4096 entries together, at most 256, on which a kernel has the most work. Each can
    /// be turned again and again: the axes have length 1, and so the numbers stay of their size.
    pub fn to_time(random: &mut Random, order: usize) -> Vec<Item> {
        let count = (4096 / (order * order)).min(256);
        let item = |number: usize| {
            let mut told = Told::whole(order);
            told.k = number * 5 % (order - 2);
            told.sign = [1.0, -1.0][number % 2];
            told.axis = unit([0; 3].map(|_| ordinary(random)));
            told.turn = unit([0; 2].map(|_| ordinary(random)));
            let mut item = Item::new(order, told, |length| {
                (0..length).map(|_| ordinary(random)).collect()
            });
            item.a.normalize_mut();
            item
        };
        (0..count).map(item).collect()
    }

    fn new(order: usize, told: Told, mut list: impl FnMut(usize) -> Vec<f64>) -> Item {
        Item {
            told,
            a: DVector::from_vec(list(order)),
            c: DVector::from_vec(list(order)),
            t: DMatrix::from_vec(order, order, list(order * order)),
            q: DMatrix::from_vec(order, order, list(order * order)),
            signs: list(order),
            work: list(2 * order),
            crates_work: DVector::zeros(order),
            answer: 0.0,
        }
    }

    /// A new column for a kernel that rewrites it. Made into an axis over and over, one would come
    /// nearer and nearer to (1, 0, .., 0), by way of subnormals, which are slow.
    #[inline]
    pub fn put_back_c(&mut self) {
        self.c.copy_from(&self.a);
    }

    /// The same for the first column of the matrix.
    #[inline]
    pub fn put_back_t(&mut self) {
        self.t.column_mut(0).copy_from(&self.a);
    }

    /// The first place where what two calls left differs, with both numbers; any NaN is as any other.
    /// The workspaces are not looked at.
    pub fn difference(&self, right: &Item) -> Option<String> {
        for ((name, ours), (_, right)) in self.lists().iter().zip(right.lists()) {
            for (place, (x, y)) in ours.iter().zip(right).enumerate() {
                if x.to_bits() != y.to_bits() && !(x.is_nan() && y.is_nan()) {
                    let [x, y] = [x, y].map(|x| format!("{:016x}", x.to_bits()));
                    return Some(format!("{name}, place {place}: ours {x}, right {y}"));
                }
            }
        }
        None
    }

    fn lists(&self) -> [(&'static str, &[f64]); 6] {
        [
            ("axis", self.a.as_slice()),
            ("column", self.c.as_slice()),
            ("matrix", self.t.as_slice()),
            ("Q", self.q.as_slice()),
            ("signs", &self.signs),
            ("answer", from_ref(&self.answer)),
        ]
    }
}

fn unit<const N: usize>(numbers: [f64; N]) -> [f64; N] {
    let norm = numbers.iter().map(|x| x * x).sum::<f64>().sqrt();
    numbers.map(|x| x / norm)
}
