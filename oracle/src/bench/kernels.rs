//! The kernels with their two sides, and the inputs on which each does something.

use super::inputs::{Item, Told, MOST};
use super::{crates_own, ours};

#[derive(Clone, Copy)]
pub struct Kernel {
    pub name: &'static str,
    /// Whether its time has an aim. The processor's root, which the crate takes, is out of reach.
    pub has_aim: bool,
    /// Whether the library does the work: elsewhere it leaves all memory as it is.
    pub fits: fn(&Told) -> bool,
    /// What it answers elsewhere, if it answers anything.
    pub refusal: f64,
    pub ours: Side,
    pub crates: Side,
}

/// Calls the kernel once on every item.
pub type Side = fn(&mut [Item]);

/// The loop of both sides. The call in it is the only one: `ours` are inlined up to the library's
/// function, which no compiler sees into, and the crate's functions are kept from it.
#[inline]
fn each(items: &mut [Item], call: impl Fn(&mut Item)) {
    for item in items {
        call(item);
    }
}

pub const KERNELS: &[Kernel] = &[
    Kernel {
        name: "dot",
        has_aim: true,
        fits: |told| told.an == told.cn,
        refusal: f64::NAN,
        ours: |items| each(items, ours::dot),
        crates: |items| each(items, crates_own::dot),
    },
    Kernel {
        name: "axis",
        has_aim: false,
        fits: |told| told.cn > 0,
        refusal: 0.0,
        ours: |items| each(items, ours::axis),
        crates: |items| each(items, crates_own::axis),
    },
    Kernel {
        name: "reflect",
        has_aim: true,
        fits: |told| is_matrix(told) && has_columns(told) && lies_in(told.n, told.row, told.an),
        refusal: 0.0,
        ours: |items| each(items, ours::reflect),
        crates: |items| each(items, crates_own::reflect),
    },
    Kernel {
        name: "reflect_rows",
        has_aim: true,
        fits: |told| is_matrix(told) && has_rows(told) && lies_in(told.n, told.c0, told.an),
        refusal: 0.0,
        ours: |items| each(items, ours::reflect_rows),
        crates: |items| each(items, crates_own::reflect_rows),
    },
    Kernel {
        name: "reflect3",
        has_aim: true,
        fits: |told| is_matrix(told) && has_columns(told) && lies_in(told.n, told.k, 3),
        refusal: 0.0,
        ours: |items| each(items, ours::reflect3),
        crates: |items| each(items, crates_own::reflect3),
    },
    Kernel {
        name: "reflect_rows3",
        has_aim: true,
        fits: |told| is_matrix(told) && has_rows(told) && lies_in(told.n, told.k, 3),
        refusal: 0.0,
        ours: |items| each(items, ours::reflect_rows3),
        crates: |items| each(items, crates_own::reflect_rows3),
    },
    Kernel {
        name: "rotate",
        has_aim: true,
        fits: |told| is_matrix(told) && has_columns(told) && lies_in(told.n, told.k, 2),
        refusal: 0.0,
        ours: |items| each(items, ours::rotate),
        crates: |items| each(items, crates_own::rotate),
    },
    Kernel {
        name: "rotate_rows",
        has_aim: true,
        fits: |told| is_matrix(told) && has_rows(told) && lies_in(told.n, told.k, 2),
        refusal: 0.0,
        ours: |items| each(items, ours::rotate_rows),
        crates: |items| each(items, crates_own::rotate_rows),
    },
    Kernel {
        name: "clear_column",
        has_aim: false,
        // The column needs a row below its diagonal.
        fits: |told| is_matrix(told) && lies_in(told.n, told.c0, 2) && told.wn >= told.n,
        refusal: f64::NAN,
        ours: |items| each(items, ours::clear_column),
        crates: |items| each(items, crates_own::clear_column),
    },
    Kernel {
        name: "assemble_q",
        has_aim: true,
        fits: |told| is_matrix(told) && told.qn == told.tn && told.n > 0 && told.sn >= told.n - 1,
        refusal: 0.0,
        ours: |items| each(items, ours::assemble_q),
        crates: |items| each(items, crates_own::assemble_q),
    },
];

fn is_matrix(told: &Told) -> bool {
    told.n <= MOST && told.tn == told.n * told.n
}

/// Between c0 and c1, none where the two are the same.
fn has_columns(told: &Told) -> bool {
    told.c0 <= told.c1 && told.c1 <= told.n
}

fn has_rows(told: &Told) -> bool {
    told.rows <= told.n
}

/// Whether so many rows or columns from `first` on lie in a matrix of order n.
fn lies_in(n: usize, first: usize, count: usize) -> bool {
    count <= n && first <= n - count
}
