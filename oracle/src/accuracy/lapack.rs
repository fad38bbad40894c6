//! LAPACK's real Schur decomposition, `dgees`, where it is installed (Debian's package liblapack3): looked up when
//! the command runs, so nothing is needed to build it.
//!
//! The calling convention is Fortran's: all by reference, and for each text a length behind all other arguments.
//! Nothing checks this declaration against the library.

use std::ffi::{c_char, c_int, c_void, CStr};

const NAME: &CStr = c"liblapack.so.3";
const SYMBOL: &CStr = c"dgees_";

/// All undefined symbols of the library are looked up at once, so that a call cannot fail for want of one.
const RTLD_NOW: c_int = 2;

unsafe extern "C" {
    fn dlopen(name: *const c_char, flags: c_int) -> *mut c_void;
    fn dlsym(library: *mut c_void, symbol: *const c_char) -> *mut c_void;
}

/// Whether an eigenvalue is to stand in front; not asked where nothing is sorted.
type Select = extern "C" fn(*const f64, *const f64) -> c_int;

type Dgees = unsafe extern "C" fn(
    jobvs: *const c_char,
    sort: *const c_char,
    select: Select,
    n: *const c_int,
    a: *mut f64,
    lda: *const c_int,
    sdim: *mut c_int,
    wr: *mut f64,
    wi: *mut f64,
    vs: *mut f64,
    ldvs: *const c_int,
    work: *mut f64,
    lwork: *const c_int,
    bwork: *mut c_int,
    info: *mut c_int,
    jobvs_length: usize,
    sort_length: usize,
);

/// The function, for as long as the program runs: the library is never closed.
#[derive(Clone, Copy)]
pub struct Lapack {
    dgees: Dgees,
}

impl Lapack {
    pub fn find() -> Option<Lapack> {
        Lapack::named(NAME)
    }

    fn named(name: &CStr) -> Option<Lapack> {
        // SAFETY: both texts end with a 0, and outlast the calls. The library's own start does nothing else.
        let symbol = unsafe {
            let library = dlopen(name.as_ptr(), RTLD_NOW);
            if library.is_null() {
                return None;
            }
            dlsym(library, SYMBOL.as_ptr())
        };
        if symbol.is_null() {
            return None;
        }
        // SAFETY: a function's address; its arguments are those that LAPACK's documentation has.
        let dgees = unsafe { std::mem::transmute::<*mut c_void, Dgees>(symbol) };
        Some(Lapack { dgees })
    }

    /// T and Q of a matrix of order 1 or more, column by column; or `info`, which is not 0 then.
    pub fn schur(&self, order: usize, entries: &[f64]) -> Result<(Vec<f64>, Vec<f64>), c_int> {
        let mut call = Call::new(order, entries);
        let mut best = [0.0];
        call.make(self.dgees, &mut best, -1)?;
        // The length it asks for: with less it might go by other steps.
        let length = (best[0] as usize).max(3 * order);
        call.make(self.dgees, &mut vec![0.0; length], length as c_int)?;
        Ok((call.a, call.vs))
    }
}

/// What is lent to a call.
struct Call {
    n: c_int,
    a: Vec<f64>,
    wr: Vec<f64>,
    wi: Vec<f64>,
    vs: Vec<f64>,
    bwork: Vec<c_int>,
}

impl Call {
    fn new(order: usize, entries: &[f64]) -> Call {
        assert!(order > 0 && entries.len() == order * order);
        Call {
            n: c_int::try_from(order).expect("a small order"),
            a: entries.to_vec(),
            wr: vec![0.0; order],
            wi: vec![0.0; order],
            vs: vec![0.0; order * order],
            bwork: vec![0; order],
        }
    }

    /// With Q, without sorting. `length` is that of `work`, or -1 to ask for the best.
    fn make(&mut self, dgees: Dgees, work: &mut [f64], length: c_int) -> Result<(), c_int> {
        extern "C" fn never(_: *const f64, _: *const f64) -> c_int {
            0
        }
        let (mut sdim, mut info) = (0, 0);
        // SAFETY: a and vs have n columns of n numbers, wr, wi and bwork n, work `length`, which is at least 3 n;
        // of two texts one letter each is read.
        unsafe {
            dgees(
                c"V".as_ptr(),
                c"N".as_ptr(),
                never,
                &self.n,
                self.a.as_mut_ptr(),
                &self.n,
                &mut sdim,
                self.wr.as_mut_ptr(),
                self.wi.as_mut_ptr(),
                self.vs.as_mut_ptr(),
                &self.n,
                work.as_mut_ptr(),
                &length,
                self.bwork.as_mut_ptr(),
                &mut info,
                1,
                1,
            );
        }
        match info {
            0 => Ok(()),
            info => Err(info),
        }
    }
}

#[cfg(test)]
mod tests {
    use super::super::measure::Figures;
    use super::*;
    use crate::compare::FAMILIES;
    use crate::random::Random;

    #[test]
    fn a_library_that_is_not_there_is_none() {
        assert!(Lapack::named(c"liblapack-is-not-there.so.3").is_none());
        // One that is there and has no such function.
        assert!(Lapack::named(c"libc.so.6").is_none());
    }

    /// Where it is installed.
    #[test]
    fn it_decomposes() {
        let Some(lapack) = Lapack::find() else {
            eprintln!("liblapack.so.3 is not installed");
            return;
        };
        // Rows (1 2), (0 3): nothing is to be done.
        let upper = [1.0, 0.0, 2.0, 3.0];
        assert_eq!(
            lapack.schur(2, &upper),
            Ok((upper.to_vec(), vec![1.0, 0.0, 0.0, 1.0]))
        );
        let mut random = Random::stream(1, 0);
        for n in [1, 2, 3, 7, 30, 64] {
            let a = (FAMILIES[0].entries)(&mut random, n);
            let (t, q) = lapack.schur(n, &a).expect("it ends");
            let figures = Figures::of(n, &a, &t, &q);
            assert!(figures.largest() < 5.0, "{n}: {figures:?}");
            let below = (0..n).flat_map(|column| (column + 2..n).map(move |row| row + column * n));
            assert!(below.into_iter().all(|place| t[place] == 0.0));
        }
    }
}
