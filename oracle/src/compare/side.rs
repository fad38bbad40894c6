//! A side that is compared: our door, or a right or wrong one in a test. Its functions are the door's.

use crate::door;

pub type Decompose = fn(usize, &[u8], u64, u64, u32, &mut [u8], &mut [u8]) -> u64;
pub type Values = fn(usize, &[u8], &mut [u8]) -> u64;
pub type Pairs = fn(usize, &[u8], &mut [u8], &mut [u8]) -> u64;

#[derive(Clone, Copy)]
pub struct Side {
    pub decompose: Decompose,
    pub eigenvalues: Values,
    pub complex_eigenvalues: Pairs,
    pub plain_eigenvalues: Values,
}

pub const DOOR: Side = Side {
    decompose: door::decompose,
    eigenvalues: door::eigenvalues,
    complex_eigenvalues: door::complex_eigenvalues,
    plain_eigenvalues: door::plain_eigenvalues,
};
