//! The functions of the static library, as `include/manulsek.h` has them for C.
//!
//! Nothing checks these declarations against the library. A slice is a pointer and a length in
//! elements, here bytes; an f64 is its pattern, as a number or as eight bytes, the lowest first.
//!
//! Matrices are column by column. Rows of numbers, as C and NumPy have them, are turned by
//! `let columns: Vec<u8> = (0..n * n).flat_map(|k| rows[k % n * n + k / n].to_le_bytes()).collect();`
//! Not turned, they are [read as the transpose](crate#row-order), and nothing says so.
//!
//! Every function takes every input and ends. What a caller has to see to: each slice is memory of its
//! length, and one that is written overlaps no other.

unsafe extern "C" {
    /// The pass count, or a refusal.
    pub fn manulsek_decompose(
        order: usize,
        matrix: *const u8,
        matrix_len: usize,
        tolerance: u64,
        budget: u64,
        wanted: u32,
        t: *mut u8,
        t_len: usize,
        q: *mut u8,
        q_len: usize,
    ) -> u64;

    /// The real reader: 0, or a refusal.
    pub fn manulsek_eigenvalues(
        order: usize,
        t: *const u8,
        t_len: usize,
        values: *mut u8,
        values_len: usize,
    ) -> u64;

    /// The complex reader: 0, or a refusal.
    pub fn manulsek_complex_eigenvalues(
        order: usize,
        t: *const u8,
        t_len: usize,
        re: *mut u8,
        re_len: usize,
        im: *mut u8,
        im_len: usize,
    ) -> u64;

    /// The plain entry: 0, or a refusal.
    pub fn manulsek_plain_eigenvalues(
        order: usize,
        matrix: *const u8,
        matrix_len: usize,
        values: *mut u8,
        values_len: usize,
    ) -> u64;

    /// The square root, from pattern to pattern.
    pub fn manulsek_sqrt(pattern: u64) -> u64;
}
