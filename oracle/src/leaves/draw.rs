//! The numbers that every call is given, by seed and place: the rule and the patterns of
//! `crates/leaf_runs/src/draw.rt`, which says what each group of them is for.

#[rustfmt::skip]
const PATTERNS: [u64; 44] = [
    // ordinary
    0x3ff0_0000_0000_0000, 0xbff0_0000_0000_0000, 0x4000_0000_0000_0000, 0xc008_0000_0000_0000,
    0x3fe0_0000_0000_0000, 0xbfd0_0000_0000_0000, 0x3fb9_9999_9999_999a, 0xbfe6_6666_6666_6666,
    0x3fd5_5555_5555_5555, 0x4009_21fb_5444_2d18, 0xc005_bf0a_8b14_5769, 0x3f50_624d_d2f1_a9fc,
    0xbff8_0000_0000_0000, 0x401a_6666_6666_6666, 0x4023_6666_6666_6666, 0xc028_9999_9999_999a,
    0x4059_5333_3333_3333, 0x3fe8_0000_0000_0000, 0xbfd3_3333_3333_3333, 0x3ff0_0000_0000_0001,
    0xbfef_ffff_ffff_ffff, 0x4030_e666_6666_6666, 0xc013_9999_9999_999a,
    // zeros
    0x0000_0000_0000_0000, 0x8000_0000_0000_0000,
    // vanishing squares
    0x0000_0000_0000_0001, 0x8000_0000_0000_0001, 0x800f_ffff_ffff_ffff, 0x0010_0000_0000_0000,
    0x9e30_0000_0000_0000,
    // subnormal squares
    0x1e63_3333_3333_3333, 0x9ed1_9999_9999_999a, 0x1eb6_7e9c_127b_6e74, 0x9f70_79bb_4f89_6766,
    // squares or sums that overflow
    0x5fe0_0000_0000_0000, 0x5fe7_dddf_6b09_5ff1, 0xdfec_a3d8_e6d8_0cbb, 0x5ff0_0000_0000_0000,
    0xe974_e718_d7d7_625a, 0x7fef_ffff_ffff_ffff, 0xffee_42d1_3077_3b76,
    // infinities and NaN
    0x7ff0_0000_0000_0000, 0xfff0_0000_0000_0000, 0x7ff8_0000_0000_0000,
];

/// The number that a seed has at a place.
pub fn drawn(seed: usize, place: usize) -> f64 {
    let k = seed % 64 * 5 + place % 128 * 9;
    let index = match seed % 8 {
        0 => k % 23,
        1 => 23 + k % 2,
        2 => 23 + k % 7,
        3 => 23 + k % 11,
        4 => 34 + k % 7,
        5 => k % 25,
        6 => k % 41,
        _ => (41 + k % 11) % 44,
    };
    f64::from_bits(PATTERNS[index])
}

/// The first `len` numbers of a seed, where the program has room for so many.
pub fn many(len: usize, seed: usize) -> Option<Vec<f64>> {
    (len <= 81).then(|| (0..len).map(|place| drawn(seed, place)).collect())
}
