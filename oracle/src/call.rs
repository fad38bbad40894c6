//! A call of the door: which entry, and what it is handed.

use crate::random::Random;

/// The four entries for matrices.
#[derive(Clone, Copy, Debug, PartialEq, Eq)]
pub enum Entry {
    Decompose,
    /// The real reader.
    Real,
    /// The complex reader.
    Complex,
    /// The plain entry.
    Plain,
}

impl Entry {
    pub const ALL: [Entry; 4] = [Entry::Decompose, Entry::Real, Entry::Complex, Entry::Plain];

    pub fn name(self) -> &'static str {
        match self {
            Entry::Decompose => "decomposition",
            Entry::Real => "real reader",
            Entry::Complex => "complex reader",
            Entry::Plain => "plain entry",
        }
    }

    /// What is lent: the matrix or T that is read, and up to two slices that are written.
    pub fn slices(self) -> [&'static str; 3] {
        match self {
            Entry::Decompose => ["matrix", "T", "Q"],
            Entry::Real => ["T", "values", ""],
            Entry::Complex => ["T", "real parts", "imaginary parts"],
            Entry::Plain => ["matrix", "values", ""],
        }
    }
}

/// The arguments of one call; an entry looks at its own.
#[derive(Clone)]
pub struct Call {
    pub entry: Entry,
    pub order: usize,
    /// The matrix or T, as bytes.
    pub input: Vec<u8>,
    /// The pattern of an f64.
    pub tolerance: u64,
    pub budget: u64,
    pub wanted: u32,
    /// The lengths in bytes of the slices that are written.
    pub out: [usize; 2],
}

impl Call {
    /// A call whose lengths fit the order, with Q wanted where there is one.
    pub fn new(entry: Entry, order: usize, numbers: &[f64]) -> Call {
        let (square, list) = (8 * order * order, 8 * order);
        Call {
            entry,
            order,
            input: manulsek::bytes::of(numbers).to_vec(),
            tolerance: f64::EPSILON.to_bits(),
            budget: 1,
            wanted: 1,
            out: match entry {
                Entry::Decompose => [square, square],
                Entry::Complex => [list, list],
                Entry::Real | Entry::Plain => [list, 0],
            },
        }
    }

    /// Asks for Q or not. Any number but 0 asks for it. Where it is not wanted its slice may be of any
    /// length.
    pub fn want_q(&mut self, wanted: bool, random: &mut Random) {
        let square = self.out[0];
        let numbers = [1, 1, 2, 1 << 31, u32::MAX];
        let lengths = [square, square, 0, 1, square + 8, square - 1];
        match wanted {
            true => self.wanted = numbers[random.below(5) as usize],
            false => (self.wanted, self.out[1]) = (0, lengths[random.below(6) as usize]),
        }
    }

    /// How many of the slices are looked at: Q only if it is wanted.
    pub fn looked_at(&self) -> usize {
        match self.entry {
            Entry::Decompose if self.wanted == 0 => 2,
            Entry::Real | Entry::Plain => 2,
            Entry::Decompose | Entry::Complex => 3,
        }
    }

    /// In one line, but for the numbers.
    pub fn told(&self) -> String {
        let [first, second] = self.out;
        let mut told = format!(
            "{}, order {}, {} bytes in, {first} and {second} out",
            self.entry.name(),
            self.order,
            self.input.len()
        );
        if self.entry == Entry::Decompose {
            told += &format!(
                ", tolerance {:016x}, budget {}, wanted {}",
                self.tolerance, self.budget, self.wanted
            );
        }
        told
    }
}
