//! One call of a side on memory that holds patterns of every kind, others in each call, held to the judge's
//! ruling: the answer, and every byte that was lent or stands beside it.

use super::side::Side;
use crate::call::{Call, Entry};
use crate::door::NAN;
use crate::judge::{After, Judge, Ruling};
use crate::patterns;
use crate::random::Random;
use manulsek::Refusal;
use std::ops::Range;

/// Bytes before, between and behind the slices, which no call may touch.
const GUARD: usize = 16;

/// What a call came to.
pub struct Left {
    pub ruling: Ruling,
    /// What the side left in the first slice that is written.
    pub first: Vec<u8>,
    /// What is not as the judge has it.
    pub wrong: Option<String>,
}

/// Makes a call on a side.
pub fn make(side: &Side, judge: &mut Judge, call: &Call, random: &mut Random) -> Left {
    let mut lent = Lent::new(call, random);
    let mut right = lent.bytes.clone();
    let told = lent.call(side, call);
    let ruling = judge.rule(call, told);
    for (slice, after) in lent.slices[1..].iter().zip(&ruling.after) {
        write(&mut right[slice.clone()], after);
    }
    let word = ruling.answer.word();
    let wrong = match differs(&lent.bytes, &right) {
        _ if told != word => Some(format!("ours {}, right {}", answer(told), answer(word))),
        Some(byte) => Some(lent.what_differs(call.entry, &right, byte)),
        None => None,
    };
    Left {
        ruling,
        first: lent.bytes[lent.slices[1].clone()].to_vec(),
        wrong: wrong.map(|wrong| format!("{}: {wrong}", call.told())),
    }
}

/// Memory for one call: the slice that is read and the two that are written, at any address.
struct Lent {
    bytes: Vec<u8>,
    slices: [Range<usize>; 3],
}

impl Lent {
    fn new(call: &Call, random: &mut Random) -> Lent {
        let mut end = 0;
        let slices = [call.input.len(), call.out[0], call.out[1]].map(|length| {
            let start = end + GUARD + random.below(8) as usize;
            end = start + length;
            start..end
        });
        let mut bytes = garbage(random, end + GUARD);
        for slice in &slices[1..] {
            let patterns = patterns::slice(random, slice.len().div_ceil(8));
            let patterns = patterns.into_iter().flat_map(u64::to_le_bytes);
            let places = bytes[slice.clone()].iter_mut();
            places.zip(patterns).for_each(|(place, byte)| *place = byte);
        }
        bytes[slices[0].clone()].copy_from_slice(&call.input);
        Lent { bytes, slices }
    }

    fn call(&mut self, side: &Side, call: &Call) -> u64 {
        let [input, first, second] = &self.slices;
        let (front, rest) = self.bytes.split_at_mut(first.start);
        let (middle, end) = rest.split_at_mut(second.start - first.start);
        let input = &front[input.clone()];
        let (first, second) = (&mut middle[..first.len()], &mut end[..second.len()]);
        let n = call.order;
        match call.entry {
            Entry::Decompose => (side.decompose)(
                n,
                input,
                call.tolerance,
                call.budget,
                call.wanted,
                first,
                second,
            ),
            Entry::Real => (side.eigenvalues)(n, input, first),
            Entry::Complex => (side.complex_eigenvalues)(n, input, first, second),
            Entry::Plain => (side.plain_eigenvalues)(n, input, first),
        }
    }

    /// Which number of which slice differs, or that something beside them was touched.
    fn what_differs(&self, entry: Entry, right: &[u8], byte: usize) -> String {
        let at = self.slices.iter().position(|slice| slice.contains(&byte));
        let Some(number) = at else {
            return "ours touches a byte beside what was lent".to_string();
        };
        let Range { start, end } = self.slices[number];
        let place = (byte - start) / 8;
        let name = entry.slices()[number];
        let eight = start + 8 * place..(start + 8 * place + 8).min(end);
        let [x, y] = [&self.bytes, right].map(|bytes| {
            let digits = bytes[eight.clone()].iter().rev();
            digits.map(|byte| format!("{byte:02x}")).collect::<String>()
        });
        format!("{name}, place {place}: ours {x}, right {y}")
    }
}

fn garbage(random: &mut Random, length: usize) -> Vec<u8> {
    let words = (0..length.div_ceil(8)).map(|_| random.word());
    let mut bytes: Vec<u8> = words.flat_map(u64::to_le_bytes).collect();
    bytes.truncate(length);
    bytes
}

fn write(slice: &mut [u8], after: &After) {
    match after {
        After::Untouched => {}
        After::Nan => {
            let eights = slice.chunks_exact_mut(8);
            eights.for_each(|eight| eight.copy_from_slice(&NAN.to_le_bytes()));
        }
        // Accepted numbers are finite, so all bits count.
        After::Numbers(numbers) => slice.copy_from_slice(manulsek::bytes::of(numbers)),
    }
}

fn differs(ours: &[u8], right: &[u8]) -> Option<usize> {
    if ours == right {
        return None;
    }
    ours.iter().zip(right).position(|(x, y)| x != y)
}

fn answer(word: u64) -> String {
    match Refusal::of(word) {
        Ok(count) => format!("accepts with {count}"),
        Err(Refusal { number, row, col }) => format!("refuses {number} {row} {col}"),
    }
}

#[cfg(test)]
mod tests {
    use super::*;

    /// Every byte of what is lent and beside it is looked at, and told by its place.
    #[test]
    fn every_byte_counts() {
        let mut random = Random::stream(1, 0);
        let call = Call::new(Entry::Complex, 2, &[1.0; 4]);
        let lent = Lent::new(&call, &mut random);
        let mut beside = 0;
        for byte in 0..lent.bytes.len() {
            let mut right = lent.bytes.clone();
            right[byte] ^= 1;
            assert_eq!(differs(&lent.bytes, &right), Some(byte));
            let said = lent.what_differs(call.entry, &right, byte);
            match lent.slices.iter().position(|slice| slice.contains(&byte)) {
                Some(slice) => assert!(said.starts_with(call.entry.slices()[slice]), "{said}"),
                None => beside += 1,
            }
        }
        assert!(beside >= 4 * GUARD);
        assert_eq!(differs(&lent.bytes, &lent.bytes), None);
    }

    /// Every call is lent other patterns in both of its slices, all of them drawn: none is what a call leaves.
    /// One seed gives the same again.
    #[test]
    fn calls_are_lent_patterns() {
        let lists = |seed: u64| {
            let mut random = Random::stream(seed, 0);
            let call = Call::new(Entry::Decompose, 3, &[1.0; 9]);
            let lent = (0..500).map(|_| Lent::new(&call, &mut random));
            let numbers = lent.map(|lent| {
                let number = |eight: &[u8]| u64::from_le_bytes(eight.try_into().unwrap());
                let slices = lent.slices[1..].iter();
                let bytes = slices.flat_map(|slice| lent.bytes[slice.clone()].chunks_exact(8));
                bytes.map(number).collect()
            });
            numbers.collect::<Vec<Vec<u64>>>()
        };
        let lent = lists(1);
        assert!(lent == lists(1) && lent != lists(2));
        let numbers: Vec<u64> = lent.concat();
        assert_eq!(numbers.len(), 500 * 18);
        assert!(!numbers.contains(&0) && !numbers.contains(&NAN));
        let floats: Vec<f64> = numbers.into_iter().map(f64::from_bits).collect();
        for odd in [
            f64::is_nan,
            f64::is_infinite,
            f64::is_subnormal,
            f64::is_normal,
        ] {
            assert!(floats.iter().filter(|x| odd(**x)).count() > 500);
        }
        let others = lent.windows(2).filter(|two| two[0] != two[1]).count();
        assert!(others > 490, "{others}");
    }

    /// A slice whose length is no number of numbers is filled to its last byte.
    #[test]
    fn odd_lengths_are_filled() {
        let mut random = Random::stream(1, 0);
        let mut call = Call::new(Entry::Decompose, 2, &[1.0; 4]);
        call.out = [31, 1];
        let mut last = [0; 2];
        for _ in 0..200 {
            let lent = Lent::new(&call, &mut random);
            for (seen, slice) in last.iter_mut().zip(&lent.slices[1..]) {
                *seen |= lent.bytes[slice.end - 1];
            }
        }
        assert_eq!(last, [0xff; 2]);
    }

    #[test]
    fn answers_are_told() {
        assert_eq!(answer(7), "accepts with 7");
        assert_eq!(answer((6 << 32) + (2 << 16) + 1), "refuses 6 2 1");
    }
}
