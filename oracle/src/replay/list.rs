//! The list as the program `replay` reads it, and what the program prints when it finds all as it stands
//! there. `crates/replay/src/main.rt` says how a list is written.

use crate::call::{Call, Entry};
use crate::door::one_nan;
use crate::judge::{After, Answer, Judge, Refusal};
use crate::options::SEED;
use crate::patterns;
use crate::random::Random;
use std::collections::BTreeSet;

/// The most numbers that a call is given, or lent in one slice: order 65 has its lengths too.
pub const ROOM: usize = 65 * 65;

/// Where the program keeps numbers: for a matrix, T, Q, and the two lists of eigenvalues; and patterns of
/// every kind, with which lent memory is filled before a call.
#[derive(Clone, Copy)]
pub enum Slot {
    Matrix,
    T,
    Q,
    First,
    Second,
    Lent,
}

/// The entries; the program counts them from 1 on.
pub const NAMES: [&str; 6] = [
    "decomposition with Q",
    "decomposition without Q",
    "real reader",
    "complex reader",
    "plain entry",
    "root",
];

/// The place of the last of them.
pub const ROOT: usize = NAMES.len() - 1;

/// The number of an answer is below this.
const NUMBERS: usize = 12;

pub struct List {
    pub bytes: Vec<u8>,
    slots: [Vec<u64>; 6],
    /// For the place in the slot of patterns from which each slice is filled, and for these.
    random: Random,
    /// The groups with the number of their cases.
    groups: Vec<(String, usize)>,
    /// How often each entry gave each number, 0 for accepted; and the places that each number told.
    met: [[usize; NUMBERS]; NAMES.len()],
    places: [BTreeSet<(usize, usize)>; NUMBERS],
}

impl List {
    /// A list without cases. It begins with the patterns.
    pub fn new() -> List {
        let mut list = List {
            bytes: Vec::new(),
            slots: Default::default(),
            random: Random::stream(!SEED, 0),
            groups: Vec::new(),
            met: Default::default(),
            places: Default::default(),
        };
        let patterns = (0..ROOM).map(|_| patterns::mixed(&mut list.random));
        let patterns = patterns.collect();
        list.put(Slot::Lent, patterns);
        list
    }

    /// The cases that follow belong to this group.
    pub fn group(&mut self, name: &str) {
        let mut text = name.as_bytes().to_vec();
        text.resize(name.len().next_multiple_of(8), b' ');
        self.head(b'g', name.len(), text.len() / 8);
        self.bytes.extend(text);
        self.groups.push((name.to_string(), 0));
    }

    /// Whether the program has room for a call; `work` is the length of its workspace.
    pub fn takes(call: &Call, work: usize) -> bool {
        let bytes = [call.input.len(), call.out[0], call.out[1], 8 * work];
        bytes
            .iter()
            .all(|bytes| bytes % 8 == 0 && *bytes <= 8 * ROOM)
    }

    /// A case: a call on what this slot is to hold, and what it must come to.
    pub fn case(&mut self, judge: &mut Judge, call: &Call, slot: Slot, work: usize) -> Answer {
        assert!(List::takes(call, work), "{}", call.told());
        let input = call.input.chunks(8);
        let eight = |bytes: &[u8]| u64::from_le_bytes(bytes.try_into().expect("eight bytes"));
        self.put(slot, input.map(eight).collect());
        let (answer, after) = judge.rule_library(call, work);
        let slots = match call.entry {
            Entry::Decompose => [Slot::T, Slot::Q],
            Entry::Real | Entry::Complex | Entry::Plain => [Slot::First, Slot::Second],
        };
        let left = self.left(slots, after);
        let entry = match (call.entry, call.wanted) {
            (Entry::Decompose, 0) => 1,
            (Entry::Decompose, _) => 0,
            (Entry::Real, _) => 2,
            (Entry::Complex, _) => 3,
            (Entry::Plain, _) => 4,
        };
        let [x, y] = call.out.map(|bytes| bytes / 8);
        let lengths = match call.entry {
            Entry::Plain => [x, work, 0],
            Entry::Decompose | Entry::Real | Entry::Complex => [x, y, work],
        };
        let asked = [call.order as u64, call.tolerance, call.budget];
        let given = [slot as u64, (call.input.len() / 8) as u64];
        self.record(entry, given, asked, lengths, answer, left);
        answer
    }

    /// A case of the root, which is the processor's.
    pub fn root(&mut self, number: f64) {
        self.put(Slot::Matrix, vec![number.to_bits()]);
        let after = [
            After::Numbers(vec![number.sqrt()]),
            After::Untouched,
            After::Untouched,
        ];
        let left = self.left([Slot::First, Slot::Second], after);
        let given = [Slot::Matrix as u64, 1];
        self.record(ROOT, given, [0; 3], [1, 0, 0], Answer::Accepted(0), left);
    }

    /// The record of a case: the place of its entry's name; the slot and how many numbers of it are given;
    /// order, tolerance and budget; the lengths of what is lent; the answer; what is left. Then come the
    /// places from which the slices are filled: others in each case.
    fn record(
        &mut self,
        entry: usize,
        given: [u64; 2],
        asked: [u64; 3],
        lengths: [usize; 3],
        answer: Answer,
        left: [u64; 3],
    ) {
        let stored = match answer {
            Answer::Accepted(passes) => [0, passes, 0],
            Answer::Refused(Refusal { number, row, col }) => {
                [u64::from(number), row as u64, col as u64]
            }
        };
        let from = [(); 3].map(|()| self.from());
        let words = [
            &[entry as u64 + 1][..],
            &given,
            &asked,
            &lengths.map(|length| length as u64),
            &stored,
            &left,
            &from,
        ]
        .concat();
        self.head(b'c', 0, words.len());
        self.words(&words);
        self.met[entry][usize::from(answer.number())] += 1;
        if let Answer::Refused(Refusal { number, row, col }) = answer {
            self.places[usize::from(number)].insert((row, col));
        }
        self.groups.last_mut().expect("a group was begun").1 += 1;
    }

    /// A place of the patterns that holds no NaN: a slice that is filled from there on has a number whose bits
    /// the program tells from all others, however short it is.
    fn from(&mut self) -> u64 {
        let patterns = &self.slots[Slot::Lent as usize];
        loop {
            let from = self.random.below(ROOM as u64);
            if !f64::from_bits(patterns[from as usize]).is_nan() {
                return from;
            }
        }
    }

    /// What is left in the three slices: 0 all as it was, 1 NaN, 2 +0, and from 3 on what a slot holds, of
    /// these in turn.
    fn left(&mut self, slots: [Slot; 2], after: [After; 3]) -> [u64; 3] {
        let mut slots = slots.into_iter();
        after.map(|after| match (after, slots.next()) {
            (After::Untouched, _) => 0,
            (After::Nan, _) => 1,
            (After::Numbers(numbers), _) if numbers.iter().all(|x| x.to_bits() == 0) => 2,
            (After::Numbers(numbers), slot) => {
                let slot = slot.expect("a workspace holds +0");
                self.put(slot, numbers.into_iter().map(one_nan).collect());
                3 + slot as u64
            }
        })
    }

    /// Sees to it that a slot begins with these patterns.
    fn put(&mut self, slot: Slot, patterns: Vec<u64>) {
        if !self.slots[slot as usize].starts_with(&patterns) {
            self.head(b'n', slot as usize, patterns.len());
            self.words(&patterns);
            self.slots[slot as usize] = patterns;
        }
    }

    /// The head of a record: its kind, a small number, and how many words follow.
    fn head(&mut self, kind: u8, small: usize, words: usize) {
        let small = u8::try_from(small).expect("a small number");
        let words = u16::try_from(words).expect("not many words");
        let [low, high] = words.to_le_bytes();
        self.bytes.extend([kind, small, low, high, 0, 0, 0, 0]);
    }

    fn words(&mut self, words: &[u64]) {
        self.bytes
            .extend(words.iter().flat_map(|word| word.to_le_bytes()));
    }

    pub fn cases(&self) -> usize {
        self.groups.iter().map(|(_, cases)| cases).sum()
    }

    /// How often an entry gave a number; the place of the entry is that of its name.
    pub fn met(&self, entry: usize, number: u8) -> usize {
        self.met[entry][usize::from(number)]
    }

    /// How many places a number told.
    pub fn places(&self, number: u8) -> usize {
        self.places[usize::from(number)].len()
    }

    /// All that the program prints.
    pub fn page(&self) -> String {
        let mut page = String::new();
        for (name, cases) in &self.groups {
            page += &format!("{name}: {cases} cases, 0 differ\n");
        }
        for (name, met) in NAMES.iter().zip(&self.met) {
            page += &format!("{name}: {} accepted", met[0]);
            for (number, count) in met.iter().enumerate().skip(1) {
                if *count > 0 {
                    page += &format!(", {count} refused {number}");
                }
            }
            page += "\n";
        }
        page + &format!("{} cases, 0 differ\n", self.cases())
    }
}

#[cfg(test)]
mod tests {
    use super::*;

    /// The words of a list behind its patterns.
    fn words(list: &List) -> Vec<u64> {
        let eights = list.bytes.chunks(8).skip(1 + ROOM);
        eights
            .map(|eight| u64::from_le_bytes(eight.try_into().unwrap()))
            .collect()
    }

    /// The same without the last words of its last case, which say from where its slices are filled; and these.
    fn words_and_from(list: &List) -> (Vec<u64>, Vec<u64>) {
        let mut words = words(list);
        let from = words.split_off(words.len() - 3);
        let patterns = &list.slots[Slot::Lent as usize];
        let first = |from: &u64| f64::from_bits(patterns[*from as usize]);
        assert!(from.iter().all(|from| !first(from).is_nan()));
        (words, from)
    }

    #[test]
    fn a_list_begins_with_patterns() {
        let list = List::new();
        assert_eq!(list.bytes.len(), 8 + 8 * ROOM);
        let [low, high] = (ROOM as u16).to_le_bytes();
        assert_eq!(list.bytes[..8], [b'n', 5, low, high, 0, 0, 0, 0]);
        let patterns = &list.slots[Slot::Lent as usize];
        assert!(!patterns.contains(&0) && !patterns.contains(&crate::door::NAN));
        let floats = patterns.iter().copied().map(f64::from_bits);
        let floats: Vec<f64> = floats.collect();
        for odd in [
            f64::is_nan,
            f64::is_infinite,
            f64::is_subnormal,
            f64::is_normal,
        ] {
            assert!(floats.iter().filter(|x| odd(**x)).count() > 400);
        }
        assert!(patterns.iter().filter(|x| **x == 1 << 63).count() > 400);
    }

    /// J, rows (0 -1), (1 0), and the complex reader: what a slot holds is not written again.
    #[test]
    fn cases_are_written() {
        let j = [0.0, 1.0, -1.0, 0.0];
        let (one, minus) = (1f64.to_bits(), (-1f64).to_bits());
        let mut list = List::new();
        list.group("J");
        let call = Call::new(Entry::Complex, 2, &j);
        let answer = list.case(&mut Judge::default(), &call, Slot::T, 0);
        assert_eq!(answer, Answer::Accepted(0));
        let head =
            |kind: u8, small: u64, words: u64| u64::from(kind) + (small << 8) + (words << 16);
        let case = [4, 1, 4, 2, call.tolerance, 1, 2, 2, 0, 0, 0, 0, 2, 7, 0];
        let mut right = vec![head(b'g', 1, 1), u64::from_le_bytes(*b"J       ")];
        right.extend([head(b'n', 1, 4), 0, one, minus, 0]);
        right.extend([head(b'n', 4, 2), one, minus, head(b'c', 0, 18)]);
        right.extend(case);
        let (words, from) = words_and_from(&list);
        assert_eq!(words, right);
        list.case(&mut Judge::default(), &call, Slot::T, 0);
        right.extend(&from);
        right.push(head(b'c', 0, 18));
        right.extend(case);
        let (words, other) = words_and_from(&list);
        assert_eq!(words, right);
        assert!(from.iter().zip(&other).all(|(x, y)| x != y));
        assert!(list.page().starts_with("J: 2 cases, 0 differ\n"));
        assert!(list
            .page()
            .ends_with("root: 0 accepted\n2 cases, 0 differ\n"));
    }

    #[test]
    fn a_root_is_written() {
        let mut list = List::new();
        list.group("4");
        list.root(4.0);
        let (words, _) = words_and_from(&list);
        let [.., head, number, first, root] = words[..words.len() - 16] else {
            panic!("the two numbers");
        };
        assert_eq!((head & 0xff, first & 0xffff), (u64::from(b'n'), 0x036e));
        assert_eq!((number, root), (4f64.to_bits(), 2f64.to_bits()));
        let case = [6, 0, 1, 0, 0, 0, 1, 0, 0, 0, 0, 0, 6, 0, 0];
        assert_eq!(words[words.len() - 15..], case);
        assert!(list.page().contains("root: 1 accepted\n"));
    }

    #[test]
    fn there_is_room_for_numbers_alone() {
        let right = Call::new(Entry::Decompose, 65, &[0.0; ROOM]);
        let (mut long, mut odd) = (right.clone(), right.clone());
        assert!(List::takes(&right, 130));
        long.out[0] += 8;
        odd.input.pop();
        assert!(!List::takes(&long, 130) && !List::takes(&odd, 130));
        assert!(!List::takes(&right, ROOM + 1));
    }
}
