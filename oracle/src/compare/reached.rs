//! How often each entry was accepted, and refused with each number.

use crate::call::Entry;
use crate::judge::Answer;

const NUMBERS: usize = 12;

/// By entry, and by number; 0 stands for accepted.
#[derive(Clone, Default)]
pub struct Reached([[usize; NUMBERS]; Entry::ALL.len()]);

/// The numbers that an entry can give, by document 01.
pub fn possible(entry: Entry) -> &'static [u8] {
    match entry {
        Entry::Decompose => &[0, 1, 2, 3, 4, 5, 6, 7, 8, 9],
        Entry::Real => &[0, 1, 2, 3, 6, 9, 10],
        Entry::Complex => &[0, 1, 2, 3, 6, 8, 9, 11],
        Entry::Plain => &[0, 1, 2, 3, 6, 7, 8, 9, 10],
    }
}

impl Reached {
    pub fn count(&mut self, entry: Entry, answer: Answer) {
        self.0[entry as usize][usize::from(answer.number())] += 1;
    }

    pub fn and(mut self, other: &Reached) -> Reached {
        for (entry, counts) in self.0.iter_mut().enumerate() {
            for (number, count) in counts.iter_mut().enumerate() {
                *count += other.0[entry][number];
            }
        }
        self
    }

    pub fn calls(&self) -> usize {
        self.0.iter().flatten().sum()
    }

    pub fn of(&self, entry: Entry, number: u8) -> usize {
        self.0[entry as usize][usize::from(number)]
    }

    /// What can occur and did not: an entry and a number each.
    pub fn missing(&self) -> Vec<(Entry, u8)> {
        let all = Entry::ALL.into_iter();
        let pairs =
            all.flat_map(|entry| possible(entry).iter().map(move |&number| (entry, number)));
        pairs
            .filter(|&(entry, number)| self.of(entry, number) == 0)
            .collect()
    }

    pub fn print(&self) {
        print!("{:15} {:>9}", "calls", "accepted");
        (1..NUMBERS).for_each(|number| print!(" {number:>8}"));
        println!();
        for entry in Entry::ALL {
            print!("{:15}", entry.name());
            for number in 0..NUMBERS as u8 {
                let width = if number == 0 { 9 } else { 8 };
                match possible(entry).contains(&number) {
                    true => print!(" {:>width$}", self.of(entry, number)),
                    false => print!(" {:>width$}", "-"),
                }
            }
            println!();
        }
    }
}
