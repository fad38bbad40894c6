//! What the list covers: how often, and what of that it lacks.

use super::list::{List, NAMES, ROOT};
use crate::call::Entry;
use crate::compare::{possible, FAMILIES, TOLERANCES};
use crate::judge::Answer;

/// The entries that may refuse, as the program counts them: the decomposition with Q, then without.
const ENTRIES: [Entry; ROOT] = [
    Entry::Decompose,
    Entry::Decompose,
    Entry::Real,
    Entry::Complex,
    Entry::Plain,
];

/// The refusals that tell a place, and at how many places at least.
const PLACES: [(u8, usize); 4] = [(6, 5), (8, 5), (9, 5), (11, 5)];

#[derive(Default)]
pub struct Covered {
    /// Runs that count a pass or more, refused with 7 at the count and not one above it nor further up: with
    /// Q, and without. First those that are accepted there, then those refused with 8 or 9.
    counted: [[usize; 2]; 2],
    /// Accepted matrices at each tolerance, and of each family.
    pub tolerances: [usize; TOLERANCES.len()],
    pub families: [usize; FAMILIES.len()],
    pub witnesses: usize,
    /// Runs of thousands of passes that are accepted; first those that the plain entry ends, then those that
    /// take more than its budget.
    pub long: [usize; 2],
    /// Calls in which one slice alone has a wrong length, by the slice.
    pub lengths: [usize; 4],
}

impl Covered {
    /// The answers to one run at its count, one above, and further up.
    pub fn count(&mut self, answers: &[Answer], wanted: bool) {
        let numbers: Vec<u8> = answers.iter().map(|answer| answer.number()).collect();
        match numbers[..] {
            [7, 0, 0] => self.counted[usize::from(!wanted)][0] += 1,
            [7, 8 | 9, 8 | 9] => self.counted[usize::from(!wanted)][1] += 1,
            _ => {}
        }
    }

    pub fn print(&self, list: &List) {
        let [with, without] = self.counted;
        println!(
            "runs refused at their count, and not above it: {} accepted with Q, {} without; {} and {} with 8 or 9",
            with[0], without[0], with[1], without[1]
        );
        println!("accepted at each tolerance: {:?}", self.tolerances);
        println!("accepted of each family: {:?}", self.families);
        println!("wrong lengths, by slice: {:?}", self.lengths);
        let places = PLACES.map(|(number, _)| format!("{number} at {}", list.places(number)));
        println!("places told: {}", places.join(", "));
        println!(
            "witnesses: {}; long runs within the plain entry's budget and above: {:?}",
            self.witnesses, self.long
        );
    }

    /// What the list is to have and has not.
    pub fn missing(&self, list: &List) -> Vec<String> {
        let mut missing = Vec::new();
        for (place, entry) in ENTRIES.into_iter().enumerate() {
            let numbers = possible(entry).iter();
            let never = numbers.filter(|number| list.met(place, **number) == 0);
            missing.extend(never.map(|number| format!("{number} of the {}", NAMES[place])));
        }
        for (number, least) in PLACES {
            if list.places(number) < least {
                missing.push(format!("{number} at {least} places"));
            }
        }
        let mut none = |what: &str, counts: &[usize]| {
            let places = (0..counts.len()).filter(|place| counts[*place] == 0);
            missing.extend(places.map(|place| format!("{what} {place}")));
        };
        none("runs counted with Q", &self.counted[0]);
        none("runs counted without Q", &self.counted[1]);
        none("tolerance", &self.tolerances);
        none("family", &self.families);
        none("a wrong length of slice", &self.lengths);
        none("long runs", &self.long);
        none("witnesses", &[self.witnesses]);
        none("roots", &[list.met(ROOT, 0)]);
        missing
    }
}
