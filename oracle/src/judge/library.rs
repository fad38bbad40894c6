//! What a call of the Rattle library must come to. It is lent floats where the door is lent bytes, and a
//! workspace, which the door has of its own: the third slice of the decomposition, the second of the plain
//! entry.

use super::{without_place, After, Answer, Judge, Ruling};
use crate::call::{Call, Entry};

impl Judge {
    /// The answer, and what the three slices that are written must hold; `work` is the length of the
    /// workspace in numbers. It is checked together with the other lengths, and holds +0 after a run.
    pub fn rule_library(&mut self, call: &Call, work: usize) -> (Answer, [After; 3]) {
        let Ruling {
            answer,
            after: [first, second],
        } = self.rule(call, 0);
        let works = matches!(call.entry, Entry::Decompose | Entry::Plain);
        let before = (1..=6).contains(&answer.number());
        if works && !(1..=2).contains(&answer.number()) && work != 2 * call.order {
            let after = [After::Untouched, After::Untouched, After::Untouched];
            return (Answer::Refused(without_place(3)), after);
        }
        let work = match works && !before {
            true => After::Numbers(vec![0.0; work]),
            false => After::Untouched,
        };
        let after = match call.entry {
            Entry::Plain => [first, work, second],
            Entry::Decompose | Entry::Real | Entry::Complex => [first, second, work],
        };
        (answer, after)
    }
}
