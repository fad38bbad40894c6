//! How often an input was answered in each way.

use super::printed::Outcome;

#[derive(Clone, Default)]
pub struct Met([usize; Outcome::ALL.len()]);

impl Met {
    pub fn count(&mut self, outcome: Outcome) {
        let place = Outcome::ALL.iter().position(|one| *one == outcome);
        self.0[place.expect("document 01 has no other")] += 1;
    }

    pub fn and(mut self, other: &Met) -> Met {
        self.0.iter_mut().zip(other.0).for_each(|(a, b)| *a += b);
        self
    }

    /// What is promised and was not met.
    pub fn missing(&self) -> Vec<Outcome> {
        let all = Outcome::ALL.into_iter().zip(self.0);
        let none = all.filter(|(_, count)| *count == 0);
        none.map(|(outcome, _)| outcome).collect()
    }

    pub fn print(&self) {
        for (outcome, count) in Outcome::ALL.into_iter().zip(self.0) {
            println!("{:25} {count:>9}", outcome.name());
        }
    }
}
