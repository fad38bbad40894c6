//! Matrices kept in a file, a line each: order, bits of the tolerance, budget, and the bits of the
//! entries, column by column. Lines that begin with # say what is odd about the next.

use super::case::{Case, SMALL_BUDGETS, TOLERANCES};

/// A copy of ../shared/oracle/witnesses.txt, then the matrices with known outcomes.
const WITNESSES: &str = include_str!("../../witnesses.txt");

/// Every witness as it stands.
pub fn kept_witnesses() -> Vec<Case> {
    read(WITNESSES).expect("the oracle's own file")
}

/// Every witness as it stands, and at every tolerance with several budgets.
pub fn cases() -> Vec<Case> {
    kept_witnesses().iter().flat_map(everywhere).collect()
}

fn everywhere(case: &Case) -> Vec<Case> {
    let mut cases = vec![case.clone()];
    for tolerance in TOLERANCES {
        for budget in SMALL_BUDGETS.into_iter().chain([100, 1000]) {
            cases.push(Case {
                tolerance,
                budget,
                ..case.clone()
            });
        }
    }
    cases
}

/// The matrices of a text, or the first line that is none.
pub fn read(text: &str) -> Result<Vec<Case>, String> {
    let lines = (1..).zip(text.lines());
    lines
        .filter(|(_, line)| !line.trim().is_empty() && !line.starts_with('#'))
        .map(|(place, line)| case(line).ok_or(format!("line {place} is no matrix: {line}")))
        .collect()
}

fn case(line: &str) -> Option<Case> {
    let number = |word: &str| Some(f64::from_bits(u64::from_str_radix(word, 16).ok()?));
    let mut words = line.split_whitespace();
    let order = words.next()?.parse().ok()?;
    let tolerance = number(words.next()?)?;
    let budget = words.next()?.parse().ok()?;
    let entries: Vec<f64> = words.map(number).collect::<Option<_>>()?;
    let fits = (1..=64).contains(&order) && entries.len() == order * order && budget > 0;
    fits.then_some(Case {
        order,
        entries,
        tolerance,
        budget,
    })
}

#[cfg(test)]
mod tests {
    use super::*;

    #[test]
    fn lines_are_read_as_they_are_written() {
        let witnesses = read(WITNESSES).unwrap();
        assert!(witnesses.len() > 10);
        for witness in witnesses {
            let [again] = &read(&witness.line()).unwrap()[..] else {
                panic!("one line");
            };
            assert_eq!(again.line(), witness.line());
        }
    }

    #[test]
    fn other_lines_are_refused() {
        for line in [
            "1",
            "0 0 1",
            "65 0 1",
            "1 0 0 0",
            "1 0 1",
            "1 0 1 0 0",
            "1 0 1 x",
        ] {
            assert!(read(line).is_err(), "{line}");
        }
    }
}
