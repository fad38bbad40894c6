//! The calls of `calls.txt`, which says how they are written: document 01's matrices with known outcomes, its
//! two roots, odd inputs.

use crate::call::{Call, Entry};

const CALLS: &str = include_str!("../../calls.txt");

pub enum Line {
    /// The name of a group, which begins here.
    Group(String),
    /// A call, and the length of its workspace in numbers.
    Call(Call, usize),
    /// The number whose root is asked for.
    Root(f64),
}

pub fn lines() -> Vec<Line> {
    read(CALLS).expect("the oracle's own file")
}

/// The lines of a text, or the first that is none.
fn read(text: &str) -> Result<Vec<Line>, String> {
    let lines = (1..).zip(text.lines());
    lines
        .filter(|(_, line)| !line.is_empty() && !line.starts_with('#'))
        .map(|(place, line)| understand(line).ok_or(format!("line {place} is no call: {line}")))
        .collect()
}

fn understand(line: &str) -> Option<Line> {
    if let Some(name) = line.strip_prefix('[') {
        return Some(Line::Group(name.strip_suffix(']')?.to_string()));
    }
    let (_, words) = line.split_once(": ")?;
    let words = words.split(' ');
    let words: Vec<u64> = words
        .map(|word| u64::from_str_radix(word, 16).ok())
        .collect::<Option<_>>()?;
    let [entry, order, tolerance, budget, x, y, z, patterns @ ..] = &words[..] else {
        return None;
    };
    let numbers: Vec<f64> = patterns.iter().copied().map(f64::from_bits).collect();
    let lengths = [x, y, z].map(|length| *length as usize);
    let (entry, wanted, work) = match entry {
        1 => (Entry::Decompose, 1, lengths[2]),
        2 => (Entry::Decompose, 0, lengths[2]),
        3 => (Entry::Real, 1, lengths[2]),
        4 => (Entry::Complex, 1, lengths[2]),
        5 => (Entry::Plain, 1, lengths[1]),
        6 if lengths == [1, 0, 0] && numbers.len() == 1 => return Some(Line::Root(numbers[0])),
        _ => return None,
    };
    let mut call = Call::new(entry, *order as usize, &numbers);
    (call.tolerance, call.budget, call.wanted) = (*tolerance, *budget, wanted);
    call.out = [8 * lengths[0], 8 * lengths[1]];
    Some(Line::Call(call, work))
}

#[cfg(test)]
mod tests {
    use super::*;

    #[test]
    fn calls_are_read() {
        let text =
            "# J\n[J]\n\nj, plain: 5 2 0 1 2 4 0 0 3ff0000000000000\nroot: 6 0 0 0 1 0 0 1\n";
        let [Line::Group(name), Line::Call(call, 4), Line::Root(root)] = &read(text).unwrap()[..]
        else {
            panic!("a group, a call and a root");
        };
        assert_eq!((&name[..], root.to_bits()), ("J", 1));
        assert_eq!((call.entry, call.order, call.budget), (Entry::Plain, 2, 1));
        assert_eq!((call.input.len(), call.out[0]), (16, 16));
    }

    #[test]
    fn other_lines_are_refused() {
        for line in [
            "x",
            "[x",
            "x: 1 1 0 1 1 1",
            "x: 7 1 0 1 1 1 2 0",
            "x: 1 1 0 1 1 1 2 g",
            "x: 1  1 0 1 1 1 2 0",
            "x:1 1 0 1 1 1 2 0",
            "x: 6 0 0 0 1 0 0",
            "x: 6 0 0 0 1 1 0 0",
        ] {
            assert!(read(line).is_err(), "{line}");
        }
    }
}
