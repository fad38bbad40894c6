//! What the program must print on an input: document 01's rules for the record, read a second time, and
//! the judge's for all that a right record asks for. The program has no part in it.

use super::form::{right_length, Record, HEADER, MOST};
use crate::call::{Call, Entry};
use crate::judge::{After, Answer, Judge, Refusal, Ruling};

/// The ways in which an input is answered, each check apart, in the order of the checks.
#[derive(Clone, Copy, Debug, PartialEq, Eq)]
pub enum Outcome {
    /// Less than a header: 12.
    NoHeader,
    /// 13.
    Kind,
    /// 1.
    NoOrder,
    /// 2.
    LargeOrder,
    /// The length field is not what the order asks for: 14.
    LengthField,
    /// Less than the length field tells: 12.
    ShortInput,
    /// More than that: 14.
    LongInput,
    /// The library's, 4 to 9.
    Library(u8),
    /// T and Q are printed, and the complex reader refuses, with 11 or 8.
    Reader(u8),
    Accepted,
}

impl Outcome {
    /// All that document 01 promises.
    pub const ALL: [Outcome; 16] = [
        Outcome::NoHeader,
        Outcome::Kind,
        Outcome::NoOrder,
        Outcome::LargeOrder,
        Outcome::LengthField,
        Outcome::ShortInput,
        Outcome::LongInput,
        Outcome::Library(4),
        Outcome::Library(5),
        Outcome::Library(6),
        Outcome::Library(7),
        Outcome::Library(8),
        Outcome::Library(9),
        Outcome::Reader(11),
        Outcome::Reader(8),
        Outcome::Accepted,
    ];

    pub fn name(self) -> String {
        match self {
            Outcome::NoHeader => "12, under 20 bytes".to_string(),
            Outcome::Kind => "13".to_string(),
            Outcome::NoOrder => "1".to_string(),
            Outcome::LargeOrder => "2".to_string(),
            Outcome::LengthField => "14, length field".to_string(),
            Outcome::ShortInput => "12, input short".to_string(),
            Outcome::LongInput => "14, input long".to_string(),
            Outcome::Library(number) => number.to_string(),
            Outcome::Reader(number) => format!("eigenvalues {number}"),
            Outcome::Accepted => "accepted".to_string(),
        }
    }
}

pub struct Printed {
    pub outcome: Outcome,
    pub text: String,
}

pub fn on(judge: &mut Judge, input: &[u8]) -> Printed {
    match right(input) {
        Ok(record) => decomposed(judge, &record),
        Err((outcome, number)) => Printed {
            outcome,
            text: format!("refused {number} 0 0\n"),
        },
    }
}

/// The record, if nothing about its form is wrong; or the first check that fails, and its number.
pub fn right(input: &[u8]) -> Result<Record, (Outcome, u8)> {
    let Some(record) = Record::read(input) else {
        return Err((Outcome::NoHeader, 12));
    };
    let told = u64::from(record.length);
    let given = (HEADER - 4 + record.rest.len()) as u64;
    let checks = [
        (record.kind != 1, Outcome::Kind, 13),
        (record.order == 0, Outcome::NoOrder, 1),
        (record.order > MOST, Outcome::LargeOrder, 2),
        (told != right_length(record.order), Outcome::LengthField, 14),
        (given < told, Outcome::ShortInput, 12),
        (given > told, Outcome::LongInput, 14),
    ];
    match checks.into_iter().find(|(wrong, _, _)| *wrong) {
        Some((_, outcome, number)) => Err((outcome, number)),
        None => Ok(record),
    }
}

fn decomposed(judge: &mut Judge, record: &Record) -> Printed {
    let order = usize::from(record.order);
    let mut call = Call::new(Entry::Decompose, order, &[]);
    call.input = record.rest.clone();
    (call.tolerance, call.budget) = (record.tolerance, record.budget.into());
    let Ruling { answer, after } = judge.rule(&call, 0);
    let passes = match answer {
        Answer::Accepted(passes) => passes,
        Answer::Refused(refusal) => {
            return Printed {
                outcome: Outcome::Library(refusal.number),
                text: refused(refusal),
            };
        }
    };
    let [t, q] = after.map(numbers);
    let text = format!("order {order} passes {passes}\n") + &matrix('t', order, &t);
    let text = text + &matrix('q', order, &q);
    let (outcome, values) = eigenvalues(judge, order, &t);
    Printed {
        outcome,
        text: text + &values,
    }
}

fn eigenvalues(judge: &mut Judge, order: usize, t: &[f64]) -> (Outcome, String) {
    let Ruling { answer, after } = judge.rule(&Call::new(Entry::Complex, order, t), 0);
    if let Answer::Refused(refusal) = answer {
        let text = format!("eigenvalues {}", refused(refusal));
        return (Outcome::Reader(refusal.number), text);
    }
    let [re, im] = after.map(numbers);
    let line = |k: usize| format!("e {k} {} {}\n", hex(re[k]), hex(im[k]));
    (Outcome::Accepted, (0..order).map(line).collect())
}

fn refused(Refusal { number, row, col }: Refusal) -> String {
    format!("refused {number} {row} {col}\n")
}

/// Column by column.
fn matrix(name: char, order: usize, numbers: &[f64]) -> String {
    let line = |(place, &number): (usize, &f64)| {
        let (row, col) = (place % order, place / order);
        format!("{name} {row} {col} {}\n", hex(number))
    };
    numbers.iter().enumerate().map(line).collect()
}

fn hex(number: f64) -> String {
    format!("{:016x}", number.to_bits())
}

fn numbers(after: After) -> Vec<f64> {
    match after {
        After::Numbers(numbers) => numbers,
        After::Untouched | After::Nan => unreachable!("an accepted call writes numbers"),
    }
}

#[cfg(test)]
mod tests {
    use super::*;

    fn printed(input: &[u8]) -> String {
        on(&mut Judge::default(), input).text
    }

    /// Document 01's own words.
    #[test]
    fn the_sample_prints_exactly_this() {
        let sample = Record::new(2, 1, 0.0, &[2.0, 0.0, 0.0, 3.0]);
        let right = "\
order 2 passes 0
t 0 0 4000000000000000
t 1 0 0000000000000000
t 0 1 0000000000000000
t 1 1 4008000000000000
q 0 0 3ff0000000000000
q 1 0 0000000000000000
q 0 1 0000000000000000
q 1 1 3ff0000000000000
e 0 4000000000000000 0000000000000000
e 1 4008000000000000 0000000000000000
";
        assert_eq!(printed(&sample.bytes()), right);
    }

    /// A fault is mended, and the next check fails, down to an accepted record.
    #[test]
    fn checks_stand_in_their_order() {
        let mut record = Record {
            length: 3,
            kind: 0,
            order: 0,
            budget: 0,
            tolerance: f64::NAN.to_bits(),
            rest: vec![0xff; 40],
        };
        assert_eq!(printed(&record.bytes()[..19]), "refused 12 0 0\n");
        assert_eq!(printed(&[]), "refused 12 0 0\n");
        let said = |record: &Record, right: &str| assert_eq!(printed(&record.bytes()), right);
        said(&record, "refused 13 0 0\n");
        record.kind = 1;
        said(&record, "refused 1 0 0\n");
        record.order = 33;
        said(&record, "refused 2 0 0\n");
        record.order = 2;
        said(&record, "refused 14 0 0\n");
        record.length = 48;
        record.rest.truncate(31);
        said(&record, "refused 12 0 0\n");
        record.rest.resize(33, 0xff);
        said(&record, "refused 14 0 0\n");
        record.rest.truncate(32);
        said(&record, "refused 4 0 0\n");
        record.tolerance = 0;
        said(&record, "refused 5 0 0\n");
        record.budget = 1;
        said(&record, "refused 6 0 0\n");
        record.rest[..16].fill(0);
        said(&record, "refused 6 0 1\n");
        record.rest.fill(0);
        assert!(printed(&record.bytes()).starts_with("order 2 passes 0\nt 0 0 0000000000000000\n"));
    }

    /// 7, 8 and 9 are one line; what the complex reader refuses stands behind Q.
    #[test]
    fn outcomes_of_the_run_are_told() {
        let large = 2f64.powi(700);
        let l = Record::new(2, 1, f64::EPSILON, &[0.0, large, large, 0.0]);
        assert_eq!(printed(&l.bytes()), "refused 8 0 0\n");
        let most = f64::MAX;
        let unread = [most, 0.0, 0.0, most, 0.0, most, -most, -most, 0.0];
        let text = printed(&Record::new(3, 100, f64::EPSILON, &unread).bytes());
        let lines: Vec<&str> = text.lines().collect();
        assert_eq!(lines.len(), 1 + 9 + 9 + 1);
        assert_eq!(lines[0], "order 3 passes 0");
        assert!(lines[8].starts_with("t 1 2 ") && lines[18].starts_with("q 2 2 "));
        assert_eq!(lines[19], "eigenvalues refused 8 1 1");
    }
}
