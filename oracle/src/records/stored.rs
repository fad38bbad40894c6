//! The inputs that are stored for the test program `looproots_runs`, each under a name: every refusal, every
//! two faults that can stand together, every cut of the header, the edges of each field, and the matrices
//! with known outcomes.

use super::form::{right_length, Record, HEADER};
use super::printed::{self, Outcome};
use crate::compare::{kept_witnesses, Case, FAMILIES};
use crate::judge::Judge;
use crate::random::Random;

pub struct Stored {
    pub name: String,
    pub input: Vec<u8>,
}

/// The checks before the run, in their order.
const FAULTS: &[Outcome] = Outcome::ALL.split_at(10).0;

/// What the run, or the complex reader behind it, is refused with.
const RESULTS: &[Outcome] = Outcome::ALL.split_at(10).1.split_at(5).0;

/// As it stands in the name of a file.
fn name(outcome: Outcome) -> String {
    match outcome {
        Outcome::NoHeader => "r12_head".to_string(),
        Outcome::Kind => "r13".to_string(),
        Outcome::NoOrder => "r01".to_string(),
        Outcome::LargeOrder => "r02".to_string(),
        Outcome::LengthField => "r14_field".to_string(),
        Outcome::ShortInput => "r12_input".to_string(),
        Outcome::LongInput => "r14_input".to_string(),
        Outcome::Library(number) => format!("r{number:02}"),
        Outcome::Reader(number) => format!("e{number:02}"),
        Outcome::Accepted => unreachable!("no refusal"),
    }
}

/// All inputs, in the order in which the program takes them.
pub fn all() -> Vec<Stored> {
    let mut all = List::default();
    all.add("sample", &sample());
    cuts(&mut all);
    for (faults, input) in faulty() {
        let names: Vec<String> = faults.into_iter().map(name).collect();
        all.put(&names.join("_"), input);
    }
    fields(&mut all);
    orders(&mut all);
    marked(&mut all);
    for (number, case) in (1..).zip(kept_witnesses()) {
        let input = of_case(&case).bytes();
        // The marked matrices are among them.
        if all.0.iter().all(|stored| stored.input != input) {
            all.put(&format!("witness_{number:02}"), input);
        }
    }
    all.0
}

#[derive(Default)]
struct List(Vec<Stored>);

impl List {
    fn add(&mut self, name: &str, record: &Record) {
        self.put(name, record.bytes());
    }

    fn put(&mut self, name: &str, input: Vec<u8>) {
        let name = name.to_string();
        self.0.push(Stored { name, input });
    }

    /// The sample, but for what is done to it.
    fn but(&mut self, name: &str, change: impl Fn(&mut Record)) {
        let mut record = sample();
        change(&mut record);
        self.add(name, &record);
    }
}

/// Document 01's sample.
fn sample() -> Record {
    Record::new(2, 1, 0.0, &[2.0, 0.0, 0.0, 3.0])
}

fn of_case(case: &Case) -> Record {
    Record::new(
        case.order,
        case.budget as u32,
        case.tolerance,
        &case.entries,
    )
}

/// The sample cut at every byte of its header and in some places behind it, and with bytes too many.
fn cuts(all: &mut List) {
    let whole = sample().bytes();
    for length in (0..=HEADER).chain([HEADER + 1, whole.len() - 8, whole.len() - 1]) {
        all.put(&format!("cut_{length:02}"), whole[..length].to_vec());
    }
    for more in [1, 8] {
        let mut long = whole.clone();
        long.resize(whole.len() + more, 0);
        all.put(&format!("long_{more}"), long);
    }
}

/// Every refusal alone, and every two that can stand together, the earlier check first; one input each.
fn faulty() -> Vec<(Vec<Outcome>, Vec<u8>)> {
    let bases: Vec<(Outcome, Record)> = RESULTS.iter().map(|&result| base(result)).collect();
    let mut faulty = Vec::new();
    for (place, &first) in FAULTS.iter().enumerate() {
        faulty.push((vec![first], inflicted(&[first], sample())));
        for &second in FAULTS[place + 1..].iter() {
            if together(first, second) {
                let input = inflicted(&[first, second], sample());
                faulty.push((vec![first, second], input));
            }
        }
        for (result, record) in &bases {
            if together(first, *result) {
                let input = inflicted(&[first], record.clone());
                faulty.push((vec![first, *result], input));
            }
        }
    }
    for (result, record) in bases {
        faulty.push((vec![result], record.bytes()));
    }
    faulty
}

/// Whether two refusals can be true of one input; the first check comes before the second.
fn together(first: Outcome, second: Outcome) -> bool {
    use Outcome::*;
    match (first, second) {
        // Less than a header has no tolerance and no entries, and is always less than a right length field
        // tells, and never more.
        (NoHeader, Kind | NoOrder | LargeOrder | LengthField | Library(5)) => true,
        (NoHeader, _) => false,
        // Order 0 has no entries, and nothing that could be cut but the header.
        (NoOrder, LargeOrder | ShortInput | Library(6..) | Reader(_)) => false,
        (ShortInput, LongInput) => false,
        _ => true,
    }
}

fn inflicted(faults: &[Outcome], mut record: Record) -> Vec<u8> {
    for &fault in faults {
        inflict(fault, &mut record);
    }
    let mut bytes = record.bytes();
    if faults.contains(&Outcome::NoHeader) {
        bytes.truncate(HEADER - 1);
    }
    bytes
}

/// One fault, with no other.
fn inflict(fault: Outcome, record: &mut Record) {
    match fault {
        // That is done to the bytes.
        Outcome::NoHeader => {}
        Outcome::Kind => record.kind = 2,
        Outcome::NoOrder => *record = at_order(0, record),
        Outcome::LargeOrder => *record = at_order(33, record),
        Outcome::LengthField => {
            record.length += 8;
            record.rest.extend([0; 8]);
        }
        Outcome::ShortInput => record.rest.truncate(record.rest.len() - 1),
        Outcome::LongInput => record.rest.push(0),
        Outcome::Library(4) => record.tolerance = f64::NAN.to_bits(),
        Outcome::Library(5) => record.budget = 0,
        Outcome::Library(6) => record.rest[8..16].copy_from_slice(&f64::NAN.to_le_bytes()),
        other => unreachable!("{other:?} comes after the checks"),
    }
}

/// The same matrix within one of another order, or as much of it as has room; zeros beside it.
fn at_order(order: u16, record: &Record) -> Record {
    let (old, new) = (usize::from(record.order), usize::from(order));
    let entries = record.entries();
    let mut grown = vec![0.0; new * new];
    for place in 0..old.min(new).pow(2) {
        let (row, col) = (place % old.min(new), place / old.min(new));
        grown[row + col * new] = entries[row + col * old];
    }
    let tolerance = f64::from_bits(record.tolerance);
    let right = Record::new(new, record.budget, tolerance, &grown);
    Record {
        kind: record.kind,
        ..right
    }
}

/// A record that the judge refuses so: one of the witnesses, or the largest number throughout. Their order
/// is 3 or more, since order 2 is not scaled, and comes to something else within a larger matrix.
fn base(result: Outcome) -> (Outcome, Record) {
    let mut judge = Judge::default();
    let witnesses = kept_witnesses().into_iter().filter(|case| case.order > 2);
    let largest = Record::new(3, 100, f64::EPSILON, &[f64::MAX; 9]);
    let mut records = witnesses.map(|case| of_case(&case)).chain([largest]);
    let found = records.find(|record| printed::on(&mut judge, &record.bytes()).outcome == result);
    (result, found.expect("there is one of every result"))
}

/// Each field of the sample at its edges, all others as they are.
fn fields(all: &mut List) {
    let lengths = [0, 15, 16, 40, 47, 49, 56, 0x0100_0030, u32::MAX];
    for length in lengths {
        all.but(&format!("length_{length}"), |record| record.length = length);
    }
    for kind in [0, 3, 0x0100, 0x0101, u16::MAX] {
        all.but(&format!("kind_{kind}"), |record| record.kind = kind);
    }
    for order in [0, 1, 3, 32, 33, 0x0102, 0x0200, u16::MAX] {
        all.but(&format!("order_field_{order}"), |record| {
            record.order = order
        });
    }
    for budget in [0, 2, 65_536, 1_000_000, 1_000_001, 0x0100_0001, u32::MAX] {
        all.but(&format!("budget_{budget}"), |record| record.budget = budget);
    }
    let tolerances = [
        ("nan", f64::NAN),
        ("minus_nan", -f64::NAN),
        ("signalling", f64::from_bits(0x7ff0_0000_0000_0001)),
        ("inf", f64::INFINITY),
        ("minus_inf", f64::NEG_INFINITY),
        ("minus_0", -0.0),
        ("below_0", -f64::from_bits(1)),
        ("least", f64::from_bits(1)),
        ("below_1", 1.0 - f64::EPSILON / 2.0),
        ("1", 1.0),
    ];
    for (name, tolerance) in tolerances {
        all.but(&format!("tolerance_{name}"), |record| {
            record.tolerance = tolerance.to_bits()
        });
    }
    let numbers = [
        ("nan", f64::NAN),
        ("minus_nan", -f64::NAN),
        ("signalling", f64::from_bits(0x7ff0_0000_0000_0001)),
        ("inf", f64::INFINITY),
        ("minus_inf", f64::NEG_INFINITY),
    ];
    for (place, (name, number)) in numbers.into_iter().enumerate() {
        all.but(&format!("entry_{name}"), |record| {
            let from = 8 * (place % 4);
            record.rest[from..from + 8].copy_from_slice(&number.to_le_bytes());
        });
    }
    // The first is told, column by column.
    all.but("entry_two", |record| record.rest[8..24].fill(0xff));
    all.but("entry_most", |record| {
        record.rest[..8].copy_from_slice(&f64::MAX.to_le_bytes())
    });
}

/// Random matrices of several orders, the largest among them; and orders above, in full.
fn orders(all: &mut List) {
    let mut random = Random::stream(32, 0);
    let mut drawn = |order: usize| {
        let entries = (FAMILIES[0].entries)(&mut random, order);
        Record::new(order, 1000, f64::EPSILON, &entries)
    };
    for order in [1, 2, 3, 5, 8, 33, 64] {
        all.add(&format!("order_{order}"), &drawn(order));
    }
    let largest = drawn(32);
    let whole = largest.bytes();
    all.put("order_32", whole.clone());
    all.put("order_32_cut", whole[..whole.len() - 1].to_vec());
    for length in [whole.len() + 1, 65_536, 70_000] {
        let mut long = whole.clone();
        long.resize(length, 0x55);
        all.put(&format!("order_32_bytes_{length}"), long);
    }
    // 16 + 8 * n * n as far as the field can hold it, and a matrix of order 32 behind it.
    let mut most = largest;
    (most.order, most.length) = (u16::MAX, right_length(u16::MAX) as u32);
    all.add("order_65535", &most);
}

/// Document 01's matrices with known outcomes. Item n is a T for the readers, which no record holds.
fn marked(all: &mut List) {
    let mut add = |name: &str, budget: u32, tolerance: f64, rows: &[&[f64]]| {
        let entries = (0..rows.len()).flat_map(|col| rows.iter().map(move |row| row[col]));
        let entries: Vec<f64> = entries.collect();
        let record = Record::new(rows.len(), budget, tolerance, &entries);
        all.add(&format!("marked_{name}"), &record);
    };
    let (eps, large) = (f64::EPSILON, 2f64.powi(700));
    let j: &[&[f64]] = &[&[0.0, -1.0], &[1.0, 0.0]];
    add("a", 1, eps, &[&[5.0]]);
    add("b", 1, eps, j);
    add("c", 1, eps, &[&[0.0; 3][..]; 3]);
    let d: &[&[f64]] = &[&[1.0, 0.0, 0.0], &[0.0, 2.0, 0.0], &[0.0, 0.0, 4.0]];
    add("d", 1, eps, d);
    let e: &[&[f64]] = &[&[0.0, -1.0, 0.0], &[1.0, 0.0, 0.0], &[0.0, 0.0, 2.0]];
    add("e", 1, eps, e);
    let below: [&[f64]; 2] = [&[0.0, 0.0, 0.0, -1.0], &[0.0, 0.0, 1.0, 0.0]];
    let f: [&[f64]; 2] = [&[0.0, -1.0, 0.0, 0.0], &[1.0, 0.0, 0.0, 0.0]];
    let g: [&[f64]; 2] = [&[1.0, 0.0, 0.0, 0.0], &[0.0, 2.0, 0.0, 0.0]];
    for budget in [1, 2] {
        let name = |item: char| format!("{item}_budget_{budget}");
        add(&name('f'), budget, eps, &[f, below].concat());
        add(&name('g'), budget, eps, &[g, below].concat());
    }
    add("h", 1, eps, &[&[0.0; 3], &[0.0; 3], &[0.0, f64::NAN, 0.0]]);
    add("i_order_0", 1, eps, &[]);
    add("i_order_65", 1, eps, &[&[0.0; 65][..]; 65]);
    add("j", 1, 1.0, j);
    add("k", 0, eps, j);
    add("l", 1, eps, &[&[0.0, large], &[large, 0.0]]);
    add("m", 1, eps, &[&[1.0, 0.0], &[large, 1.0]]);
}

#[cfg(test)]
mod tests {
    use super::*;
    use crate::call::{Call, Entry};
    use crate::judge::{After, Answer};
    use std::collections::HashSet;

    /// What the judge says of a stored input.
    fn outcome(name: &str) -> Outcome {
        let all = all();
        let stored = all.iter().find(|stored| stored.name == name);
        let stored = stored.unwrap_or_else(|| panic!("no {name}"));
        printed::on(&mut Judge::default(), &stored.input).outcome
    }

    #[test]
    fn names_are_short_and_each_has_its_own() {
        let all = all();
        let names: HashSet<&str> = all.iter().map(|stored| stored.name.as_str()).collect();
        assert_eq!(names.len(), all.len());
        for name in names {
            let plain = |c: char| c.is_ascii_lowercase() || c.is_ascii_digit() || c == '_';
            assert!(name.len() <= 24 && name.chars().all(plain), "{name}");
        }
    }

    /// Each was made for the first of its faults; the judge, who is not told, comes to that too.
    #[test]
    fn the_first_check_that_fails_wins() {
        let faulty = faulty();
        assert_eq!(faulty.iter().filter(|case| case.0.len() == 1).count(), 15);
        assert_eq!(faulty.len(), 15 + 77);
        for (faults, input) in faulty {
            let outcome = printed::on(&mut Judge::default(), &input).outcome;
            assert_eq!(outcome, faults[0], "{faults:?}");
        }
    }

    /// Whether a fault stands in an input, whatever else does.
    fn stands(fault: Outcome, input: &[u8]) -> bool {
        let mut filled = input.to_vec();
        filled.resize(input.len().max(HEADER), 0);
        let record = Record::read(&filled).expect("a header");
        let given = input.len() as u64;
        let told = 4 + u64::from(record.length);
        let tolerance = f64::from_bits(record.tolerance);
        match fault {
            Outcome::NoHeader => given < 20,
            Outcome::Kind => record.kind != 1,
            Outcome::NoOrder => record.order == 0,
            Outcome::LargeOrder => record.order > 32,
            Outcome::LengthField => record.length as u64 != right_length(record.order),
            // Of less than a header that says nothing.
            Outcome::ShortInput => given >= 20 && given < told,
            Outcome::LongInput => given > told,
            Outcome::Library(4) => !(tolerance >= 0.0 && tolerance < 1.0),
            Outcome::Library(5) => record.budget == 0 || record.budget > 1_000_000,
            Outcome::Library(6) => record.entries().iter().any(|x| !x.is_finite()),
            other => panic!("{other:?} comes after the checks"),
        }
    }

    #[test]
    fn inputs_have_their_faults_and_no_other() {
        for (faults, input) in faulty() {
            for fault in FAULTS {
                let stands = stands(*fault, &input);
                assert_eq!(stands, faults.contains(fault), "{fault:?} in {faults:?}");
            }
        }
    }

    /// A matrix within one of order 33 comes to the same, where the library takes it.
    #[test]
    fn large_orders_keep_their_results() {
        for result in RESULTS {
            let (_, record) = base(*result);
            let large = at_order(33, &record);
            let mut call = Call::new(Entry::Decompose, 33, &large.entries());
            (call.tolerance, call.budget) = (large.tolerance, large.budget.into());
            let mut judge = Judge::default();
            let ruling = judge.rule(&call, 0);
            let (answer, [t, _]) = (ruling.answer, ruling.after);
            match *result {
                Outcome::Library(number) => assert_eq!(answer.number(), number),
                Outcome::Reader(number) => {
                    assert!(matches!(answer, Answer::Accepted(_)));
                    let After::Numbers(t) = t else { panic!() };
                    let read = judge.rule(&Call::new(Entry::Complex, 33, &t), 0);
                    assert_eq!(read.answer.number(), number);
                }
                other => panic!("{other:?}"),
            }
        }
    }

    #[test]
    fn inputs_are_what_their_names_say() {
        for order in [1, 2, 3, 5, 8, 32] {
            assert_eq!(outcome(&format!("order_{order}")), Outcome::Accepted);
        }
        for order in [33, 64, 65_535] {
            assert_eq!(outcome(&format!("order_{order}")), Outcome::LargeOrder);
        }
        for name in ["b", "e", "f_budget_2", "g_budget_2", "m"] {
            assert_eq!(outcome(&format!("marked_{name}")), Outcome::Accepted);
        }
        assert_eq!(outcome("marked_g_budget_1"), Outcome::Library(7));
        assert_eq!(outcome("marked_i_order_0"), Outcome::NoOrder);
        assert_eq!(outcome("marked_i_order_65"), Outcome::LargeOrder);
        assert_eq!(outcome("marked_j"), Outcome::Library(4));
        assert_eq!(outcome("marked_k"), Outcome::Library(5));
        for name in ["tolerance_minus_0", "tolerance_below_1", "budget_1000000"] {
            assert_eq!(outcome(name), Outcome::Accepted);
        }
        for name in ["tolerance_1", "tolerance_below_0", "tolerance_nan"] {
            assert_eq!(outcome(name), Outcome::Library(4));
        }
        for name in ["budget_0", "budget_1000001"] {
            assert_eq!(outcome(name), Outcome::Library(5));
        }
        for length in 0..20 {
            assert_eq!(outcome(&format!("cut_{length:02}")), Outcome::NoHeader);
        }
        assert_eq!(outcome("cut_20"), Outcome::ShortInput);
        assert_eq!(outcome("order_32_bytes_8213"), Outcome::LongInput);
        assert_eq!(outcome("order_32_bytes_70000"), Outcome::LongInput);
    }
}
