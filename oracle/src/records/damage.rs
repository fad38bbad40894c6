//! Records that are damaged in one way or another, made from a seed.

use super::form::{right_length, Record};
use super::printed;
use crate::compare::{not_finite, Case, FAMILIES};
use crate::judge::Judge;
use crate::numbers::between;
use crate::random::Random;

pub struct Damage {
    pub name: &'static str,
    inflict: fn(&mut Random, Vec<u8>) -> Vec<u8>,
}

/// A line of the table below.
const fn damage(name: &'static str, inflict: fn(&mut Random, Vec<u8>) -> Vec<u8>) -> Damage {
    Damage { name, inflict }
}

pub const DAMAGES: &[Damage] = &[
    damage("none", |_, bytes| bytes),
    damage("a byte changed", changed),
    damage("bytes dropped", dropped),
    damage("bytes inserted", inserted),
    damage("cut", cut),
    damage("lengthened", lengthened),
    damage("a field at an edge", field),
    damage("an entry not finite", entry),
    damage("another order", order),
    damage("two of these", two),
    damage("random entries", random_entries),
    damage("random bytes", random_bytes),
];

/// The first and the last of those that are done two at once too.
const SINGLE: [usize; 2] = [1, 8];

/// No run is to take longer: many matrices never close their windows.
const LONGEST: u32 = 1000;

/// One in so many is a witness, since few other matrices are refused with 9, or by the complex reader.
const WITNESSES: u64 = 6;

/// A record with this damage.
pub fn draw(
    damage: &Damage,
    witnesses: &[Case],
    judge: &mut Judge,
    random: &mut Random,
) -> Vec<u8> {
    let case = match random.below(WITNESSES) {
        0 => witnesses[random.below(witnesses.len() as u64) as usize].clone(),
        _ => {
            let order = match random.below(32) {
                0 => 32,
                1 | 2 => between(random, 9, 31),
                _ => between(random, 1, 8),
            };
            let family = &FAMILIES[random.below(FAMILIES.len() as u64) as usize];
            Case::draw(random, family, order..=order)
        }
    };
    let Case { order, budget, .. } = case;
    let record = Record::new(order, budget as u32, case.tolerance, &case.entries);
    let mut bytes = (damage.inflict)(random, record.bytes());
    shorten(&mut bytes, judge);
    bytes
}

/// Gives a smaller budget to a record that would run up to a large one.
fn shorten(bytes: &mut [u8], judge: &mut Judge) {
    let Ok(record) = printed::right(bytes) else {
        return;
    };
    let (tolerance, entries) = (f64::from_bits(record.tolerance), record.entries());
    let runs = (0.0..1.0).contains(&tolerance)
        && (LONGEST + 1..=1_000_000).contains(&record.budget)
        && entries.iter().all(|x| x.is_finite());
    let ends = |judge: &mut Judge| {
        let order = usize::from(record.order);
        judge
            .t(order, &entries, tolerance, LONGEST.into())
            .is_some()
    };
    if runs && !ends(judge) {
        bytes[8..12].copy_from_slice(&LONGEST.to_le_bytes());
    }
}

/// A place up to this: in half of the cases in the header, or just behind it.
fn place(random: &mut Random, last: usize) -> usize {
    match random.below(2) {
        0 => between(random, 0, last.min(22)),
        _ => between(random, 0, last),
    }
}

fn last(bytes: &[u8]) -> usize {
    bytes.len().saturating_sub(1)
}

fn some_bytes(random: &mut Random, count: usize) -> Vec<u8> {
    (0..count).map(|_| random.word() as u8).collect()
}

fn changed(random: &mut Random, mut bytes: Vec<u8>) -> Vec<u8> {
    let place = place(random, last(&bytes));
    if let Some(byte) = bytes.get_mut(place) {
        *byte ^= 1 + random.below(255) as u8;
    }
    bytes
}

fn dropped(random: &mut Random, mut bytes: Vec<u8>) -> Vec<u8> {
    let from = place(random, last(&bytes));
    let to = (from + between(random, 1, 8)).min(bytes.len());
    bytes.drain(from..to);
    bytes
}

fn inserted(random: &mut Random, mut bytes: Vec<u8>) -> Vec<u8> {
    let (count, place) = (between(random, 1, 8), place(random, bytes.len()));
    bytes.splice(place..place, some_bytes(random, count));
    bytes
}

fn cut(random: &mut Random, mut bytes: Vec<u8>) -> Vec<u8> {
    let length = match random.below(4) {
        0 => last(&bytes),
        _ => place(random, last(&bytes)),
    };
    bytes.truncate(length);
    bytes
}

/// By a few bytes, by a number, by more than the largest record has, or by more than a pipe holds.
fn lengthened(random: &mut Random, mut bytes: Vec<u8>) -> Vec<u8> {
    let more = match random.below(16) {
        0 => between(random, 65_536, 140_000),
        1 => between(random, 8192, 10_000),
        2..=5 => 8,
        _ => between(random, 1, 40),
    };
    bytes.extend(some_bytes(random, more));
    bytes
}

fn pick<T: Copy>(random: &mut Random, list: &[T]) -> T {
    list[random.below(list.len() as u64) as usize]
}

/// One field of the header says something at the edge of what is right, or far from it.
fn field(random: &mut Random, bytes: Vec<u8>) -> Vec<u8> {
    let Some(mut record) = Record::read(&bytes) else {
        return bytes;
    };
    let (length, order) = (record.length, record.order);
    match random.below(5) {
        0 => {
            let near = [1, 4, 8, 16].map(|by| [length.wrapping_add(by), length.wrapping_sub(by)]);
            let far = [0, 16, 20, 24, length | 1 << 16, length | 1 << 24, u32::MAX];
            let all: Vec<u32> = near.into_iter().flatten().chain(far).collect();
            record.length = pick(random, &all);
        }
        1 => record.kind = pick(random, &[0, 2, 3, 4, 0x0100, 0x0101, 1 << 15, u16::MAX]),
        2 => {
            let near = [order.wrapping_sub(1), order.wrapping_add(1), order | 0x0100];
            let all = [&near[..], &[0, 1, 32, 33, 64, 65, 256, u16::MAX]].concat();
            record.order = pick(random, &all);
        }
        3 => {
            let all = [0, 1, 2, 999_999, 1_000_000, 1_000_001, 1 << 24, u32::MAX];
            record.budget = pick(random, &all);
        }
        _ => {
            let least = f64::from_bits(1);
            let near = [0.0, -0.0, least, -least, 1.0 - f64::EPSILON / 2.0, 1.0];
            let far = [
                f64::NAN,
                -f64::NAN,
                f64::INFINITY,
                -f64::INFINITY,
                -0.5,
                2.0,
            ];
            record.tolerance = pick(random, &[near, far].concat()).to_bits();
        }
    }
    record.bytes()
}

/// One to three entries become NaN, with any payload, or infinite.
fn entry(random: &mut Random, bytes: Vec<u8>) -> Vec<u8> {
    let Some(mut record) = Record::read(&bytes) else {
        return bytes;
    };
    let count = record.rest.len() / 8;
    for _ in 0..between(random, 1, 3).min(count) {
        let from = 8 * between(random, 0, count - 1);
        record.rest[from..from + 8].copy_from_slice(&not_finite(random).to_le_bytes());
    }
    record.bytes()
}

/// Another order with the length field that goes with it, and in half of the cases with as many bytes.
fn order(random: &mut Random, bytes: Vec<u8>) -> Vec<u8> {
    let Some(mut record) = Record::read(&bytes) else {
        return bytes;
    };
    let small = between(random, 1, 8) as u16;
    record.order = pick(random, &[0, 33, 34, 64, 65, 0x0100, 1 << 15, small, small]);
    record.length = right_length(record.order) as u32;
    if random.below(2) == 0 && record.order <= 65 {
        record.rest.resize(record.length as usize - 16, 0);
    }
    record.bytes()
}

fn two(random: &mut Random, mut bytes: Vec<u8>) -> Vec<u8> {
    for _ in 0..2 {
        let damage = &DAMAGES[between(random, SINGLE[0], SINGLE[1])];
        bytes = (damage.inflict)(random, bytes);
    }
    bytes
}

/// All but the header.
fn random_entries(random: &mut Random, bytes: Vec<u8>) -> Vec<u8> {
    let Some(mut record) = Record::read(&bytes) else {
        return bytes;
    };
    record.rest = some_bytes(random, record.rest.len());
    record.bytes()
}

fn random_bytes(random: &mut Random, _: Vec<u8>) -> Vec<u8> {
    let most = pick(random, &[24, 60, 200, 9000]);
    let count = between(random, 0, most);
    some_bytes(random, count)
}

#[cfg(test)]
mod tests {
    use super::*;
    use crate::compare::kept_witnesses;
    use crate::records::met::Met;

    /// So many records of each damage.
    fn each(count: usize, mut test: impl FnMut(&Damage, &mut Judge, &[u8])) {
        let witnesses = kept_witnesses();
        let mut random = Random::stream(1, 0);
        let mut judge = Judge::default();
        for damage in DAMAGES {
            for _ in 0..count {
                let input = draw(damage, &witnesses, &mut judge, &mut random);
                test(damage, &mut judge, &input);
            }
        }
    }

    #[test]
    fn every_answer_is_met() {
        let mut met = Met::default();
        each(300, |_, judge, input| {
            met.count(printed::on(judge, input).outcome)
        });
        assert_eq!(met.missing(), []);
    }

    #[test]
    fn damages_are_what_they_say() {
        let mut right = [0; DAMAGES.len()];
        each(400, |damage, _, input| {
            let place = DAMAGES.iter().position(|one| one.name == damage.name);
            right[place.unwrap()] += printed::right(input).is_ok() as usize;
        });
        for (damage, right) in DAMAGES.iter().zip(right) {
            let some = match damage.name {
                "none" | "an entry not finite" | "random entries" => 400..=400,
                "bytes dropped" | "bytes inserted" | "cut" | "lengthened" | "random bytes" => 0..=0,
                _ => 20..=380,
            };
            assert!(some.contains(&right), "{}: {right} are right", damage.name);
        }
    }

    #[test]
    fn long_runs_are_shortened() {
        // Passes stand still on this cycle.
        let order = 6;
        let one = |place: usize| f64::from((place % order == (place / order + 1) % order) as u8);
        let cycle: Vec<f64> = (0..order * order).map(one).collect();
        let shortened = |budget: u32, entries: &[f64]| {
            let mut bytes = Record::new(order, budget, f64::EPSILON, entries).bytes();
            shorten(&mut bytes, &mut Judge::default());
            Record::read(&bytes).unwrap().budget
        };
        assert_eq!(shortened(1_000_000, &cycle), LONGEST);
        assert_eq!(shortened(999, &cycle), 999);
        assert_eq!(shortened(1_000_001, &cycle), 1_000_001);
        assert_eq!(shortened(1_000_000, &[1.0; 36]), 1_000_000);
    }
}
