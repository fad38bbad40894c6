//! Command `records`: what the program `looproots` must print. `printed` says it of any input, by document 01
//! and by the judge. The inputs of the test program `looproots_runs` are made here, and what it must print;
//! and the program itself is run on damaged records.

mod damage;
mod form;
mod met;
mod printed;
mod program;
mod stored;

use crate::compare::kept_witnesses;
use crate::jobs;
use crate::judge::Judge;
use crate::options;
use crate::random::Random;
use damage::DAMAGES;
use met::Met;
use std::collections::BTreeMap;
use std::fs;
use std::io::ErrorKind;
use std::path::Path;
use std::time::Instant;

/// Seen from this package's folder, where cargo runs the program.
const FOLDER: &str = "../crates/looproots_runs";
const PROGRAM: &str = "../target/bin/looproots";

pub fn run(arguments: &[String]) -> Result<usize, String> {
    match arguments {
        [] => run_stored(FOLDER, false),
        [only] if only == "--write" => run_stored(FOLDER, true),
        _ => {
            let (mut count, mut seed) = (None, options::SEED);
            options::each(arguments, |name, value| {
                match name {
                    "--damaged" => count = Some(options::count(value)?),
                    "--seed" => seed = options::seed(value)?,
                    _ => return Ok(false),
                }
                Ok(true)
            })?;
            let count = count.ok_or("`--seed` is for `--damaged COUNT`")?;
            run_damaged(Path::new(PROGRAM), count, seed)
        }
    }
}

/// The files of the test program by their names in its folder.
type Files = BTreeMap<String, Vec<u8>>;

/// The files, and how the inputs are answered.
fn files() -> (Files, Met) {
    let mut judge = Judge::default();
    let (mut files, mut met) = (BTreeMap::new(), Met::default());
    let (mut names, mut lines) = (String::new(), String::new());
    for stored::Stored { name, input } in stored::all() {
        let printed = printed::on(&mut judge, &input);
        met.count(printed.outcome);
        names += &format!("{name}\n");
        lines += &format!("{name}:\n{}", printed.text);
        files.insert(format!("data/{name}"), input);
    }
    files.insert("args".to_string(), names.into_bytes());
    files.insert("stdout".to_string(), lines.into_bytes());
    (files, met)
}

fn run_stored(folder: &str, write: bool) -> Result<usize, String> {
    let (files, met) = files();
    if write {
        store(folder, &files)?;
    }
    let differences = differences(folder, &files)?;
    differences.iter().for_each(|what| println!("{what}"));
    met.print();
    let missing = not_met(&met);
    println!(
        "{} cases, {} differences",
        files.len() - ["args", "stdout"].len(),
        differences.len()
    );
    Ok(differences.len() + missing)
}

/// Writes what is not as it should be, and removes what is no case.
fn store(folder: &str, files: &Files) -> Result<(), String> {
    let data = format!("{folder}/data");
    fs::create_dir_all(&data).map_err(|why| format!("{data}: {why}"))?;
    for (name, right) in files {
        if held(folder, name)?.as_ref() != Some(right) {
            let path = format!("{folder}/{name}");
            fs::write(&path, right).map_err(|why| format!("{path}: {why}"))?;
        }
    }
    for name in others(folder, files)? {
        let path = format!("{folder}/{name}");
        fs::remove_file(&path).map_err(|why| format!("{path}: {why}"))?;
    }
    Ok(())
}

fn differences(folder: &str, files: &Files) -> Result<Vec<String>, String> {
    let mut differences = Vec::new();
    for (name, right) in files {
        let what = match held(folder, name)? {
            Some(held) if held == *right => continue,
            None => "is not there".to_string(),
            Some(held) => match std::str::from_utf8(right) {
                Ok(text) if !name.starts_with("data/") => program::difference(&held, text),
                _ => "is another".to_string(),
            },
        };
        differences.push(format!("{folder}/{name}: {what}"));
    }
    let others = others(folder, files)?.into_iter();
    differences.extend(others.map(|name| format!("{folder}/{name}: is no case")));
    Ok(differences)
}

/// What a file holds, if it is there.
fn held(folder: &str, name: &str) -> Result<Option<Vec<u8>>, String> {
    let path = format!("{folder}/{name}");
    match fs::read(&path) {
        Ok(bytes) => Ok(Some(bytes)),
        Err(why) if why.kind() == ErrorKind::NotFound => Ok(None),
        Err(why) => Err(format!("{path}: {why}")),
    }
}

/// The inputs that are stored and are no case.
fn others(folder: &str, files: &Files) -> Result<Vec<String>, String> {
    let data = format!("{folder}/data");
    let entries = match fs::read_dir(&data) {
        Err(why) if why.kind() == ErrorKind::NotFound => return Ok(Vec::new()),
        other => other.map_err(|why| format!("{data}: {why}"))?,
    };
    let mut others = Vec::new();
    for entry in entries {
        let name = entry.map_err(|why| format!("{data}: {why}"))?.file_name();
        let name = format!("data/{}", name.to_string_lossy());
        if !files.contains_key(&name) {
            others.push(name);
        }
    }
    Ok(others)
}

/// Says which answers were not met, and how many they are.
fn not_met(met: &Met) -> usize {
    let missing = met.missing();
    for outcome in &missing {
        println!("no input came to {}", outcome.name());
    }
    missing.len()
}

/// The damaged records are cut into so many parts, which threads take one by one. The records of a part
/// depend on its number and the seed, never on the thread.
const PARTS: usize = 64;

#[derive(Default)]
struct Tally {
    /// By damage: records, and mismatches.
    tried: [usize; DAMAGES.len()],
    mismatches: [usize; DAMAGES.len()],
    in_pieces: usize,
    met: Met,
    /// The first mismatch.
    shown: Option<String>,
}

impl Tally {
    fn and(mut self, other: Tally) -> Tally {
        for damage in 0..DAMAGES.len() {
            self.tried[damage] += other.tried[damage];
            self.mismatches[damage] += other.mismatches[damage];
        }
        self.in_pieces += other.in_pieces;
        self.met = self.met.and(&other.met);
        self.shown = self.shown.or(other.shown);
        self
    }
}

fn run_damaged(program: &Path, count: usize, seed: u64) -> Result<usize, String> {
    if !program.is_file() {
        return Err(format!(
            "{} (seen from oracle/) is not there: `tools/build looproots` in the repository's root builds it",
            program.display()
        ));
    }
    let start = Instant::now();
    let tally = of_damaged(program, count, seed)?;
    println!("{:25} {:>9} {:>11}", "damage", "records", "mismatches");
    for (number, damage) in DAMAGES.iter().enumerate() {
        println!(
            "{:25} {:>9} {:>11}",
            damage.name, tally.tried[number], tally.mismatches[number]
        );
    }
    if let Some(shown) = &tally.shown {
        println!("{shown}");
    }
    println!();
    tally.met.print();
    // A short run need not meet all.
    not_met(&tally.met);
    let mismatches = tally.mismatches.iter().sum();
    println!(
        "{} records, {} of them in pieces; {mismatches} mismatches, seed {seed:016x}, {:.1} seconds",
        tally.tried.iter().sum::<usize>(),
        tally.in_pieces,
        start.elapsed().as_secs_f64()
    );
    Ok(mismatches)
}

fn of_damaged(program: &Path, count: usize, seed: u64) -> Result<Tally, String> {
    let parts = jobs::on_all_cores(PARTS, |part| {
        let size = count / PARTS + usize::from(part < count % PARTS);
        of_part(program, size, Random::stream(seed, part as u64))
    });
    parts
        .into_iter()
        .try_fold(Tally::default(), |all, part| Ok(all.and(part?)))
}

fn of_part(program: &Path, count: usize, mut random: Random) -> Result<Tally, String> {
    let witnesses = kept_witnesses();
    let mut judge = Judge::default();
    let mut tally = Tally::default();
    for _ in 0..count {
        let number = random.below(DAMAGES.len() as u64) as usize;
        let input = damage::draw(&DAMAGES[number], &witnesses, &mut judge, &mut random);
        let pieces = program::pieces(&mut random, &input);
        let printed = printed::on(&mut judge, &input);
        tally.tried[number] += 1;
        tally.in_pieces += (pieces.len() > 1) as usize;
        tally.met.count(printed.outcome);
        if let Some(what) = program::wrong(program, &pieces, &printed.text)? {
            tally.mismatches[number] += 1;
            tally.shown.get_or_insert_with(|| shown(&pieces, &what));
        }
    }
    Ok(tally)
}

/// A mismatch, with its record as `xxd -r -p` reads it.
fn shown(pieces: &[&[u8]], what: &str) -> String {
    let digits = |byte: &u8| format!("{byte:02x}");
    let hex: String = pieces.concat().iter().map(digits).collect();
    let lengths: Vec<String> = pieces.iter().map(|piece| piece.len().to_string()).collect();
    format!("    {what}\n    bytes {}: {hex}", lengths.join(" + "))
}

#[cfg(test)]
mod tests {
    use super::*;

    #[test]
    fn every_answer_is_stored() {
        let (files, met) = files();
        assert_eq!(met.missing(), []);
        let text = |name: &str| String::from_utf8(files[name].clone()).unwrap();
        let names = text("args");
        assert_eq!(names.lines().count() + 2, files.len());
        assert!(names.starts_with("sample\ncut_00\n"));
        assert!(text("stdout").starts_with("sample:\norder 2 passes 0\nt 0 0 4000000000000000\n"));
        let heads = text("stdout")
            .lines()
            .filter(|line| line.ends_with(':'))
            .count();
        assert_eq!(heads, names.lines().count());
    }

    #[test]
    fn what_is_stored_is_compared() {
        let folder = std::env::temp_dir().join(format!("oracle_records_{}", std::process::id()));
        let folder = folder.to_str().expect("a plain path");
        let (files, _) = files();
        let differ = || differences(folder, &files).unwrap();
        assert_eq!(differ().len(), files.len());
        store(folder, &files).unwrap();
        assert_eq!(differ(), [""; 0]);
        fs::write(format!("{folder}/data/other"), "x").unwrap();
        fs::write(format!("{folder}/data/cut_03"), "x").unwrap();
        fs::write(format!("{folder}/stdout"), "sample:\norder 2 passes 1\n").unwrap();
        fs::remove_file(format!("{folder}/data/sample")).unwrap();
        let right = [
            "data/cut_03: is another",
            "data/sample: is not there",
            r#"stdout: line 2: "order 2 passes 1\n" where "order 2 passes 0\n" belongs"#,
            "data/other: is no case",
        ];
        assert_eq!(differ(), right.map(|what| format!("{folder}/{what}")));
        store(folder, &files).unwrap();
        assert_eq!(differ(), [""; 0]);
        fs::remove_dir_all(folder).unwrap();
    }

    /// `cat` is no such program: it hands each record back. Two runs from one seed say the same.
    #[test]
    fn a_program_that_prints_other_things_is_noticed() {
        let [first, second] = [0; 2].map(|_| of_damaged(Path::new("/bin/cat"), 200, 7).unwrap());
        assert_eq!(first.tried.iter().sum::<usize>(), 200);
        assert_eq!(first.mismatches, first.tried);
        assert_eq!(first.shown, second.shown);
        assert_eq!(first.tried, second.tried);
        assert!(first.shown.unwrap().contains(" where "));
    }

    #[test]
    fn what_is_wrong_is_named() {
        let said = |words: &[&str]| {
            let words: Vec<String> = words.iter().map(|word| word.to_string()).collect();
            run(&words).unwrap_err()
        };
        assert_eq!(said(&["--seed", "1"]), "`--seed` is for `--damaged COUNT`");
        assert_eq!(said(&["--damaged"]), "`--damaged` needs a value");
        assert_eq!(said(&["--write", "1"]), "no option `--write`");
        let missing = run_damaged(Path::new("../target/bin/no such"), 1, 1).unwrap_err();
        assert!(missing.contains("tools/build looproots"), "{missing}");
    }
}
