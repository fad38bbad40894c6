//! Command `versions`: which crates were built, and that they work.

use crate::crate_side;

/// As cargo settled it for this build.
const LOCK: &str = include_str!("../Cargo.lock");

pub fn run(arguments: &[String]) -> Result<usize, String> {
    if !arguments.is_empty() {
        return Err("takes no arguments".to_string());
    }
    for package in LOCK.split("[[package]]").skip(1) {
        println!("{} {}", field(package, "name"), field(package, "version"));
    }

    // Rows (1 2 3), (4 5 6), (7 8 10).
    let entries = [1.0, 4.0, 7.0, 2.0, 5.0, 8.0, 3.0, 6.0, 10.0];
    let (t, _) =
        crate_side::schur(3, &entries, f64::EPSILON, 100).ok_or("the self test was refused")?;
    let passes =
        crate_side::passes(3, &entries, f64::EPSILON, 100).ok_or("the self test was refused")?;
    let diagonal = [t[0], t[4], t[8]].map(|x| format!("{:016x}", x.to_bits()));
    println!(
        "self test of nalgebra: passes {passes}, diagonal of T {}",
        diagonal.join(" ")
    );
    Ok(0)
}

/// The value of a line `key = "value"`.
fn field<'a>(package: &'a str, key: &str) -> &'a str {
    let line = package
        .lines()
        .find_map(|line| line.strip_prefix(key)?.strip_prefix(" = "));
    line.unwrap_or("?").trim_matches('"')
}
