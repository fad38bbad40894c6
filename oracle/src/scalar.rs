//! Command `scalar`: the table that the program `scalar_runs` is held to, made again with the Rust
//! functions that the port answers to.
//!
//! The patterns are those of the table's first column. With `--write` the table is written anew.

use crate::door;
use nalgebra::ComplexField;
use num_traits::Zero;
use std::fs;

/// Seen from this package's folder, where cargo runs the program.
const TABLE: &str = "../crates/scalar_runs/stdout";
const HEAD: &str = "pattern sqrt signum modulus magnitude sign finite zero";

pub fn run(arguments: &[String]) -> Result<usize, String> {
    let write = match arguments {
        [] => false,
        [only] if only == "--write" => true,
        _ => return Err("takes `--write` or nothing".to_string()),
    };
    let stored = fs::read_to_string(TABLE).map_err(|why| format!("{TABLE}: {why}"))?;
    let mut made = vec![HEAD.to_string()];
    for line in stored.lines().skip(1) {
        let pattern = line.split(' ').next().unwrap_or("");
        let bits = u64::from_str_radix(pattern, 16).map_err(|_| format!("no pattern: {line}"))?;
        made.push(row(bits));
    }
    if write {
        fs::write(TABLE, made.join("\n") + "\n").map_err(|why| format!("{TABLE}: {why}"))?;
    }
    let lines: Vec<&str> = stored.lines().collect();
    let mut differences = 0;
    for (line, right) in lines.iter().zip(&made) {
        if line != right {
            differences += 1;
            println!("stored {line}\n right {right}");
        }
    }
    println!("{} patterns, {differences} differences", made.len() - 1);
    Ok(differences)
}

/// One line of the table.
fn row(bits: u64) -> String {
    let x = f64::from_bits(bits);
    let (magnitude, sign) = x.to_exp();
    let columns = [
        x.sqrt(),
        ComplexField::signum(x),
        x.modulus(),
        magnitude,
        sign,
    ];
    let mut text = format!("{bits:016x}");
    for column in columns {
        text += &format!(" {:016x}", door::one_nan(column));
    }
    text + &format!(" {} {}", u8::from(x.is_finite()), u8::from(x.is_zero()))
}
