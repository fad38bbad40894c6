//! Command `replay`: the list of cases that the program `replay` makes again inside the gate, where there is
//! no Rust. The cases are drawn here from a fixed seed, from the families, the witnesses, the T's for the
//! readers and the faults of `compare`; some are written out in `calls.txt`. They are answered by the judge,
//! who has T, Q, counts and eigenvalues from the crate and the rest from document 01. The stored list, `crates/replay/stdin`, and what the program is
//! held to, `crates/replay/stdout`, are compared with these byte for byte; `--write` stores both anew. The
//! library has no part in it.

mod cases;
mod covered;
mod list;
mod written;

use std::fs;

/// Seen from this package's folder, where cargo runs the program.
const LIST: &str = "../crates/replay/stdin";
const LINES: &str = "../crates/replay/stdout";

pub fn run(arguments: &[String]) -> Result<usize, String> {
    let write = match arguments {
        [] => false,
        [only] if only == "--write" => true,
        _ => return Err("takes `--write` or nothing".to_string()),
    };
    let made = cases::all();
    let page = made.list.page();
    print!("{page}");
    made.covered.print(&made.list);
    let missing = made.covered.missing(&made.list);
    if !missing.is_empty() {
        return Err(format!("the list lacks {}", missing.join(", ")));
    }
    if write {
        fs::write(LIST, &made.list.bytes).map_err(|why| format!("{LIST}: {why}"))?;
        fs::write(LINES, &page).map_err(|why| format!("{LINES}: {why}"))?;
    }
    let differences = differs(LIST, &made.list.bytes)? + differs(LINES, page.as_bytes())?;
    println!(
        "{} cases, {} bytes, {differences} of 2 files differ",
        made.list.cases(),
        made.list.bytes.len()
    );
    Ok(differences)
}

/// 1 if a file is not as it should be, and where that begins; 0 if it is.
fn differs(file: &str, right: &[u8]) -> Result<usize, String> {
    let stored = fs::read(file).map_err(|why| format!("{file}: {why}"))?;
    if stored == right {
        return Ok(0);
    }
    let same = stored.iter().zip(right).take_while(|(x, y)| x == y).count();
    println!(
        "{file} has {} bytes, right are {}; it differs from byte {same} on",
        stored.len(),
        right.len()
    );
    Ok(1)
}

#[cfg(test)]
mod tests {
    use super::cases;

    /// The list lacks nothing, has the size that is meant, and is the same every time.
    #[test]
    fn the_list_is_what_it_is_to_be() {
        let [first, second] = [cases::all(), cases::all()];
        assert!(first.covered.missing(&first.list).is_empty());
        assert!((2000..=4000).contains(&first.list.cases()));
        assert!(first.list.bytes.len() < 2_500_000);
        assert!(first.list.bytes == second.list.bytes);
    }
}
