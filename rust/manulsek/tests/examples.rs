//! The examples: what they print, and that nothing they do looks like success when it is none.

mod c;

use c::{built, compilers};
use manulsek::Schur;
use std::env;
use std::fs::File;
use std::io::Write;
use std::path::{Path, PathBuf};
use std::process::{Command, Output, Stdio};
use std::sync::LazyLock;

/// The exit status, what stood on standard output, and what on standard error.
fn told(output: Output) -> (i32, String, String) {
    let text = |bytes| String::from_utf8(bytes).expect("UTF-8");
    let status = output.status.code().expect("an exit status");
    (status, text(output.stdout), text(output.stderr))
}

/// A failure: nothing on standard output, and the reason on standard error.
fn failed(status: i32, who: &str, why: &str) -> (i32, String, String) {
    (status, String::new(), format!("{who}: {why}\n"))
}

/// The example in C by each compiler, made once: the tests run side by side.
static ROOTS: LazyLock<Vec<PathBuf>> = LazyLock::new(|| {
    let source = Path::new("examples/roots.c");
    compilers()
        .into_iter()
        .map(|compiler| built(compiler, source))
        .collect()
});

/// What the example in C has printed is what Rust has, bit for bit.
#[test]
fn roots_of_a_polynomial() {
    // x^4 - 3x^3 + 5x^2 - 7x + 11, which needs some passes.
    let coefficients = [11.0, -7.0, 5.0, -3.0];
    let mut matrix = [0.0; 16];
    for row in 0..4 {
        matrix[row + 12] = -coefficients[row];
        if row > 0 {
            matrix[row + (row - 1) * 4] = 1.0;
        }
    }
    let schur = Schur::try_new(4, &matrix, f64::EPSILON, 1000).unwrap();
    assert!(schur.passes() > 0);
    let mut right = format!("passes {}\n", schur.passes());
    for (re, im) in schur.complex_eigenvalues().unwrap() {
        right += &format!("{:016x} {:016x}\n", re.to_bits(), im.to_bits());
    }
    for program in ROOTS.iter() {
        let words = coefficients.map(|x| x.to_string());
        let (status, said, why) = told(Command::new(program).args(words).output().unwrap());
        // Behind two blanks a line has the numbers in decimal.
        let lines = said.lines().map(|line| line.split("  ").next().unwrap());
        let patterns: String = lines.map(|line| format!("{line}\n")).collect();
        assert_eq!((status, patterns, why), (0, right.clone(), String::new()));
    }
}

/// No word becomes another number than it says, and no refusal looks like an answer.
#[test]
fn roots_of_what_is_no_polynomial() {
    let long = "9".repeat(60) + "x";
    let cut = format!("word 1, \"{}..\", is no number", "9".repeat(40));
    let small = "is not 0, but too small for a double";
    let calls: [(&[&str], i32, &str); 16] = [
        (&["abc", "1"], 1, "word 1, \"abc\", is no number"),
        (&["1", ""], 1, "word 2, \"\", is no number"),
        (&["1", "2,5", "x"], 1, "word 2, \"2,5\", is no number"),
        (&["1 "], 1, "word 1, \"1 \", is no number"),
        (&[" 1"], 1, "word 1, \" 1\", is no number"),
        (&["\u{1b}[31m"], 1, "word 1, \"?[31m\", is no number"),
        (&[&long], 1, &cut),
        (&["1", "1e-999"], 1, &format!("word 2, \"1e-999\", {small}")),
        (&["-2e-324"], 1, &format!("word 1, \"-2e-324\", {small}")),
        (
            &["1e999"],
            1,
            "word 1, \"1e999\", is too large for a double",
        ),
        (
            &["-1e999"],
            1,
            "word 1, \"-1e999\", is too large for a double",
        ),
        (&["1"; 65], 2, "at most 64 numbers"),
        // The last column has the numbers; a NaN with its sign turned is one still.
        (
            &["nan", "1"],
            3,
            "decomposition refused with 6, row 0, column 1",
        ),
        (
            &["1", "-inf"],
            3,
            "decomposition refused with 6, row 1, column 1",
        ),
        // Squares overflow.
        (
            &["-1e308", "1e308"],
            3,
            "decomposition refused with 8, row 0, column 0",
        ),
        // (x - 0.5)^2 (x + 4)^2: rounding has made a pair real.
        (
            &["4", "-14", "8.25", "7"],
            3,
            "eigenvalues refused with 11, row 0, column 0",
        ),
    ];
    for program in ROOTS.iter() {
        for (words, status, why) in &calls {
            let output = Command::new(program).args(*words).output().unwrap();
            assert_eq!(told(output), failed(*status, "roots", why), "{words:?}");
        }
        // A number of few digits is one, and so is 0, however it is written.
        for words in [["3e-324", "1"], ["0e-999", "-0"]] {
            let (status, said, why) = told(Command::new(program).args(words).output().unwrap());
            assert_eq!((status, why.as_str()), (0, ""), "{words:?}");
            assert_eq!(said.lines().count(), 3, "{said}");
        }
    }
}

/// `cargo test` builds the examples; they stand beside the folder of the tests. `cargo test --test examples`
/// does not, and an old one is none.
fn spectrum() -> Command {
    let tests = env::current_exe().unwrap();
    let program = tests
        .parent()
        .unwrap()
        .with_file_name("examples")
        .join("spectrum");
    let written = |path: &Path| path.metadata().and_then(|data| data.modified()).ok();
    let source = written(Path::new("examples/spectrum.rs"));
    assert!(
        source.is_some() && written(&program) >= source,
        "run `cargo test` without `--test`"
    );
    Command::new(program)
}

fn spectrum_to(out: Stdio, input: &[u8]) -> (i32, String, String) {
    let mut command = spectrum();
    let pipes = command
        .stdin(Stdio::piped())
        .stdout(out)
        .stderr(Stdio::piped());
    let mut child = pipes.spawn().unwrap();
    child.stdin.take().unwrap().write_all(input).unwrap();
    told(child.wait_with_output().unwrap())
}

fn spectrum_of(input: &[u8]) -> (i32, String, String) {
    spectrum_to(Stdio::piped(), input)
}

#[test]
fn spectrum_of_a_matrix() {
    let right = "passes 0\n0 +1i\n0 -1i\n2 +0i\n".to_string();
    assert_eq!(
        spectrum_of(b"0 -1 5\n1 0 6\n0 0 2\n"),
        (0, right, String::new())
    );
    // Rows, not columns: (2 1), (0 3) are a T, with these on its diagonal.
    let right = "passes 0\n2 +0i\n3 +0i\n".to_string();
    assert_eq!(spectrum_of(b"2 1\n0e-999 3\n"), (0, right, String::new()));
}

#[test]
fn spectrum_of_what_is_no_matrix() {
    let long = "9".repeat(60) + "x";
    let cut = format!("line 1, word 1, \"{}\".., is no number", "9".repeat(40));
    let small = "is not 0, but too small for an f64";
    let entry = |place| format!("refused with 6: the entry at {place} is NaN or infinite");
    let counted = |line, found| {
        format!("numbers on line {line}: {found}; there have to be as many as lines, 2")
    };
    let calls: [(&[u8], i32, &str); 14] = [
        (b"1 abc\n0 1\n", 1, "line 1, word 2, \"abc\", is no number"),
        (b"1 2\n\x1b[31m 1\n", 1, "line 2, word 1, \"\\u{1b}[31m\", is no number"),
        (long.as_bytes(), 1, &cut),
        (b"1 2\n3 1e-999", 1, &format!("line 2, word 2, \"1e-999\", {small}")),
        (b"-2e-324\n", 1, &format!("line 1, word 1, \"-2e-324\", {small}")),
        (b"1E999\n", 1, "line 1, word 1, \"1E999\", is too large for an f64"),
        (b"-1e999\n", 1, "line 1, word 1, \"-1e999\", is too large for an f64"),
        (b"1 2\n3\n", 1, &counted(2, 1)),
        (b"1\n\n", 1, &counted(1, 1)),
        (b"\xff\n", 1, "stream did not contain valid UTF-8"),
        (b"", 3, "refused with 1: the order is 0"),
        (b"1 nan\n0 1\n", 3, &entry("row 0, column 1")),
        (b"1 0\n-inf 1\n", 3, &entry("row 1, column 0")),
        (
            b"5e299 -1e300 0\n1e300 -5e299 0\n0 0 0\n",
            3,
            "refused with 11: the block at row 0, column 0 has no complex pair: its discriminant is above 0 or NaN",
        ),
    ];
    for (input, status, why) in calls {
        let input_text = String::from_utf8_lossy(input);
        assert_eq!(
            spectrum_of(input),
            failed(status, "spectrum", why),
            "{input_text}"
        );
    }
    let output = spectrum()
        .arg("matrix.txt")
        .stdin(Stdio::null())
        .output()
        .unwrap();
    let why = "the matrix comes by standard input, and no argument is taken";
    assert_eq!(told(output), failed(2, "spectrum", why));
}

/// Where the answer cannot be written it is not accepted as written.
#[test]
fn a_full_disk() {
    let full = || Stdio::from(File::options().write(true).open("/dev/full").unwrap());
    for program in ROOTS.iter() {
        let (status, _, why) = told(Command::new(program).stdout(full()).output().unwrap());
        assert_eq!(
            (status, why.as_str()),
            (4, "roots: No space left on device\n")
        );
    }
    let (status, _, why) = spectrum_to(full(), b"1\n");
    let right = "spectrum: No space left on device (os error 28)\n";
    assert_eq!((status, why.as_str()), (4, right));
}
