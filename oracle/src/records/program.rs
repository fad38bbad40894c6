//! The program itself: run on an input that comes by a pipe.

use crate::numbers::between;
use crate::random::Random;
use std::io::{ErrorKind, Read, Write};
use std::path::Path;
use std::process::{Child, ChildStdin, Command, Stdio};
use std::sync::mpsc;
use std::thread;
use std::time::Duration;

/// One in so many inputs comes in pieces.
const IN_PIECES: u64 = 16;

const PAUSE: Duration = Duration::from_micros(500);

/// No input of ours takes so long.
const LIMIT: Duration = Duration::from_secs(60);

/// The input whole, or in pieces, cut at random places and more often in the header.
pub fn pieces<'a>(random: &mut Random, input: &'a [u8]) -> Vec<&'a [u8]> {
    if random.below(IN_PIECES) > 0 {
        return vec![input];
    }
    let mut places: Vec<usize> = (0..between(random, 1, 6))
        .map(|_| match random.below(2) {
            0 => between(random, 0, input.len().min(22)),
            _ => between(random, 0, input.len()),
        })
        .collect();
    places.sort();
    let mut pieces = Vec::new();
    let mut from = 0;
    for to in places.into_iter().chain([input.len()]) {
        pieces.push(&input[from..to]);
        from = to;
    }
    pieces
}

/// What is wrong with the program's answer to an input; nothing if it prints exactly this text, and
/// nothing else, and ends with status 0.
pub fn wrong(program: &Path, pieces: &[&[u8]], text: &str) -> Result<Option<String>, String> {
    let mut child = Command::new(program)
        .stdin(Stdio::piped())
        .stdout(Stdio::piped())
        .stderr(Stdio::piped())
        .spawn()
        .map_err(|why| format!("{}: {why}", program.display()))?;
    let stdin = child.stdin.take().expect("piped");
    let (delivered, printed) = thread::scope(|scope| {
        let delivery = scope.spawn(|| deliver(stdin, pieces));
        let printed = gather(&mut child);
        (delivery.join().expect("no panic"), printed)
    });
    let status = child.wait().map_err(|why| why.to_string())?;
    let Some([out, err]) = printed else {
        return Ok(Some(format!("no end after {} seconds", LIMIT.as_secs())));
    };
    Ok(match () {
        () if out != text.as_bytes() => Some(difference(&out, text)),
        () if !err.is_empty() => Some(format!(
            "on standard error: {}",
            String::from_utf8_lossy(&err)
        )),
        () if !status.success() => Some(format!("ended with {status}")),
        () => delivered.err(),
    })
}

/// A program that has seen enough need not read the rest.
fn deliver(mut stdin: ChildStdin, pieces: &[&[u8]]) -> Result<(), String> {
    for (number, piece) in pieces.iter().enumerate() {
        if number > 0 {
            thread::sleep(PAUSE);
        }
        match stdin.write_all(piece) {
            Err(why) if why.kind() == ErrorKind::BrokenPipe => return Ok(()),
            other => other.map_err(|why| format!("standard input: {why}"))?,
        }
    }
    Ok(())
}

/// Standard output and standard error up to their ends; none of a program that does not end, which is
/// ended here.
fn gather(child: &mut Child) -> Option<[Vec<u8>; 2]> {
    let mut out = child.stdout.take().expect("piped");
    let mut err = child.stderr.take().expect("piped");
    let (send, receive) = mpsc::channel();
    thread::spawn(move || {
        let mut both = [Vec::new(), Vec::new()];
        let read = out
            .read_to_end(&mut both[0])
            .and(err.read_to_end(&mut both[1]));
        // Nobody may be waiting any more.
        let _ = send.send(read.map(|_| both));
    });
    match receive.recv_timeout(LIMIT) {
        Ok(both) => Some(both.expect("a pipe can be read")),
        Err(_) => {
            child.kill().ok()?;
            None
        }
    }
}

/// The first line that is another, its end included.
pub fn difference(out: &[u8], text: &str) -> String {
    let out = String::from_utf8_lossy(out);
    let mut lines = out.split_inclusive('\n');
    let mut right = text.split_inclusive('\n');
    let told = |line: Option<&str>| line.map_or("nothing".to_string(), |line| format!("{line:?}"));
    for place in 1.. {
        let (line, right) = (lines.next(), right.next());
        if line != right || line.is_none() {
            let (line, right) = (told(line), told(right));
            return format!("line {place}: {line} where {right} belongs");
        }
    }
    unreachable!("one of them ends")
}

#[cfg(test)]
mod tests {
    use super::*;

    fn wrong_of(program: &str, pieces: &[&[u8]], text: &str) -> Option<String> {
        wrong(Path::new(program), pieces, text).unwrap()
    }

    #[test]
    fn pieces_are_the_input() {
        let mut random = Random::stream(1, 0);
        let input: Vec<u8> = (0..100).collect();
        let (mut whole, mut most) = (0, 0);
        for _ in 0..1000 {
            let pieces = pieces(&mut random, &input);
            assert_eq!(pieces.concat(), input);
            whole += (pieces.len() == 1) as usize;
            most = most.max(pieces.len());
        }
        assert!((850..990).contains(&whole) && most == 7, "{whole} {most}");
    }

    /// `cat` prints what it is given, `true` reads nothing, `false` ends with 1.
    #[test]
    fn answers_are_compared() {
        let pieces: [&[u8]; 3] = [b"refused 1", b"", b"2 0 0\n"];
        assert_eq!(wrong_of("/bin/cat", &pieces, "refused 12 0 0\n"), None);
        assert_eq!(
            wrong_of("/bin/cat", &pieces, "refused 14 0 0\n").unwrap(),
            r#"line 1: "refused 12 0 0\n" where "refused 14 0 0\n" belongs"#
        );
        let long = "order 1 passes 0\n".repeat(20_000);
        assert_eq!(wrong_of("/bin/cat", &[long.as_bytes()], &long), None);
        assert_eq!(
            wrong_of("/bin/cat", &[long.as_bytes()], &long[..17]).unwrap(),
            r#"line 2: "order 1 passes 0\n" where nothing belongs"#
        );
        assert_eq!(
            wrong_of("/bin/cat", &pieces[..2], "refused 1\n").unwrap(),
            r#"line 1: "refused 1" where "refused 1\n" belongs"#
        );
        assert_eq!(wrong_of("/bin/true", &[long.as_bytes()], ""), None);
        let ended = wrong_of("/bin/false", &[b""], "").unwrap();
        assert!(ended.starts_with("ended with"), "{ended}");
        // `cp` complains.
        let said = wrong_of("/bin/cp", &[b""], "").unwrap();
        assert!(said.starts_with("on standard error: "), "{said}");
        assert!(wrong(Path::new("/no/such"), &[b""], "").is_err());
    }
}
