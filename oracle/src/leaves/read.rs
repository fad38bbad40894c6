//! A line of calls: a name, then whole numbers, each behind one space.

/// The program's room for the text, which it must not fill.
pub const ROOM: usize = 65_536;

/// The name ends at the first space that a digit follows.
pub fn call(line: &str) -> Option<(&str, Vec<usize>)> {
    let digit = |text: &str| text.starts_with(|c: char| c.is_ascii_digit());
    let end = line
        .match_indices(' ')
        .map(|(place, _)| place)
        .find(|place| digit(&line[place + 1..]))
        .unwrap_or(line.len());
    let (name, rest) = line.split_at(end);
    let wholes: Option<Vec<usize>> = rest.split(' ').skip(1).map(whole).collect();
    Some((name, wholes?))
}

/// Digits and nothing else.
fn whole(text: &str) -> Option<usize> {
    if text.bytes().all(|b| b.is_ascii_digit()) {
        text.parse().ok()
    } else {
        None
    }
}
