//! The comparison of another program's replies with the expected ones, case by case.

use crate::case::Case;
use crate::reply::reply;
use crate::words::in_words;

/// The most bytes of a reply that a difference shows.
const MOST_SHOWN: usize = 1_200;

/// Compares; gives the line for no difference, or the description of the first difference.
pub fn check(cases: &[Case], replies: &[u8]) -> Result<String, String> {
    let mut rest = replies;
    for (index, case) in cases.iter().enumerate() {
        let expected = reply(case);
        match rest.strip_prefix(expected.as_bytes()) {
            Some(after) => rest = after,
            None => return Err(difference(index, case, &expected, rest)),
        }
    }
    if !rest.is_empty() {
        let (count, shown) = (rest.len(), shown(rest, 1));
        return Err(format!("bytes after the last reply: {count}, first:\n{shown}\n"));
    }
    Ok(format!("{} cases, no difference ({})\n", cases.len(), counts(cases)))
}

/// How many cases there are of each op.
fn counts(cases: &[Case]) -> String {
    let mut words = Vec::new();
    for op in 1..=11 {
        let count = cases.iter().filter(|case| case.op() == op).count();
        words.push(format!("op {op}: {count}"));
    }
    let other = cases.iter().filter(|case| !(1..=11).contains(&case.op())).count();
    words.push(format!("other: {other}"));
    words.join(", ")
}

/// The case's number, the case in words, the expected reply and what was found in its place.
fn difference(index: usize, case: &Case, expected: &str, rest: &[u8]) -> String {
    let lines = expected.lines().count();
    let (number, byte) = (index + 1, index * case.bytes.len());
    let place = format!("case {number} (counted from 1; byte {byte} of the cases)");
    let (words, found) = (in_words(case), shown(rest, lines));
    let expected = shown(expected.as_bytes(), lines);
    format!("difference at {place}\n{words}expected:\n{expected}\nfound:\n{found}\n")
}

/// The first lines of a text, cut at a sensible length, with the end of the text marked.
fn shown(text: &[u8], lines: usize) -> String {
    let feeds = text.iter().enumerate().filter(|(_, byte)| **byte == b'\n');
    let end = match feeds.map(|(place, _)| place + 1).nth(lines - 1) {
        Some(place) => place,
        None => text.len(),
    };
    let cut = end.min(MOST_SHOWN);
    let words = String::from_utf8_lossy(&text[..cut]).into_owned();
    if cut < end {
        words + " .. (cut here)"
    } else {
        match words.strip_suffix('\n') {
            Some(whole) => whole.to_string(),
            None => words + "(ends without a line feed)",
        }
    }
}

#[cfg(test)]
mod tests {
    use super::*;

    /// Right, wrong, missing and extra bytes.
    #[test]
    fn differences() {
        let cases = [Case::of_stream(1, &[]), Case::new(99, 0, 0)];
        assert!(check(&cases, b"refusal 1 at 0\nop?\n").is_ok());
        for wrong in ["", "refusal 1 at 0\n", "refusal 1 at 0\nop?", "refusal 1 at 0\nop?\n\n"] {
            assert!(check(&cases, wrong.as_bytes()).is_err());
        }
        let told = check(&cases, b"refusal 1 at 1\nop?\n").expect_err("a difference");
        assert!(told.contains("case 1 "));
        assert!(told.contains("expected:\nrefusal 1 at 0\nfound:\nrefusal 1 at 1\n"));
    }
}
