//! The lines that a conversion visits (document 02, #105), found by the Rust itself: a line is visited if a fault on it is seen. Each
//! line of a sheet that is answered is made faulty in turn, for import by a null format, for export by Unknown in place of its subtree.

use crate::answer::Answered;
use crate::call::{Call, Request};
use crate::oracle::Rust;
use crate::refusal::{NO_FORMAT, NULL_FORMAT};

/// Longer sheets are not tried: each line is a call.
const MOST_LINES: usize = 40;

/// How many lines of the sheet, which gets this answer, the Rust visits; none for a sheet of many lines. An error if a fault gets
/// another answer than its number and that one.
pub fn by_faults(rust: &Rust, conversion: Call, sheet: &[u8], answered: &Answered) -> Result<Option<u64>, String> {
    let lines: Vec<&[u8]> = sheet.split_inclusive(|byte| *byte == b'\n').collect();
    if lines.len() > MOST_LINES + 1 {
        return Ok(None);
    }
    let mut visited = 0;
    for place in 1..lines.len() {
        let (faulty, number) = match conversion {
            Call::Import => (with_null_format(&lines, place), NULL_FORMAT),
            _ => (with_unknown(&lines, place), NO_FORMAT),
        };
        match rust.answer(Request::new(conversion, 0), &faulty) {
            Err(other) if other == number => visited += 1,
            other if other == *answered => {}
            _ => {
                return Err(format!(
                    "a fault gets neither {number} nor what there was without it: {}",
                    faulty.escape_ascii()
                ))
            }
        }
    }
    Ok(Some(visited))
}

fn with_null_format(lines: &[&[u8]], place: usize) -> Vec<u8> {
    let columns = lines[place].iter().position(|byte| *byte == b' ').unwrap_or(0);
    [&lines[..place].concat(), &b"~"[..], &lines[place][columns..], &lines[place + 1..].concat()].concat()
}

/// The line keeps its name, nullable and pairs.
fn with_unknown(lines: &[&[u8]], place: usize) -> Vec<u8> {
    let columns: Vec<&[u8]> = lines[place].split(|byte| *byte == b' ').collect();
    let own = columns.get(5..8).unwrap_or_default().join(&b' ');
    let after = place + subtree(&lines[place..]);
    [&lines[..place].concat(), &b"40 0 0 ~ ~ "[..], &own, b" 0\n", &lines[after..].concat()].concat()
}

/// How many lines the first line's subtree has, by the counts of children.
fn subtree(lines: &[&[u8]]) -> usize {
    let children = |line: &[u8]| -> usize {
        let count = line.trim_ascii_end().rsplit(|byte| *byte == b' ').next().unwrap_or_default();
        std::str::from_utf8(count).ok().and_then(|count| count.parse().ok()).unwrap_or(0)
    };
    let (mut at, mut open) = (0, 1);
    while open > 0 && at < lines.len() {
        open = open - 1 + children(lines[at]);
        at += 1;
    }
    at
}
