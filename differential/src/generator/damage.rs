//! Damaged copies of sheets: columns, lines and bytes.

use super::random::Random;
use super::{Bytes, Line};

/// What may stand in a column, rightly or wrongly.
const TOKENS: [&str; 62] = [
    "",
    "~",
    "-",
    "0",
    "1",
    "2",
    "3",
    "4",
    "5",
    "9",
    "10",
    "11",
    "15",
    "27",
    "30",
    "31",
    "32",
    "37",
    "40",
    "41",
    "42",
    "43",
    "-0",
    "00",
    "01",
    "+1",
    "+0",
    "-1",
    "-2",
    "-3",
    "--1",
    "1.0",
    "0x1",
    "2147483647",
    "2147483648",
    "-2147483648",
    "-2147483649",
    "9223372036854775807",
    "9223372036854775808",
    "-9223372036854775808",
    "-9223372036854775809",
    "18446744073709551615",
    "18446744073709551616",
    "36893488147419103233",
    "a",
    "6",
    "6A",
    "6a",
    "6g",
    "6a6",
    "ff",
    "c328",
    "6a00",
    "0a",
    "=",
    "61=",
    "=31",
    "61=-",
    "62=,61=",
    "61=,61=31",
    "61=31,62=32",
    "0,-0",
];

/// Lines as they are, with one column, line or count changed.
pub fn damage_lines(random: &mut Random, lines: &mut Vec<Line>) {
    let at = random.below(lines.len());
    match random.below(10) {
        0 => {
            lines.remove(at);
        }
        1 => lines.insert(at, lines[random.below(lines.len())].clone()),
        2 => {
            let other = random.below(lines.len());
            lines.swap(at, other);
        }
        3 => {
            let columns = lines[at].len();
            lines[at].swap(random.below(columns), random.below(columns));
        }
        4 => {
            let column = random.below(lines[at].len());
            lines[at].remove(column);
        }
        5 => {
            let column = random.below(lines[at].len());
            let (from, other) = (random.below(lines.len()), random.below(lines[at].len()));
            let token = lines[from].get(other).cloned().unwrap_or_default();
            lines[at][column] = token;
        }
        _ => {
            let column = random.below(lines[at].len());
            lines[at][column] = random.pick(&TOKENS).as_bytes().to_vec();
        }
    }
}

/// A number written otherwise: a plus, spare zeros, minus zero; or a digit in uppercase, doubled or lost.
pub fn damage_column(random: &mut Random, lines: &mut [Line]) {
    let at = random.below(lines.len());
    let column = random.below(lines[at].len());
    let token = &mut lines[at][column];
    match random.below(7) {
        0 => token.insert(0, b'+'),
        1 => token.insert(0, b'0'),
        2 if token == b"0" => token.insert(0, b'-'),
        2 => token.make_ascii_uppercase(),
        3 => token.extend(b"0"),
        4 => token.push(b' '),
        5 => {
            token.pop();
        }
        _ => {
            let place = random.below(token.len() + 1);
            token.insert(place, random.pick(b"0123456789abcdefAF~-=, "));
        }
    }
}

/// A line that breaks one rule of its kind by one.
pub fn break_rule(random: &mut Random, lines: &mut Vec<Line>) {
    let at = random.below(lines.len());
    if lines[at].len() == 6 {
        let (column, token) =
            random.pick(&[(5, "2"), (5, "1"), (4, "1"), (2, "-0"), (0, "~"), (0, "-"), (3, "-"), (1, "~")]);
        lines[at][column] = token.as_bytes().to_vec();
        return;
    }
    let kind = String::from_utf8_lossy(&lines[at][0]).parse::<u8>().unwrap_or(0);
    let (column, token) = match (kind, random.below(5)) {
        (15 | 18..=21, 0..=2) => (1, "4"),
        (31 | 41, 0) => (1, "2"),
        (41, 1..=3) => (3, random.pick(&["-0", "0,-0", "-", "~", "0,", "2147483648", "-2147483649", "1,2,3,4,5,6,7"])),
        (32, 0 | 1) => random.pick(&[(1, "10"), (2, "2")]),
        (37, 0..=2) => (3, random.pick(&["~", "-"])),
        (27..=29 | 31, 0..=2) => return double_child(lines, at),
        (40, _) => (0, "42"),
        (_, 4) => return make_bare(&mut lines[at]),
        (_, 3) => (7, random.pick(&["61=-", "=", "-=", "61=31,61=32", "62=,61=", "61", "61=31=32", "61=31,", "~", "-"])),
        _ => (random.between(1, 8), random.pick(&TOKENS)),
    };
    lines[at][column] = token.as_bytes().to_vec();
}

/// A field's line without its own columns, or a bare line with some.
fn make_bare(line: &mut Line) {
    let own = if line[5] == b"~" { ["61", "0", "~"] } else { ["~", "~", "~"] };
    for (column, token) in (5..8).zip(own) {
        line[column] = token.as_bytes().to_vec();
    }
}

/// A list with its child twice, if that is a single line.
fn double_child(lines: &mut Vec<Line>, at: usize) {
    let Some(child) = lines.get(at + 1).filter(|child| child.last().is_some_and(|count| count == b"0")).cloned() else {
        return;
    };
    lines.insert(at + 1, child);
    if let Some(count) = lines[at].last_mut() {
        *count = b"2".to_vec();
    }
}

/// Bytes flipped, lost, put in, cut off or doubled.
pub fn damage_bytes(random: &mut Random, sheet: &mut Bytes) {
    let at = random.below(sheet.len());
    match random.below(9) {
        _ if sheet.is_empty() => sheet.push(random.byte()),
        0 => sheet[at] ^= 1 << random.below(8),
        1 => {
            sheet.remove(at);
        }
        2 => sheet.insert(at, random.byte()),
        3 => sheet.insert(at, random.pick(b" \n0123456789abcdef~-=,")),
        4 => sheet.truncate(at),
        5 => {
            sheet.pop();
        }
        6 => sheet.push(b'\n'),
        7 => sheet[at] = random.byte(),
        _ => {
            let end = (at + random.below(40)).min(sheet.len());
            let part = sheet[at..end].to_vec();
            sheet.extend(part);
        }
    }
}

/// The heading damaged, or all but the heading lost.
pub fn damage_heading(random: &mut Random, sheet: &mut Bytes) {
    let end = sheet.iter().position(|byte| *byte == b'\n').unwrap_or(sheet.len());
    match random.below(6) {
        0 => sheet.clear(),
        1 => sheet.truncate(end),
        2 => sheet.truncate(end + 1),
        3 => sheet.insert(end.min(sheet.len()), b' '),
        4 => {
            sheet.remove(random.below(end));
        }
        _ => sheet.insert(0, b'\n'),
    }
}

/// A field's lines changed in one of the points that plain form levels, or in one that it does not.
pub fn vary(random: &mut Random, lines: &mut [Line]) {
    let at = random.below(lines.len());
    let line = &mut lines[at];
    if line.len() != 9 {
        return;
    }
    let is_union = line[0] == b"41";
    let turn = |column: &mut Bytes| match &column[..] {
        b"~" => *column = b"-".to_vec(),
        b"-" => *column = b"~".to_vec(),
        _ => {}
    };
    match random.below(4) {
        0 if line[0] == b"15" => turn(&mut line[3]),
        1 if is_union && line[3] == b"~" => {
            let fields = String::from_utf8_lossy(&line[8]).parse::<usize>().unwrap_or(0);
            line[3] = (0..fields).map(|id| id.to_string()).collect::<Vec<_>>().join(",").into_bytes();
        }
        2 if line[6] != b"~" => line[6] = if line[6] == b"0" { b"1".to_vec() } else { b"0".to_vec() },
        _ if line[5] != b"~" => turn(&mut line[7]),
        _ => turn(&mut line[3]),
    }
}
