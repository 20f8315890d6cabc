//! Sheets at the limits: levels, lengths and counts.

use std::collections::BTreeSet;

use super::random::Random;
use super::{block, decimal_text, hex, join_lines, Bytes, Kind, Line, Sheet};
use crate::call::Order;

fn schema_line(format: &str, name: &[u8], flags: &str, children: u64, dictionary: u8) -> Line {
    let name = if name.is_empty() { b"-".to_vec() } else { hex(name) };
    vec![hex(format.as_bytes()), name, flags.into(), b"~".to_vec(), decimal_text(children), decimal_text(dictionary)]
}

fn field_line(head: &str, own: &str, children: u64) -> Line {
    let mut line: Line = head.split(' ').chain(own.split(' ')).map(|column| column.as_bytes().to_vec()).collect();
    line.push(decimal_text(children));
    line
}

/// A tree that goes down so many levels, by one kind of line.
pub fn levels(random: &mut Random, kind: Kind, levels: usize) -> Vec<Line> {
    match kind {
        Kind::Schema => schema_levels(random, levels),
        Kind::Field => field_levels(random, levels),
    }
}

fn schema_levels(random: &mut Random, levels: usize) -> Vec<Line> {
    let way = random.below(4);
    let mut lines = Vec::new();
    for level in 1..levels {
        let dictionary = way == 1 || (way == 2 && random.chance(1, 2));
        lines.push(match dictionary {
            true => schema_line("i", b"", "2", 0, 1),
            // A leaf's subtree is not visited, yet its levels count.
            false if way == 3 && level == 1 => schema_line("l", b"", "0", 1, 0),
            false => schema_line("+l", b"p", "2", 1, 0),
        });
    }
    lines.push(schema_line("g", b"i", "0", 0, 0));
    lines
}

fn field_levels(random: &mut Random, levels: usize) -> Vec<Line> {
    let way = random.below(4);
    let mut lines = Vec::new();
    let mut bare = false;
    // An extension stands on its inner line's level, and a chain of n of them takes n levels.
    let mut inside = false;
    let mut level = 1;
    loop {
        let own = if bare { "~ ~ ~" } else { "70 1 ~" };
        let is_extension = way == 1 || (way > 1 && random.chance(1, 3));
        if is_extension && (!inside || level < levels) {
            level += inside as usize;
            lines.push(field_line("37 0 0 78 ~", own, 1));
            (bare, inside) = (true, true);
        } else if level < levels {
            level += 1;
            let dictionary = way == 3 && random.chance(1, 2);
            lines.push(field_line(if dictionary { "32 2 1 ~ ~" } else { "27 0 0 ~ ~" }, own, 1));
            (bare, inside) = (dictionary, false);
        } else {
            lines.push(field_line("14 0 0 ~ ~", own, 0));
            return lines;
        }
    }
}

/// A sheet of exactly so many bytes, at least some hundreds.
pub fn sized(random: &mut Random, kind: Kind, bytes: usize) -> Bytes {
    let wide = random.chance(1, 2);
    let mut lines = match kind {
        Kind::Schema => wide_schema(if wide { bytes / 24 } else { 1 }),
        Kind::Field => wide_field(if wide { bytes / 24 } else { 1 }),
    };
    let (name, odd) = match kind {
        Kind::Schema => (1, 2),
        Kind::Field => (5, 1),
    };
    // The last line's number takes the odd byte and its name the rest.
    let missing = bytes.saturating_sub(join_lines(kind, &lines).len());
    let last = lines.len() - 1;
    if missing % 2 == 1 {
        lines[last][odd] = b"12".to_vec();
    }
    lines[last][name].extend(b"61".repeat(missing / 2));
    join_lines(kind, &lines)
}

/// A struct of so many leaves; the last line has a name of one byte and a number of one digit.
pub fn wide_schema(fields: usize) -> Vec<Line> {
    let mut lines = vec![schema_line("+s", b"s", "0", fields as u64, 0)];
    lines.extend((0..fields).map(|_| schema_line("g", b"a", "2", 0, 0)));
    lines
}

pub fn wide_field(fields: usize) -> Vec<Line> {
    let mut lines = vec![field_line("30 0 0 ~ ~", "73 0 ~", fields as u64)];
    lines.extend((0..fields).map(|_| field_line("23 4 0 ~ ~", "61 1 ~", 0)));
    lines
}

/// A line with hundreds or thousands of pairs; in a block they are scattered, and some have equal keys.
pub fn many_pairs(random: &mut Random, kind: Kind, pairs: usize, order: Order) -> Vec<Line> {
    let keys = (0..pairs).map(|_| vec![32 + random.below(90) as u8, 32 + random.below(90) as u8]);
    match kind {
        Kind::Schema => {
            let pairs: Vec<(Bytes, Bytes)> = keys.zip((0..64).cycle().map(|digit| vec![b'0' + digit])).collect();
            let mut line = schema_line("g", b"a", "2", 0, 0);
            line[3] = hex(&block(&pairs, order));
            vec![line]
        }
        Kind::Field => {
            let sorted: BTreeSet<Bytes> = keys.collect();
            let pairs: Vec<Bytes> = sorted.iter().map(|key| [hex(key), b"=".to_vec(), hex(&key[..1])].concat()).collect();
            let mut line = field_line("14 0 0 ~ ~", "61 1 ~", 0);
            line[7] = pairs.join(&b',');
            vec![line]
        }
    }
}

/// A union with many ids over few fields.
pub fn many_ids(random: &mut Random, kind: Kind, ids: usize) -> Vec<Line> {
    let ids: Vec<String> = (0..ids).map(|_| (random.next() as i32 >> random.below(32)).to_string()).collect();
    let ids = ids.join(",");
    match kind {
        Kind::Schema => vec![schema_line(&format!("+us:{ids}"), b"u", "0", 1, 0), schema_line("g", b"a", "2", 0, 0)],
        Kind::Field => vec![field_line(&format!("41 0 0 {ids} ~"), "75 0 ~", 1), field_line("14 0 0 ~ ~", "61 1 ~", 0)],
    }
}

/// More children than any sheet has lines, in a few lines.
pub fn huge_counts(random: &mut Random, kind: Kind) -> Vec<Line> {
    let most = random.pick(&[i64::MAX as u64, u64::MAX / 3 + 1, 1 << 62, u32::MAX as u64 + 1, 2]);
    let lines = random.between(1, 4);
    match kind {
        Kind::Schema => (0..lines).map(|_| schema_line("+s", b"", "0", most, random.below(2) as u8)).collect(),
        Kind::Field => (0..lines).map(|_| field_line("30 0 0 ~ ~", "- 0 ~", most)).collect(),
    }
}

/// Three sheets of 65,535 bytes with the longest answers that were found, of import, of export, of plain form and the page; and
/// a field whose export can be handed in, but its plain form cannot.
pub fn long_answers() -> Vec<Sheet> {
    let leaf = |name: &[u8]| schema_line("g", name, "0", 0, 0);
    let mut import = vec![schema_line("+s", b"i", "0", 5_036, 0), leaf(b"i")];
    import.resize(5_037, leaf(b""));

    let extension =
        |pairs: &str| [field_line("37 0 0 - -", &format!("- 0 {pairs}"), 1), field_line("6 0 0 ~ ~", "~ ~ ~", 0)];
    let mut export = vec![field_line("41 0 0 ~ ~", "- 0 ~", 1_769)];
    export.extend(extension("=,00=,01=,02="));
    export.extend((1..1_769).flat_map(|_| extension("=")));

    let mut plain = vec![field_line("41 0 0 ~ ~", &format!("{} 0 ~", "75".repeat(9)), 3_636)];
    plain.resize(3_637, field_line("0 0 0 ~ ~", "- 0 ~", 0));

    let mut again = vec![field_line("41 0 0 ~ ~", "- 0 ~", 1_000)];
    again.resize(1_001, field_line("14 0 0 ~ ~", &format!("{} 0 ~", "61".repeat(22)), 0));

    let sheets = [(Kind::Schema, import), (Kind::Field, export), (Kind::Field, plain), (Kind::Field, again)];
    sheets.into_iter().map(|(kind, lines)| Sheet { kind, bytes: join_lines(kind, &lines) }).collect()
}
