//! Field sheets rich in what strict export refuses (document 02, #106), in what only looks like it, and in what export itself refuses.

use std::collections::BTreeMap;

use super::random::Random;
use super::schema::Plan;
use super::{decimal_text, field, hex, Bytes, Line};
use crate::call::Order;

const RESERVED: [&[u8]; 2] = [b"ARROW:extension:name", b"ARROW:extension:metadata"];

/// Keys that are not reserved: longer and shorter ones, of other case, of the same length, and one with a reserved key in it.
const NEAR: [&[u8]; 16] = [
    b"ARROW:extension:",
    b"ARROW:extension:n",
    b"ARROW:extension:nam",
    b"ARROW:extension:names",
    b"ARROW:extension:name\0",
    b"ARROW:extension:name ",
    b"ARROW:extension:namf",
    b"BRROW:extension:name",
    b"ARROW;extension:name",
    b"ARROW:extension:Name",
    b"arrow:extension:name",
    b" ARROW:extension:name",
    b"ARROW:extension:metadat",
    b"ARROW:extension:metadata2",
    b"ARROW:extension:METADATA",
    b"arrow:extension:metadata",
];

/// One of so many lines that can have it has a cause, or what is near to one; 0 for none.
struct Rates {
    keys: usize,
    indices: usize,
    near_keys: usize,
    near_indices: usize,
    refused: usize,
}

fn comes(random: &mut Random, one_in: usize) -> bool {
    one_in > 0 && random.chance(1, one_in)
}

/// The lines of a field: any, or with dictionaries and with lines that export never visits.
pub fn lines(random: &mut Random) -> Vec<Line> {
    match random.below(4) {
        0 => tree(random, &[1, 2, 3, 5, 9]),
        1 => unvisited(random),
        2 => dictionary(random),
        _ => group(random),
    }
}

/// A struct whose export is longer than a sheet may be.
pub fn wide(random: &mut Random) -> Vec<Line> {
    let leaves = random.between(2_600, 3_400);
    let mut lines = vec![line("30 0 0 ~ ~", OWN, leaves)];
    lines.resize(leaves + 1, line("6 0 0 ~ ~", OWN, 0));
    lines
}

fn line(head: &str, own: &str, children: usize) -> Line {
    let mut line: Line = head.split(' ').chain(own.split(' ')).map(|column| column.as_bytes().to_vec()).collect();
    line.push(decimal_text(children));
    line
}

/// The columns of a field's own, and of a bare line.
const OWN: &str = "61 1 ~";
const BARE: &str = "~ ~ ~";

fn tree(random: &mut Random, sizes: &[usize]) -> Vec<Line> {
    let plan = Plan { lines: random.pick(sizes), fault: 0, order: Order::Little };
    field::field(random, plan)
}

/// A struct or a union of generated fields.
fn group(random: &mut Random) -> Vec<Line> {
    let fields = random.between(1, 3);
    let mut lines = vec![line(random.pick(&["30 0 0 ~ ~", "41 0 0 ~ ~"]), OWN, fields)];
    for _ in 0..fields {
        match random.below(4) {
            0 => lines.extend(unvisited(random)),
            1 => lines.extend(dictionary(random)),
            _ => lines.extend(tree(random, &[1, 2, 3])),
        }
    }
    lines
}

/// A dictionary with a name, over values with fields below them.
fn dictionary(random: &mut Random) -> Vec<Line> {
    let mut lines = vec![line("32 2 0 ~ ~", OWN, 1)];
    put_values(random, &mut lines);
    lines
}

/// A dictionary directly in one extension or two, over values that export never visits, with fields below them.
fn unvisited(random: &mut Random) -> Vec<Line> {
    let mut lines = vec![line("37 0 0 78 79", OWN, 1)];
    if random.chance(1, 3) {
        lines.push(line("37 0 0 7a ~", BARE, 1));
    }
    lines.push(line("32 2 0 ~ ~", BARE, 1));
    put_values(random, &mut lines);
    lines
}

/// A bare line: a dictionary or an extension among them, then a leaf, a list or a struct.
fn put_values(random: &mut Random, lines: &mut Vec<Line>) {
    match random.below(4) {
        0 => lines.push(line("32 5 1 ~ ~", BARE, 1)),
        1 => lines.push(line("37 0 0 77 ~", BARE, 1)),
        _ => {}
    }
    match random.below(3) {
        0 => lines.push(line("0 0 0 ~ ~", BARE, 0)),
        1 => {
            lines.push(line("27 0 0 ~ ~", BARE, 1));
            lines.extend(tree(random, &[1, 2, 3]));
        }
        _ => {
            let fields = random.between(1, 2);
            lines.push(line("30 0 0 ~ ~", BARE, fields));
            (0..fields).for_each(|_| lines.extend(tree(random, &[1, 2])));
        }
    }
}

/// Puts causes, and what is near to them, into the lines of a field, or into one of them alone, and keeps their form.
pub fn enrich(random: &mut Random, lines: &mut [Line]) {
    let alone = lines.len() > 1_000 || random.chance(1, 3);
    let only = random.below(lines.len());
    let rates = rates(random, alone);
    for (place, line) in lines.iter_mut().enumerate() {
        if line.len() == 9 && (!alone || place == only) {
            put_keys(random, &rates, line);
            put_index(random, &rates, line);
            put_refused(random, &rates, line);
        }
    }
}

fn rates(random: &mut Random, alone: bool) -> Rates {
    match alone {
        true => Rates {
            keys: random.pick(&[0, 1]),
            indices: random.pick(&[0, 1]),
            near_keys: random.pick(&[0, 0, 2]),
            near_indices: 0,
            refused: 0,
        },
        false => Rates {
            keys: random.pick(&[0, 0, 0, 2, 5, 12]),
            indices: random.pick(&[0, 0, 1, 1, 2, 4]),
            near_keys: random.pick(&[0, 2, 5]),
            near_indices: random.pick(&[0, 2]),
            refused: random.pick(&[0, 0, 0, 3, 8]),
        },
    }
}

/// On a line with a name.
fn put_keys(random: &mut Random, rates: &Rates, line: &mut Line) {
    if line[5] == b"~" {
        return;
    }
    if comes(random, rates.keys) {
        let key = random.pick(&RESERVED);
        let value = reserved_value(random, line);
        put_pair(line, hex(key), value);
    }
    if comes(random, rates.near_keys) {
        let (key, value) = match random.below(4) {
            0 => (random.pick(&[&b"m"[..], b"A", b"a"]), hex(random.pick(&RESERVED))),
            _ => (random.pick(&NEAR), hex(random.pick(&[&b""[..], b"x"]))),
        };
        put_pair(line, hex(key), value);
    }
}

/// What an extension would write itself, or another value.
fn reserved_value(random: &mut Random, line: &Line) -> Bytes {
    let is_hex = |column: &Bytes| column != b"~" && column != b"-";
    match random.below(4) {
        0 if line[0] == b"37" && is_hex(&line[3]) => line[3].clone(),
        1 if line[0] == b"37" && is_hex(&line[4]) => line[4].clone(),
        2 => b"78".to_vec(),
        _ => Bytes::new(),
    }
}

/// A pair among those that are there, by its key: equal digits are equal bytes, and stand in their order.
fn put_pair(line: &mut Line, key: Bytes, value: Bytes) {
    let mut pairs: BTreeMap<Bytes, Bytes> = BTreeMap::new();
    for pair in line[7].split(|byte| *byte == b',') {
        if let Some(at) = pair.iter().position(|byte| *byte == b'=') {
            pairs.insert(pair[..at].to_vec(), pair[at + 1..].to_vec());
        }
    }
    pairs.insert(key, value);
    let pairs: Vec<Bytes> = pairs.iter().map(|(key, value)| [&key[..], b"=", value].concat()).collect();
    line[7] = pairs.join(&b',');
}

/// On a dictionary's line; 128 bits as a type are near to it.
fn put_index(random: &mut Random, rates: &Rates, line: &mut Line) {
    if line[0] == b"32" {
        if comes(random, rates.near_indices) {
            line[1] = random.pick(&[b"3", b"8"]).to_vec();
        }
        if comes(random, rates.indices) {
            line[1] = random.pick(&[b"4", b"9"]).to_vec();
        }
    } else if is_simple(line) && comes(random, rates.near_indices) {
        line[0] = random.pick(&[&b"6"[..], b"11"]).to_vec();
    }
}

/// Whether the line can be of any kind without numbers, texts and children.
fn is_simple(line: &Line) -> bool {
    line[8] == b"0" && line[1..5] == [&b"0"[..], b"0", b"~", b"~"]
}

/// What export refuses with 12, 13 or 14, where it visits the line.
fn put_refused(random: &mut Random, rates: &Rates, line: &mut Line) {
    if !comes(random, rates.refused) {
        return;
    }
    match &line[0][..] {
        b"41" => line[3] = b"-".to_vec(),
        _ if is_simple(line) && random.chance(1, 2) => line[0] = b"40".to_vec(),
        _ if line[5] != b"~" => line[5] = b"00".to_vec(),
        _ => {}
    }
}
