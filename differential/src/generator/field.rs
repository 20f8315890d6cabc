//! Field sheets as lines of columns.

use std::collections::BTreeMap;

use super::random::Random;
use super::schema::Plan;
use super::texts::{bad_text, long_name, short_key, size, text};
use super::{decimal_text, hex, hex_text, Bytes, Line};

/// The columns `kind p q text more`, and the children.
struct Head {
    kind: u8,
    p: u64,
    q: u64,
    text: Bytes,
    more: Bytes,
    children: usize,
}

/// Where a line stands: with a field's own columns, or bare.
#[derive(Clone, Copy, PartialEq)]
enum Place {
    Named,
    Bare,
}

/// The lines of a field.
pub fn field(random: &mut Random, plan: Plan) -> Vec<Line> {
    let mut lines = Vec::new();
    let mut left = plan.lines;
    put_node(random, plan, Place::Named, &mut left, &mut lines);
    lines
}

/// Some lines with a name get a long one.
pub fn lengthen_names(random: &mut Random, lines: &mut [Line]) {
    for line in lines.iter_mut().filter(|line| line[5] != b"~") {
        if random.chance(1, 8) {
            line[5] = hex(&long_name(random));
        }
    }
}

fn put_node(random: &mut Random, plan: Plan, place: Place, left: &mut usize, lines: &mut Vec<Line>) {
    *left = left.saturating_sub(1);
    let head = head(random, plan, *left);
    let mut line = vec![decimal_text(head.kind), decimal_text(head.p), decimal_text(head.q), head.text, head.more];
    match place {
        Place::Bare => line.extend([b"~".to_vec(), b"~".to_vec(), b"~".to_vec()]),
        Place::Named => line.extend([name(random, plan), decimal_text(random.below(2)), pairs(random, plan)]),
    }
    line.push(decimal_text(head.children));
    lines.push(line);
    let below = if matches!(head.kind, 32 | 37) { Place::Bare } else { Place::Named };
    for _ in 0..head.children {
        put_node(random, plan, below, left, lines);
    }
}

fn head(random: &mut Random, plan: Plan, left: usize) -> Head {
    let kind = match (left, random.below(10)) {
        (0, _) | (_, 0..=2) => leaf_kind(random),
        _ => random.pick(&[27, 28, 29, 30, 30, 31, 32, 32, 37, 37, 37, 41, 41]),
    };
    let mut head = Head { kind, p: 0, q: 0, text: b"~".to_vec(), more: b"~".to_vec(), children: 0 };
    match kind {
        15 => {
            head.p = random.below(4) as u64;
            head.text = zone(random, plan);
        }
        18..=21 => head.p = random.below(4) as u64,
        23 => head.p = size(random),
        27..=32 | 37 | 41 => nest(random, plan, left, &mut head),
        33..=36 => (head.p, head.q) = (size(random), size(random)),
        _ => {}
    }
    head
}

fn leaf_kind(random: &mut Random) -> u8 {
    loop {
        let kind = random.below(41) as u8;
        let nests = matches!(kind, 27..=32 | 37);
        // Unknown makes a whole field refused, so it comes seldom.
        if !nests && (kind != 40 || random.chance(1, 4)) {
            return kind;
        }
    }
}

fn nest(random: &mut Random, plan: Plan, left: usize, head: &mut Head) {
    head.children = 1;
    match head.kind {
        28 => head.p = size(random),
        30 => head.children = random.below(5).min(left),
        31 => head.p = random.below(2) as u64,
        32 => (head.p, head.q) = (index(random), random.below(2) as u64),
        37 => {
            head.text = hex_text(Some(&any_text(random, plan)));
            head.more = match random.below(3) {
                0 => b"~".to_vec(),
                _ => hex_text(Some(&any_text(random, plan))),
            };
        }
        41 => {
            head.children = random.below(5).min(left);
            head.p = random.below(2) as u64;
            head.text = ids(random, head.children);
        }
        _ => {}
    }
}

/// A place in `IntegerType`; those of 128 bits do not come back, so they come seldom.
fn index(random: &mut Random) -> u64 {
    let index = random.below(10) as u64;
    if matches!(index, 4 | 9) && !random.chance(1, 4) {
        return 0;
    }
    index
}

fn any_text(random: &mut Random, plan: Plan) -> Bytes {
    if plan.fault > 0 && random.chance(1, plan.fault * 4) {
        return bad_text(random);
    }
    let mut any = text(random);
    if random.chance(1, 24) {
        any.push(0);
    }
    any
}

fn zone(random: &mut Random, plan: Plan) -> Bytes {
    match random.below(4) {
        0 => b"~".to_vec(),
        1 => b"-".to_vec(),
        _ => hex_text(Some(&any_text(random, plan))),
    }
}

fn name(random: &mut Random, plan: Plan) -> Bytes {
    hex_text(Some(&any_text(random, plan)))
}

fn ids(random: &mut Random, children: usize) -> Bytes {
    match random.below(8) {
        0..=2 => return b"~".to_vec(),
        3 if random.chance(1, 3) => return b"-".to_vec(),
        4 => return joined((0..children.max(1)).map(decimal_text)),
        _ => {}
    }
    let count = if random.chance(3, 4) { children.max(1) } else { random.between(1, 4) };
    let ids: Vec<Bytes> = (0..count).map(|_| decimal_text(id(random))).collect();
    joined(ids)
}

fn id(random: &mut Random) -> i32 {
    match random.below(6) {
        0 => i32::MIN,
        1 => i32::MAX,
        2 => -(random.between(1, 300) as i32),
        _ => random.below(200) as i32,
    }
}

fn joined(parts: impl IntoIterator<Item = Bytes>) -> Bytes {
    parts.into_iter().collect::<Vec<_>>().join(&b',')
}

fn pairs(random: &mut Random, plan: Plan) -> Bytes {
    match random.below(8) {
        0..=3 => return b"~".to_vec(),
        4 => return b"-".to_vec(),
        _ => {}
    }
    let mut by_key = BTreeMap::new();
    let many = random.chance(1, 10);
    for _ in 0..if many { random.between(5, 40) } else { random.between(1, 4) } {
        let key = if many { short_key(random) } else { key(random, plan) };
        by_key.insert(key, any_text(random, plan));
    }
    joined(by_key.into_iter().map(|(key, value)| [hex(&key), b"=".to_vec(), hex(&value)].concat()))
}

/// Reserved keys keep a field from coming back, so they come seldom.
fn key(random: &mut Random, plan: Plan) -> Bytes {
    let key = any_text(random, plan);
    if key.starts_with(b"ARROW:extension:") && !random.chance(1, 3) {
        return b"k".to_vec();
    }
    key
}
