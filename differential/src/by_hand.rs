//! The import and the export by hand in C (`by_hand/`), which ours are measured beside: held against our library, number, length and every
//! byte of the buffer, over generated sheets. They have little-endian metadata, and export is the one that is not strict.

use std::io::Write;

use crate::answer::{Answer, Outcome};
use crate::call::{Call, Request};
use crate::compare::{lent, smallest};
use crate::failure::Failure;
use crate::generator::{hex, join_lines, limits, Generator, Kind, Line, Random, Sheet};
use crate::juzontefa::{self, ToSheet};
use crate::library;
use crate::refusal::NUMBERS;

extern "C" {
    fn by_hand_import(sheet: *const u8, len: usize, out: *mut u8, room: usize) -> juzontefa::Answer;
    fn by_hand_export(sheet: *const u8, len: usize, out: *mut u8, room: usize) -> juzontefa::Answer;
}

/// The call by hand, if there is one.
fn function(call: Call) -> Option<ToSheet> {
    match call {
        Call::Import => Some(by_hand_import),
        Call::Export => Some(by_hand_export),
        _ => None,
    }
}

pub fn has(call: Call) -> bool {
    function(call).is_some()
}

/// The number and the length. For calls that `has` says yes to.
pub fn ask(call: Call, sheet: &[u8], out: &mut [u8]) -> (u64, u64) {
    match function(call) {
        Some(function) => library::ask_to_sheet(function, sheet, out),
        None => unreachable!("no {} by hand", call.name()),
    }
}

/// How often import and export gave each number.
#[derive(Default)]
struct Counts([[u64; NUMBERS]; 2]);

/// Compares on `sheets` sheets, as `compare` makes them, and on a dense one after each fourth; the first difference ends it, told with its smallest input.
pub fn by_hand(sheets: u64, seed: u64, out: &mut dyn Write) -> Result<(), Failure> {
    if ![Call::Import, Call::Export].into_iter().all(|call| library::has(Request::new(call, 0))) {
        return Err(Failure::Wrong("no library with import and export is linked".to_string()));
    }
    let mut counts = Counts::default();
    let mut generator = Generator::new(seed);
    for done in 0..sheets {
        let sheet = generator.sheet();
        let mut compared = compare_sheet(&mut counts, &mut generator.random, &sheet);
        if generator.random.chance(1, 4) {
            let dense = dense(&mut generator.random);
            compared = compared.and_then(|()| compare_sheet(&mut counts, &mut generator.random, &dense));
        }
        compared.map_err(|difference| Failure::Found(format!("sheet {done}: {difference}")))?;
    }
    for sheet in limits::long_answers() {
        compare_sheet(&mut counts, &mut generator.random, &sheet).map_err(Failure::Found)?;
    }
    let [imports, exports] = counts.0.map(|numbers| row(&numbers));
    writeln!(out, "{sheets} sheets from seed {seed}, no difference; numbers of import {imports}; of export {exports}")?;
    Ok(())
}

fn row(numbers: &[u64; NUMBERS]) -> String {
    let numbers = numbers.iter().enumerate().filter(|(_, count)| **count > 0);
    numbers.map(|(number, count)| format!("{number}: {count}")).collect::<Vec<_>>().join(", ")
}

const IDS: [&str; 8] = ["0", "7", "42", "128", "-1", "999999999", "1000000000", "2147483647"];
const ODD_IDS: [&str; 8] = ["", "01", "-0", "2147483648", "-2147483648", "-2147483649", "9999999999", "00"];
const NAMES: [&str; 8] = ["61", "6b6579", "78787830", "7e7e7e7e7e7e7e7e", "6e616d656e616d656e616d65", "20", "7f61", "1061"];
const ODD_NAMES: [&str; 9] = ["", "6", "78787", "-", "00", "610a", "c3a9", "61ff", "6e616d656e616d656e616d00"];
/// They ascend.
const KEYS: [&str; 8] = ["", "00", "3131", "61", "6161", "6b6579", "6b65796b65796b6579", "c3a9"];

/// Mostly one of the first.
fn mostly<'a>(random: &mut Random, often: &[&'a str], seldom: &[&'a str]) -> &'a str {
    let texts = if random.chance(1, 20) { seldom } else { often };
    random.pick(texts)
}

/// A sheet of what the calls by hand take many bytes of at once: a union with ids over a run of leaves, in a field sheet with pairs.
/// Here and there is an id, a name or a byte that must not be taken so.
fn dense(random: &mut Random) -> Sheet {
    let kind = random.pick(&[Kind::Schema, Kind::Field]);
    let ids: Vec<&str> = (0..random.between(1, 12)).map(|_| mostly(random, &IDS, &ODD_IDS)).collect();
    let ids = ids.join(",");
    let keys: Vec<&str> = KEYS.into_iter().filter(|_| random.chance(1, 3)).collect();
    let pairs: Vec<String> = keys.into_iter().map(|key| format!("{key}={}", mostly(random, &KEYS, &["ff", "6"]))).collect();
    let pairs = if pairs.is_empty() { "~".to_string() } else { pairs.join(",") };
    let leaves = random.below(10);
    let first = match kind {
        Kind::Schema => format!("{} 73 0 ~ {leaves} 0", String::from_utf8_lossy(&hex(format!("+us:{ids}").as_bytes()))),
        Kind::Field => format!("41 1 0 {ids} ~ 73 0 {pairs} {leaves}"),
    };
    let leaf = |random: &mut Random| {
        let (name, last) = (mostly(random, &NAMES, &ODD_NAMES), random.below(2));
        match kind {
            Kind::Schema => format!("{} {name} {last} ~ 0 0", random.pick(&["67", "6e", "69", "75"])),
            Kind::Field => format!("{} 0 0 ~ ~ {name} {last} ~ 0", random.pick(&["14", "0", "4", "16", "38", "30"])),
        }
    };
    let lines: Vec<String> = std::iter::once(first).chain((0..leaves).map(|_| leaf(random))).collect();
    let lines: Vec<Line> = lines.iter().map(|line| line.split(' ').map(|column| column.as_bytes().to_vec()).collect()).collect();
    let mut bytes = join_lines(kind, &lines);
    if random.chance(1, 2) {
        let at = random.between(47, bytes.len() - 1);
        bytes[at] = random.pick(b" 0~-1a789:@fgA,=\n");
    }
    Sheet { kind, bytes }
}

/// With a buffer that holds the answer and up to 63 bytes more, one that the answer just fits, one that is a byte short, and any shorter one. Of a refusal the
/// sheet's length stands for the answer's.
fn compare_sheet(counts: &mut Counts, random: &mut Random, sheet: &Sheet) -> Result<(), String> {
    let call = match sheet.kind {
        Kind::Schema => Call::Import,
        Kind::Field => Call::Export,
    };
    let answered = library::answer(Request::new(call, 0), &sheet.bytes);
    let length = match &answered {
        Ok(Answer::Sheet(answer)) => answer.len(),
        _ => sheet.bytes.len(),
    };
    for room in [length + random.below(64), length, length.saturating_sub(1), random.below(length + 1)] {
        let [ours, by_hand] = both(call, &sheet.bytes, room);
        if ours != by_hand {
            return Err(difference(call, &sheet.bytes, room));
        }
        counts.0[(call == Call::Export) as usize][ours.number as usize] += 1;
    }
    // What import gives is a field sheet, and goes on to export.
    match (call, answered) {
        (Call::Import, Ok(Answer::Sheet(field))) if random.chance(1, 4) => {
            compare_sheet(counts, random, &Sheet { kind: Kind::Field, bytes: field })
        }
        _ => Ok(()),
    }
}

/// What our library and the call by hand answer.
fn both(call: Call, sheet: &[u8], room: usize) -> [Outcome; 2] {
    let lent = lent(room);
    let ours = library::outcome(Request::new(call, 0), sheet, &lent);
    let by_hand = function(call).map(|function| library::outcome_to_sheet(function, sheet, &lent));
    [ours, by_hand].map(Option::unwrap_or_default)
}

/// Both answers on the smallest input that is found to differ.
fn difference(call: Call, sheet: &[u8], room: usize) -> String {
    let differs = |sheet: &[u8]| {
        let [ours, by_hand] = both(call, sheet, room);
        ours != by_hand
    };
    let sheet = smallest(sheet.to_vec(), differs);
    let [ours, by_hand] = both(call, &sheet, room);
    let (name, input) = (call.name(), sheet.escape_ascii());
    format!("{name} with a buffer of {room} bytes on \"{input}\": the library {ours}, but by hand {by_hand}")
}
