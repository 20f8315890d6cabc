//! What stands in the recorded list: cases made by hand, all kinds, the published formats, the limits, the smallest sheets
//! that tell the wrong readings, and generated sheets until each call has given each of its numbers often enough. What came
//! later, the page, negative flags, big-endian metadata, the measures and strict export, has stages of its own at the end, so that
//! what stands before them stays as it is.

mod measure;
mod order;
mod page;
mod strict;

use std::collections::HashSet;

use super::list::Record;
use crate::answer::{Answer, Answered, Outcome};
use crate::call::{Call, Input, Order, Request, CALLS, ORDERS};
use crate::compare::{self, requests, room, smallest, Case};
use crate::demand3::comes_back;
use crate::generator::limits::{huge_counts, levels, sized, wide_schema};
use crate::generator::{hex_text, join_lines, published, Generator, Kind, Line, Random, Sheet};
use crate::model::{Model, Wrong, WRONG_READINGS};
use crate::oracle::Rust;
use crate::refusal::*;

/// How many generated sheets are tried for the quotas, and for the wrong readings.
const TRIED: usize = 60_000;
/// Generated records are short, so that many fit into the list.
const SHORT: usize = 700;

/// A buffer by what it is to the answer.
#[derive(Clone, Copy)]
enum Buffer {
    Ample,
    Exact,
    OneShort,
    Empty,
}

use Buffer::*;

pub struct Chooser<'a> {
    rust: &'a Rust,
    model: Model,
    records: Vec<Record>,
    seen: HashSet<(u64, u64, u64, Vec<u8>)>,
}

/// The list from a seed; an error where the Rust and the plain reading differ, or a number of a call is missing.
pub fn choose(rust: &Rust, seed: u64) -> Result<Vec<Record>, String> {
    let mut chooser = Chooser { rust, model: Model::new(), records: Vec::new(), seen: HashSet::new() };
    chooser.bench_cases()?;
    chooser.published_formats()?;
    chooser.published_examples()?;
    chooser.kinds()?;
    chooser.conversions()?;
    chooser.form()?;
    chooser.limits(seed)?;
    chooser.wrong_readings(seed)?;
    chooser.generated(seed)?;
    chooser.pages(seed)?;
    chooser.negative_flags()?;
    chooser.orders(seed)?;
    chooser.measures(seed)?;
    chooser.strict_exports(seed)?;
    chooser.check_numbers()?;
    chooser.check_readings()?;
    Ok(chooser.records)
}

/// The numbers that each call can give.
fn numbers_of(call: Call) -> &'static [u8] {
    match call {
        Call::Import => &[0, 1, 2, 3, 4, 5, 6, 7, 8, 9, 10, 11, 16],
        Call::Export => &[0, 1, 2, 3, 12, 13, 14, 16],
        Call::Plain | Call::ToStorage | Call::Page => &[0, 1, 2, 3, 16],
        Call::MeasureImport => &[0, 1, 2, 3, 4, 5, 6, 7, 8, 9, 10, 11],
        Call::MeasureExport => &[0, 1, 2, 3, 12, 13, 14],
        Call::StrictExport => &[0, 1, 2, 3, 12, 13, 14, 16, 17, 18],
        Call::ToPhysicalType => &[0, 1, 2, 3, 15],
        Call::IsNested | Call::ContainsDictionary => &[0, 1, 2, 3],
        Call::FromIntegerType | Call::FromPrimitiveType => &[0, 15, 16],
        Call::UnderlyingPhysicalType | Call::ToStorageRecursive | Call::InnerDtype | Call::GetChild => {
            &[0, 1, 2, 3, 15, 16]
        }
    }
}

/// A sheet from its lines as text.
fn sheet_of(kind: Kind, lines: &[&str]) -> Vec<u8> {
    let columns = |line: &&str| -> Line { line.split(' ').map(|column| column.as_bytes().to_vec()).collect() };
    join_lines(kind, &lines.iter().map(columns).collect::<Vec<_>>())
}

/// Whether the call has a stage of its own: the page, the measures and strict export.
fn has_own_stage(request: Request) -> bool {
    request.call == Call::Page || request.rests_on().is_some()
}

/// The calls that read a field sheet, but those with stages of their own.
fn field_calls() -> impl Iterator<Item = Request> {
    let calls = CALLS.iter().map(|(call, _)| Request::new(*call, 0));
    calls.filter(|request| request.call.input() == Input::FieldSheet && !has_own_stage(*request))
}

/// The requests that a sheet of this kind can be put to, but what has stages of its own, big-endian metadata too.
fn first_requests(random: &mut Random, kind: Kind) -> Vec<Request> {
    let mut requests = requests(random, kind);
    requests.retain(|request| !has_own_stage(*request) && !request.is_big());
    requests
}

impl Chooser<'_> {
    /// The Rust's answer, or the plain reading's for what the Rust has not; both must agree.
    fn answer(&self, request: Request, sheet: &[u8]) -> Result<Answered, String> {
        let model = self.model.answer(request, sheet);
        if request.is_partly_in_rust() && compare::answer(self.rust, &self.model, request, sheet) != model {
            return Err(format!("{request} differs on {}", sheet.escape_ascii()));
        }
        Ok(model)
    }

    fn add_room(&mut self, request: Request, sheet: &[u8], room: usize) -> Result<(), String> {
        let answered = self.answer(request, sheet)?;
        let record = Record::of(request, room, sheet, &answered);
        if self.seen.insert((request.call.code(), request.argument, record.room, sheet.to_vec())) {
            self.records.push(record);
        }
        Ok(())
    }

    fn add(&mut self, request: Request, sheet: &[u8], buffer: Buffer) -> Result<(), String> {
        let len = match self.answer(request, sheet)? {
            Ok(Answer::Sheet(answer)) => answer.len(),
            Ok(Answer::Values(..)) => 0,
            Err(_) => 32,
        };
        let room = match buffer {
            Exact => len,
            OneShort => len.saturating_sub(1),
            Empty => 0,
            Ample if request.call.writes() => len + 40,
            Ample => 0,
        };
        self.add_room(request, sheet, room)
    }

    fn add_import(&mut self, lines: &[&str]) -> Result<(), String> {
        self.add(Request::new(Call::Import, 0), &sheet_of(Kind::Schema, lines), Ample)
    }

    /// A1 to A11 of document 01, and the buffers about their answers.
    fn bench_cases(&mut self) -> Result<(), String> {
        let import = Request::new(Call::Import, 0);
        let first = sheet_of(Kind::Schema, &["2b6c 7065616b 2 ~ 1 0", "67 6974656d 0 ~ 0 0"]);
        for buffer in [Ample, Exact, OneShort, Empty] {
            self.add(import, &first, buffer)?;
        }
        for (flags, format) in [("-3", "67"), ("4", "67"), ("0", "773a2b3136"), ("0", "7473733a"), ("0", "747373")] {
            self.add_import(&[&format!("{format} - {flags} ~ 0 0")])?;
        }
        for format in ["643a31392c31302c313030", "643a35", "2b75733a", "2b773a7a", "2b773a33"] {
            self.add_import(&[&format!("{format} - 0 ~ 0 0")])?;
        }
        for metadata in ["02000000010000006d0100000031010000006d0100000032", "ffffffff"] {
            self.add_import(&[&format!("67 - 0 {metadata} 0 0")])?;
        }
        self.add_import(&["6c - 0 ~ 1 0", "~ - 0 ~ 0 0"])?;
        let fixed = sheet_of(Kind::Field, &["23 16 0 ~ ~ - 0 ~ 0"]);
        for buffer in [Ample, Exact, OneShort, Empty] {
            self.add(Request::new(Call::Export, 0), &fixed, buffer)?;
        }
        Ok(())
    }

    /// Flags that are negative, about their ends and with each of the three bits, on every line that has a field of its own and on one
    /// that has not, the values of a dictionary.
    fn negative_flags(&mut self) -> Result<(), String> {
        for low in 1..=8 {
            self.add_import(&[&format!("67 61 {} ~ 0 0", -low)])?;
            self.add_import(&[&format!("67 61 {} ~ 0 0", i64::MIN + low - 1)])?;
        }
        const NAMED: &str = "01000000140000004152524f573a657874656e73696f6e3a6e616d650100000078"; // ARROW:extension:name = x
        for flags in [-1, -3, i64::MIN + 1, i64::MIN + 7] {
            let line = |format: &str, below: &str| format!("{format} 61 {flags} ~ {below}");
            let (leaf, utf8) = (line("67", "0 0"), line("75", "0 0"));
            for nested in ["2b6c", "2b4c", "2b773a33", "2b6d"] {
                self.add_import(&[&line(nested, "1 0"), &leaf])?;
            }
            for group in ["2b73", "2b75643a302c31"] {
                self.add_import(&[&line(group, "2 0"), &leaf, &utf8])?;
            }
            self.add_import(&[&line("2b6d", "1 0"), &line("69", "0 1"), &line("2b6c", "1 0"), &leaf])?;
            self.add_import(&[&format!("2b6c 61 {flags} {NAMED} 1 0"), &leaf])?;
        }
        Ok(())
    }

    /// Each format alone, over a child, over two, and as the index of a dictionary.
    fn published_formats(&mut self) -> Result<(), String> {
        let hex = |format: &str| String::from_utf8_lossy(&hex_text(Some(format.as_bytes()))).into_owned();
        for format in published::FORMATS {
            let format = hex(format);
            self.add_import(&[&format!("{format} 61 2 ~ 0 0")])?;
            self.add_import(&[&format!("{format} 61 0 ~ 1 0"), "69 69 2 ~ 0 0"])?;
            self.add_import(&[&format!("{format} 61 4 ~ 2 0"), "69 69 2 ~ 0 0", "75 76 2 ~ 0 0"])?;
        }
        for format in published::INDEX_FORMATS {
            self.add_import(&[&format!("{} 61 3 ~ 0 1", hex(format)), "75 - 2 ~ 0 0"])?;
        }
        Ok(())
    }

    /// The worked examples, and the way back of those that are imported.
    fn published_examples(&mut self) -> Result<(), String> {
        let metadata = [None, Some(published::METADATA)];
        for (example, metadata) in published::EXAMPLES.iter().flat_map(|example| metadata.map(|block| (example, block))) {
            let line = |(place, node): (usize, &published::Node)| {
                let (format, name, children, dictionary) = *node;
                let texts = [Some(format.as_bytes()), Some(name.as_bytes()), metadata.filter(|_| place == 0)];
                let [format, name, metadata] = texts.map(hex_text);
                vec![format, name, b"2".to_vec(), metadata, vec![b'0' + children], vec![b'0' + dictionary]]
            };
            let schema = join_lines(Kind::Schema, &example.iter().enumerate().map(line).collect::<Vec<_>>());
            let import = Request::new(Call::Import, 0);
            self.add(import, &schema, Ample)?;
            if let Ok(Answer::Sheet(field)) = self.answer(import, &schema)? {
                self.add(Request::new(Call::Export, 0), &field, Ample)?;
            }
        }
        Ok(())
    }

    /// Each kind alone and in an extension through each call, and in a list through those that look into it.
    fn kinds(&mut self) -> Result<(), String> {
        for kind in 0..=41 {
            for (variant, (numbers, below)) in kind_heads(kind).into_iter().enumerate() {
                let whole = |first: &[&str], own: &str| {
                    let line = format!("{numbers} {own} {}", below.len());
                    let lines: Vec<&str> = first.iter().copied().chain([&line[..]]).chain(below.iter().copied()).collect();
                    sheet_of(Kind::Field, &lines)
                };
                let alone = whole(&[], "61 1 62=63");
                let inside = whole(&["37 0 0 78 ~ 61 0 - 1"], "~ ~ ~");
                let listed = whole(&["27 0 0 ~ ~ 61 1 ~ 1"], "69 0 ~");
                for request in field_calls().filter(|request| variant == 0 || tells_variants(request.call)) {
                    self.add(request, &alone, Ample)?;
                    self.add(request, &inside, Ample)?;
                    if looks_into_lists(request.call) {
                        self.add(request, &listed, Ample)?;
                    }
                }
            }
        }
        Ok(())
    }

    /// Each place of both enumerations and some past them.
    fn conversions(&mut self) -> Result<(), String> {
        for call in [Call::FromIntegerType, Call::FromPrimitiveType] {
            for place in (0..19).chain([255, 256, 1 << 32, u64::MAX]) {
                self.add(Request::new(call, place), b"", Ample)?;
            }
            for buffer in [Exact, OneShort, Empty] {
                self.add(Request::new(call, 3), b"", buffer)?;
            }
            self.add(Request::new(call, 99), b"", Empty)?;
        }
        Ok(())
    }

    /// Headings and line ends, and refusals with an empty buffer, for each call that reads a sheet.
    fn form(&mut self) -> Result<(), String> {
        let schema = sheet_of(Kind::Schema, &["67 61 0 ~ 0 0"]);
        let field = sheet_of(Kind::Field, &["14 0 0 ~ ~ 61 0 ~ 0"]);
        for request in field_calls().chain([Request::new(Call::Import, 0)]) {
            let (sheet, other) = if request.call == Call::Import { (&schema, &field) } else { (&field, &schema) };
            let heading = sheet.iter().position(|byte| *byte == b'\n').unwrap_or(0);
            let open = &sheet[..sheet.len() - 1];
            let doubled = [&sheet[..], &sheet[heading + 1..]].concat();
            let carriage = [&sheet[..heading], b"\r", &sheet[heading..]].concat();
            for part in [&b""[..], &sheet[..heading], &sheet[..heading + 1], open, &doubled, &carriage, other, sheet] {
                self.add(request, part, Ample)?;
            }
            self.add(request, &sheet[..heading], Empty)?;
            if request.call.writes() {
                self.add(request, sheet, Exact)?;
                self.add(request, sheet, OneShort)?;
                self.add(request, sheet, Empty)?;
            }
        }
        Ok(())
    }

    fn limits(&mut self, seed: u64) -> Result<(), String> {
        let mut random = Random::new(seed);
        for request in [Request::new(Call::Import, 0), Request::new(Call::Export, 0), Request::new(Call::Plain, 0)] {
            let kind = if request.call == Call::Import { Kind::Schema } else { Kind::Field };
            self.add(request, &long_name(kind, 65_535), Exact)?;
            self.add(request, &long_name(kind, 65_536), Ample)?;
            for _ in 0..6 {
                for count in [31, 32, 33] {
                    self.add(request, &join_lines(kind, &levels(&mut random, kind, count)), Ample)?;
                }
                self.add(request, &join_lines(kind, &huge_counts(&mut random, kind)), Ample)?;
            }
            let mut deep = levels(&mut random, kind, 1_500);
            self.add(request, &join_lines(kind, &deep), Ample)?;
            deep.pop();
            self.add(request, &join_lines(kind, &deep), Ample)?;
        }
        // The bench program's buffer: the answer is longer than the sheet, and the sheet is within its limit.
        let wide = join_lines(Kind::Schema, &wide_schema(3_500));
        self.add_room(Request::new(Call::Import, 0), &wide, 65_536)?;
        for request in field_calls().filter(|request| !matches!(request.call, Call::Export | Call::Plain)) {
            for count in [32, 33, 32, 33, 33] {
                self.add(request, &join_lines(Kind::Field, &levels(&mut random, Kind::Field, count)), Ample)?;
            }
        }
        self.add(Request::new(Call::ToStorage, 0), &sized(&mut random, Kind::Field, 65_536), Ample)
    }

    /// The smallest cases that tell each wrong reading from the Rust, two of each.
    fn wrong_readings(&mut self, seed: u64) -> Result<(), String> {
        let mut left: Vec<(Wrong, u8)> = WRONG_READINGS.iter().map(|(wrong, _)| (*wrong, 2)).collect();
        left.retain(|(wrong, _)| !is_about_length(*wrong) && !came_later(*wrong));
        let mut generator = Generator::short(seed);
        for _ in 0..TRIED {
            if left.is_empty() {
                return Ok(());
            }
            let sheet = generator.sheet();
            for request in first_requests(&mut generator.random, sheet.kind) {
                let answered = self.answer(request, &sheet.bytes)?;
                let room = room(&mut generator.random, &answered);
                self.add_smallest(&mut left, request, &sheet.bytes, room)?;
            }
            left.retain(|(_, cases)| *cases > 0);
        }
        Err(format!("no short sheet tells these wrong readings: {left:?}"))
    }

    /// The smallest cases like this one, of each wrong reading that it tells from the right one and that has cases left.
    fn add_smallest(
        &mut self,
        left: &mut [(Wrong, u8)],
        request: Request,
        sheet: &[u8],
        room: usize,
    ) -> Result<(), String> {
        for (wrong, cases) in left {
            if *cases > 0 && self.tells(*wrong, request, sheet, room) {
                let small = smallest(sheet.to_vec(), |sheet| self.tells(*wrong, request, sheet, room));
                self.add_room(request, &small, room)?;
                *cases -= 1;
            }
        }
        Ok(())
    }

    /// Whether the case tells the wrong reading from the right one; plain form only where demand 3 speaks of the field.
    fn tells(&self, wrong: Wrong, request: Request, sheet: &[u8], room: usize) -> bool {
        let case = Case { request, sheet, room };
        let right = Outcome::of(&self.model.answer(request, sheet), case.lent());
        let told = Model::wrongly(wrong).outcome(request, sheet, case.lent()) != right;
        told && (request.call != Call::Plain || matches!(comes_back(self.rust, &self.model, sheet), Ok(Some(_))))
    }

    /// Generated sheets until each call has given each number so often.
    fn generated(&mut self, seed: u64) -> Result<(), String> {
        let mut counts = [[0usize; NUMBERS]; CALLS.len()];
        let mut generator = Generator::short(seed.wrapping_add(1));
        for _ in 0..TRIED {
            let Sheet { kind, bytes } = generator.sheet();
            for request in first_requests(&mut generator.random, kind) {
                let answered = self.answer(request, &bytes)?;
                let record = Record::of(request, room(&mut generator.random, &answered), &bytes, &answered);
                let count = &mut counts[request.call as usize][record.number as usize];
                let short = record.input.len() + record.output.len() <= SHORT;
                if short && *count < quota(request.call, record.number as u8) {
                    *count += 1;
                    self.add_room(request, &bytes, record.room as usize)?;
                }
            }
        }
        Ok(())
    }

    /// The list alone must tell all wrong readings from the right one.
    fn check_readings(&self) -> Result<(), String> {
        for (wrong, what) in WRONG_READINGS {
            let told = self.records.iter().any(|record| {
                let case = record.case();
                let outcome = |model: Model| model.outcome(case.request, case.sheet, case.lent());
                outcome(Model::wrongly(*wrong)) != outcome(self.model)
            });
            if !told {
                return Err(format!("no record tells the wrong reading: {what}"));
            }
        }
        Ok(())
    }

    fn check_numbers(&self) -> Result<(), String> {
        for request in CALLS.iter().flat_map(|(call, _)| ORDERS.map(|order| Request::under(*call, order.number()))) {
            for number in numbers_of(request.call) {
                let of = |asked: Request| asked.call == request.call && asked.order() == request.order();
                if !self.records.iter().any(|record| of(record.request) && record.number == *number as u64) {
                    return Err(format!("no record of {request} with number {number}"));
                }
            }
        }
        Ok(())
    }
}

/// The calls whose answers tell a kind's units, sizes, ids and texts.
fn tells_variants(call: Call) -> bool {
    matches!(call, Call::Export | Call::Plain | Call::ToPhysicalType | Call::UnderlyingPhysicalType)
}

fn looks_into_lists(call: Call) -> bool {
    matches!(
        call,
        Call::UnderlyingPhysicalType
            | Call::ToStorageRecursive
            | Call::InnerDtype
            | Call::GetChild
            | Call::ContainsDictionary
    )
}

/// How many generated records of a call with a number.
fn quota(call: Call, number: u8) -> usize {
    match (call, number) {
        (Call::Import, 0) => 160,
        (Call::Export | Call::Plain, 0) => 120,
        (Call::Import, LINE | NOT_UTF8 | METADATA_CUT) => 40,
        (Call::Export, LINE | NO_FORMAT..=BYTE_ZERO) => 30,
        (Call::Import, _) => 20,
        (Call::FromIntegerType | Call::FromPrimitiveType, _) => 0,
        (_, HEADING..=LEVELS) => 6,
        _ => 12,
    }
}

/// The readings that only sheets of the longest length tell; the limits have these.
fn is_about_length(wrong: Wrong) -> bool {
    matches!(wrong, Wrong::LongSheetTaken | Wrong::LongestSheetRefused)
}

/// The readings that came after the list was begun. The page, big-endian metadata, the measures and strict export have stages of their
/// own; those of #103 are told by what is there.
fn came_later(wrong: Wrong) -> bool {
    let has_stage = wrong.is_of_page() || wrong.is_of_order() || wrong.is_of_measures() || wrong.is_of_strict_export();
    has_stage || wrong.is_of_fixed_names()
}

/// A single line whose name fills the sheet.
fn long_name(kind: Kind, bytes: usize) -> Vec<u8> {
    let line = |name: &str, odd: bool| match (kind, odd) {
        (Kind::Schema, false) => format!("67 {name} 0 ~ 0 0"),
        (Kind::Schema, true) => format!("67 {name} 10 ~ 0 0"),
        (Kind::Field, false) => format!("23 4 0 ~ ~ {name} 0 ~ 0"),
        (Kind::Field, true) => format!("23 42 0 ~ ~ {name} 0 ~ 0"),
    };
    let missing = bytes - sheet_of(kind, &[&line("", false)]).len();
    sheet_of(kind, &[&line(&"61".repeat(missing / 2), missing % 2 == 1)])
}

/// The columns `kind p q text more` of a kind, in its variants, with the lines below.
fn kind_heads(kind: u8) -> Vec<(String, &'static [&'static str])> {
    const FIELD: &[&str] = &["4 0 0 ~ ~ 69 0 ~ 0"];
    const FIELDS: &[&str] = &["4 0 0 ~ ~ 69 0 ~ 0", "25 0 0 ~ ~ 75 1 ~ 0"];
    const BARE: &[&str] = &["25 0 0 ~ ~ ~ ~ ~ 0"];
    let variants: (&[&str], &[&str]) = match kind {
        15 => (&["0 0 ~ ~", "1 0 - ~", "2 0 555443 ~", "3 0 2b30373a3330 ~"], &[]),
        18..=21 => (&["0 0 ~ ~", "1 0 ~ ~", "2 0 ~ ~", "3 0 ~ ~"], &[]),
        23 => (&["16 0 ~ ~", "18446744073709551615 0 ~ ~"], &[]),
        27 | 29 => (&["0 0 ~ ~"], FIELD),
        28 => (&["3 0 ~ ~"], FIELD),
        30 => (&["0 0 ~ ~"], FIELDS),
        31 => (&["0 0 ~ ~", "1 0 ~ ~"], FIELD),
        32 => (&["0 0 ~ ~", "2 1 ~ ~", "4 0 ~ ~", "9 1 ~ ~"], BARE),
        33..=36 => (&["19 10 ~ ~"], &[]),
        37 => (&["0 0 78 ~", "0 0 - 79"], BARE),
        41 => (&["0 0 ~ ~", "1 0 4,5 ~", "0 0 -1,2147483647 ~", "1 0 - ~"], FIELDS),
        _ => (&["0 0 ~ ~"], &[]),
    };
    variants.0.iter().map(|rest| (format!("{kind} {rest}"), variants.1)).collect()
}
