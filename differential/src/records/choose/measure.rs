//! The records of the measures (document 02, #105), after all others and from random numbers of their own. A measure is lent nothing.

use super::*;
use crate::generator::limits::long_answers;

/// The cases that each wrong reading is told by.
const CASES: u8 = 2;

const IMPORT: Call = Call::MeasureImport;
const EXPORT: Call = Call::MeasureExport;

/// `ARROW:extension:name` is `x`, and `ARROW:extension:metadata` is `y`, in each order.
const NAMED: [&str; 2] = [
    "01000000140000004152524f573a657874656e73696f6e3a6e616d650100000078",
    "00000001000000144152524f573a657874656e73696f6e3a6e616d650000000178",
];
const LONE_METADATA: &str = "01000000180000004152524f573a657874656e73696f6e3a6d657461646174610100000079";

impl Chooser<'_> {
    pub fn measures(&mut self, seed: u64) -> Result<(), String> {
        self.measure_table()?;
        self.measure_formats()?;
        self.measure_ignored()?;
        self.measure_extensions()?;
        self.measure_kinds()?;
        self.measure_chains()?;
        self.measure_samples()?;
        self.measure_refusals()?;
        self.measure_form(seed)?;
        self.measure_limits()?;
        self.measure_readings(seed.wrapping_add(6))?;
        self.measure_generated(seed.wrapping_add(7))
    }

    fn add_measure(&mut self, call: Call, sheet: &[u8]) -> Result<(), String> {
        ORDERS.into_iter().try_for_each(|order| self.add(Request::under(call, order.number()), sheet, Ample))
    }

    /// The lines under both orders.
    fn add_lines(&mut self, call: Call, lines: &[&str]) -> Result<(), String> {
        let kind = if call == IMPORT { Kind::Schema } else { Kind::Field };
        self.add_measure(call, &sheet_of(kind, lines))
    }

    /// The small inputs that the request was read with, and the buffers about the measure of the first.
    fn measure_table(&mut self) -> Result<(), String> {
        self.add_lines(IMPORT, &["6e - 0 ~ 0 0"])?;
        self.add_lines(IMPORT, &["6e - 0 ~ 1 0", "78 - 0 ~ 0 0"])?;
        self.add_lines(IMPORT, &["2b6c - 0 ~ 2 0", "6e - 0 ~ 0 0", "78 - 0 ~ 0 0"])?;
        self.add_lines(IMPORT, &["69 - 0 ~ 1 1", "78 - 0 ~ 0 0", "6e - 0 ~ 0 0"])?;
        self.add_lines(IMPORT, &[&format!("6e - 0 {} 0 0", NAMED[0])])?;
        self.add_lines(IMPORT, &["2b6c - 0 ~ 1 0", "78 - 0 ~ 0 0"])?;
        let (extension, bare) = ("37 0 0 78 ~ - 0 ~ 1", "37 0 0 79 ~ ~ ~ ~ 1");
        let (dictionary, values) = ("32 2 0 ~ ~ - 0 ~ 1", "32 2 0 ~ ~ ~ ~ ~ 1");
        let leaf = "0 0 0 ~ ~ ~ ~ ~ 0";
        self.add_lines(EXPORT, &[extension, leaf])?;
        self.add_lines(EXPORT, &[dictionary, leaf])?;
        self.add_lines(EXPORT, &[extension, values, leaf])?;
        self.add_lines(EXPORT, &[extension, bare, values, "40 0 0 ~ ~ ~ ~ ~ 0"])?;
        self.add_lines(EXPORT, &[dictionary, "37 0 0 78 ~ ~ ~ ~ 1", values, leaf])?;
        let import = Request::new(Call::Import, 0);
        let leaf = sheet_of(Kind::Schema, &["6e - 0 ~ 0 0"]);
        [66, 65].into_iter().try_for_each(|room| self.add_room(import, &leaf, room))
    }

    /// Each published format over two children, of which it reads none, the first or both.
    fn measure_formats(&mut self) -> Result<(), String> {
        for format in published::FORMATS {
            let format = String::from_utf8_lossy(&hex_text(Some(format.as_bytes()))).into_owned();
            let sheet = sheet_of(Kind::Schema, &[&format!("{format} 61 4 ~ 2 0"), "69 69 2 ~ 0 0", "75 76 2 ~ 0 0"]);
            self.add(Request::new(IMPORT, 0), &sheet, Ample)?;
        }
        Ok(())
    }

    /// Children that import ignores, with more below them, whose faults do not show.
    fn measure_ignored(&mut self) -> Result<(), String> {
        const LEAF: &str = "6e - 0 ~ 0 0";
        const BROKEN: &str = "78 - 0 ~ 0 0";
        const LIST: &str = "2b6c - 0 ~ 1 0";
        let trees: [&[&str]; 12] = [
            &["67 - 0 ~ 2 0", LIST, BROKEN, "2b73 - 0 ~ 0 1", BROKEN],
            &["2b6c - 0 ~ 3 0", LEAF, LIST, BROKEN, "~ ff 0 - 0 0"],
            &["2b4c - 0 ~ 2 0", "67 - 0 ~ 1 0", BROKEN, BROKEN],
            &["2b773a33 - 0 ~ 2 0", LIST, LEAF, LIST, BROKEN],
            &["2b6d - 4 ~ 2 0", "2b73 - 0 ~ 2 0", LEAF, LEAF, BROKEN],
            &["2b73 - 0 ~ 0 0"],
            &["2b73 - 0 ~ 3 0", LEAF, "2b6c - 0 ~ 2 0", LEAF, BROKEN, "6e - 0 ~ 1 0", BROKEN],
            &["2b75643a302c31 - 0 ~ 2 0", "69 - 0 ~ 0 1", LEAF, "2b73 - 0 ~ 1 0", "67 - 0 ~ 1 0", BROKEN],
            &["69 - 0 ~ 2 1", LIST, BROKEN, BROKEN, "2b73 - 0 ~ 2 0", LEAF, LEAF],
            &["43 - 1 ~ 0 1", "73 - 0 ~ 1 1", BROKEN, "6c - 0 ~ 0 1", LIST, LEAF],
            &["2b6c - 0 ~ 2 1", LEAF, BROKEN, LEAF],
            &["2b6c - 0 ~ 1 0", "69 - 0 ~ 1 1", BROKEN, "67 - 0 ~ 1 0", BROKEN],
        ];
        trees.into_iter().try_for_each(|lines| self.add_lines(IMPORT, lines))
    }

    /// Extensions that metadata makes, on leaves, lists, dictionaries and their values, of one order and of the other.
    fn measure_extensions(&mut self) -> Result<(), String> {
        for named in NAMED {
            let line = |format: &str, below: &str| format!("{format} 61 2 {named} {below}");
            let (leaf, list, dictionary) = (line("67", "0 0"), line("2b6c", "2 0"), line("69", "1 1"));
            self.add_lines(IMPORT, &[&list, &leaf, &leaf])?;
            self.add_lines(IMPORT, &[&dictionary, &leaf, &leaf])?;
            self.add_lines(IMPORT, &[&dictionary, &leaf, &dictionary, &leaf, &list, &leaf, &leaf])?;
            self.add_lines(IMPORT, &[&line("2b73", "2 0"), &leaf, "67 62 0 ~ 0 0"])?;
            self.add_lines(IMPORT, &["67 61 0 ~ 1 0", &leaf])?;
        }
        self.add_lines(IMPORT, &[&format!("67 61 0 {LONE_METADATA} 0 0")])?;
        self.add_lines(IMPORT, &["67 61 0 00000080 0 0"])
    }

    /// Each kind in its variants, alone, and the first of them in an extension.
    fn measure_kinds(&mut self) -> Result<(), String> {
        for kind in 0..=41 {
            for (variant, (numbers, below)) in kind_heads(kind).into_iter().enumerate() {
                let line = |own: &str| format!("{numbers} {own} {}", below.len());
                let alone = sheet_of(Kind::Field, &[&[&line("61 1 62=63")[..]], below].concat());
                self.add(Request::new(EXPORT, 0), &alone, Ample)?;
                if variant == 0 {
                    let inside = sheet_of(Kind::Field, &[&["37 0 0 78 79 61 0 - 1", &line("~ ~ ~")[..]], below].concat());
                    self.add(Request::under(EXPORT, Order::Big.number()), &inside, Ample)?;
                }
            }
        }
        Ok(())
    }

    /// Dictionaries, extensions and lists over each other in all ways, three of them over a leaf.
    fn measure_chains(&mut self) -> Result<(), String> {
        // each with a name and bare, and whether it leaves what is below it bare
        const LINKS: [(&str, &str, bool); 3] = [
            ("32 2 1 ~ ~ 64 0 ~ 1", "32 5 0 ~ ~ ~ ~ ~ 1", true),
            ("37 0 0 78 ~ 65 1 ~ 1", "37 0 0 79 7a ~ ~ ~ 1", true),
            ("27 0 0 ~ ~ 6c 1 ~ 1", "27 0 0 ~ ~ ~ ~ ~ 1", false),
        ];
        for way in 0..LINKS.len().pow(3) {
            let mut lines = Vec::new();
            let mut bare = false;
            for link in [way / 9, way / 3 % 3, way % 3] {
                let (named, unnamed, leaves_bare) = LINKS[link];
                lines.push(if bare { unnamed } else { named });
                bare = leaves_bare;
            }
            lines.push(if bare { "7 0 0 ~ ~ ~ ~ ~ 0" } else { "14 0 0 ~ ~ - 0 ~ 0" });
            self.add_lines(EXPORT, &lines)?;
        }
        Ok(())
    }

    fn measure_samples(&mut self) -> Result<(), String> {
        const FIELDS: [&[u8]; 2] =
            [include_bytes!("../../../../samples/sweep.field"), include_bytes!("../../../../samples/trace.field")];
        const SCHEMAS: [&[u8]; 3] = [
            include_bytes!("../../../../samples/sweep.schema"),
            include_bytes!("../../../../samples/front_end.schema"),
            include_bytes!("../../../../samples/bench_unit.schema"),
        ];
        SCHEMAS.into_iter().try_for_each(|sheet| self.add_measure(IMPORT, sheet))?;
        FIELDS.into_iter().try_for_each(|sheet| self.add_measure(EXPORT, sheet))
    }

    /// Every number of the conversions but 16, after lines that were visited without a fault; and faults that are not visited.
    fn measure_refusals(&mut self) -> Result<(), String> {
        const LEAF: &str = "6e - 0 ~ 0 0";
        for last in ["~ - 0 ~ 0 0", "ff - 0 ~ 0 0", "6e ff 0 ~ 0 0", "78 - 0 ~ 0 0", "773a7a - 0 ~ 0 0", "643a35 - 0 ~ 0 0"]
        {
            self.add_lines(IMPORT, &["2b73 - 0 ~ 2 0", LEAF, last])?;
        }
        for last in ["2b6c - 0 ~ 0 0", "6e - 0 - 0 0", "6e - 0 00000001 0 0", "6e - 0 01000000 0 0"] {
            self.add_lines(IMPORT, &["2b73 - 0 ~ 2 0", LEAF, last])?;
        }
        self.add_lines(IMPORT, &["2b73 - 0 ~ 2 0", LEAF, "67 - 0 ~ 0 1", LEAF])?;
        for last in ["40 0 0 ~ ~ - 0 ~ 0", "41 0 0 - ~ - 0 ~ 0", "0 0 0 ~ ~ 00 0 ~ 0", "15 0 0 00 ~ - 0 ~ 0"] {
            self.add_lines(EXPORT, &["30 0 0 ~ ~ - 0 ~ 2", "0 0 0 ~ ~ - 0 ~ 0", last])?;
            let hidden = ["37 0 0 78 ~ - 0 ~ 1", "32 2 0 ~ ~ ~ ~ ~ 1", "30 0 0 ~ ~ ~ ~ ~ 1", last];
            self.add_lines(EXPORT, &hidden)?;
        }
        Ok(())
    }

    /// Headings, lines and levels.
    fn measure_form(&mut self, seed: u64) -> Result<(), String> {
        let mut random = Random::new(seed);
        for (call, kind, line) in [(IMPORT, Kind::Schema, "67 61 0 ~ 0 0"), (EXPORT, Kind::Field, "14 0 0 ~ ~ 61 0 ~ 0")] {
            let sheet = sheet_of(kind, &[line]);
            let heading = sheet.iter().position(|byte| *byte == b'\n').unwrap_or(0);
            let doubled = [&sheet[..], &sheet[heading + 1..]].concat();
            let other = sheet_of(if kind == Kind::Schema { Kind::Field } else { Kind::Schema }, &[line]);
            for part in
                [&b""[..], &sheet[..heading], &sheet[..heading + 1], &sheet[..sheet.len() - 1], &doubled, &other, &sheet]
            {
                self.add_measure(call, part)?;
            }
            for count in [31, 32, 33, 32, 33] {
                self.add_measure(call, &join_lines(kind, &levels(&mut random, kind, count)))?;
            }
            self.add_measure(call, &join_lines(kind, &huge_counts(&mut random, kind)))?;
        }
        Ok(())
    }

    /// Sheets of 65,535 bytes and more, one of them under each order: a single line; the longest answers that were found.
    fn measure_limits(&mut self) -> Result<(), String> {
        let mut big = 0;
        for (call, kind) in [(IMPORT, Kind::Schema), (EXPORT, Kind::Field)] {
            self.add(Request::new(call, 0), &long_name(kind, 65_535), Ample)?;
            self.add(Request::under(call, 1), &long_name(kind, 65_536), Ample)?;
            // the first of its kind has the longest answer
            if let Some(sheet) = long_answers().into_iter().find(|sheet| sheet.kind == kind) {
                self.add(Request::under(call, big), &sheet.bytes, Ample)?;
            }
            big = 1;
        }
        Ok(())
    }

    /// The smallest cases that tell each wrong reading of the measures from the right one.
    fn measure_readings(&mut self, seed: u64) -> Result<(), String> {
        let readings = WRONG_READINGS.iter().map(|(wrong, _)| *wrong);
        let readings = readings.filter(|wrong| wrong.is_of_measures() && !wrong.is_of_long_measures());
        let mut left: Vec<(Wrong, u8)> = readings.map(|wrong| (wrong, CASES)).collect();
        let mut generator = Generator::short_with_both_orders(seed);
        for _ in 0..TRIED {
            if left.is_empty() {
                return Ok(());
            }
            let sheet = generator.sheet();
            let request = any_measure(&mut generator.random, &sheet);
            self.add_smallest(&mut left, request, &sheet.bytes, 0)?;
            left.retain(|(_, cases)| *cases > 0);
        }
        Err(format!("no short sheet tells these wrong readings: {left:?}"))
    }

    /// Generated sheets until each number came so often under each order.
    fn measure_generated(&mut self, seed: u64) -> Result<(), String> {
        let mut counts = [[[0usize; NUMBERS]; ORDERS.len()]; CALLS.len()];
        let mut generator = Generator::short_with_both_orders(seed);
        for _ in 0..TRIED {
            let sheet = generator.sheet();
            let request = any_measure(&mut generator.random, &sheet);
            let answered = self.answer(request, &sheet.bytes)?;
            let number = answered.as_ref().err().copied().unwrap_or(0);
            let count = &mut counts[request.call as usize][request.order() as usize][number as usize];
            let short = number == LEVELS || sheet.bytes.len() <= SHORT;
            if short && *count < measure_quota(number) {
                *count += 1;
                self.add(request, &sheet.bytes, Ample)?;
            }
        }
        Ok(())
    }
}

/// The measure that reads the sheet, under either order.
fn any_measure(random: &mut Random, sheet: &Sheet) -> Request {
    let order = random.pick(&ORDERS).number();
    match sheet.kind {
        Kind::Schema => Request::under(IMPORT, order),
        Kind::Field => Request::under(EXPORT, order),
    }
}

/// How many generated records of a measure with a number, under each order.
fn measure_quota(number: u8) -> usize {
    match number {
        0 => 40,
        LINE => 4,
        LEVELS => 1,
        _ => 2,
    }
}
