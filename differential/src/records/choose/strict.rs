//! The records of strict export (document 02, #106), after all others and from random numbers of their own.

use super::*;
use crate::generator::hex;

/// The cases that each wrong reading is told by.
const CASES: u8 = 2;

/// The reserved keys as a column has them; `N` and `M` stand for them below.
const NAME: &str = "4152524f573a657874656e73696f6e3a6e616d65";
const METADATA: &str = "4152524f573a657874656e73696f6e3a6d65746164617461";

fn strict(order: Order) -> Request {
    Request::under(Call::StrictExport, order.number())
}

/// The sheet of the lines, with the keys in place of their letters.
fn keyed(lines: &[&str]) -> Vec<u8> {
    let lines: Vec<String> = lines.iter().map(|line| line.replace('N', NAME).replace('M', METADATA)).collect();
    sheet_of(Kind::Field, &lines.iter().map(String::as_str).collect::<Vec<_>>())
}

const LEAF: &str = "0 0 0 ~ ~ - 0 ~ 0";
const BARE_LEAF: &str = "0 0 0 ~ ~ ~ ~ ~ 0";
const KEYED_LEAF: &str = "0 0 0 ~ ~ - 0 N= 0";
const STRUCT: &str = "30 0 0 ~ ~ - 0 ~ 2";
const BARE_LIST: &str = "27 0 0 ~ ~ ~ ~ ~ 1";
const EXTENSION: &str = "37 0 0 78 ~ - 0 ~ 1";
const BARE_EXTENSION: &str = "37 0 0 79 ~ ~ ~ ~ 1";
const WIDE: &str = "32 4 0 ~ ~ - 0 ~ 1";
const BARE_WIDE: &str = "32 9 0 ~ ~ ~ ~ ~ 1";
const BARE_DICTIONARY: &str = "32 2 0 ~ ~ ~ ~ ~ 1";

impl Chooser<'_> {
    pub fn strict_exports(&mut self, seed: u64) -> Result<(), String> {
        self.strict_table()?;
        self.strict_keys()?;
        self.strict_near_keys()?;
        self.strict_indices()?;
        self.strict_first_lines()?;
        self.strict_before_others()?;
        self.strict_unvisited()?;
        self.strict_kinds()?;
        self.strict_samples()?;
        self.strict_form(seed)?;
        self.strict_limits()?;
        self.strict_readings(seed.wrapping_add(8))?;
        self.strict_generated(seed.wrapping_add(9))
    }

    fn add_strict(&mut self, sheet: &[u8], buffer: Buffer) -> Result<(), String> {
        ORDERS.into_iter().try_for_each(|order| self.add(strict(order), sheet, buffer))
    }

    /// The lines under both orders.
    fn add_keyed(&mut self, lines: &[&str]) -> Result<(), String> {
        self.add_strict(&keyed(lines), Ample)
    }

    /// The small inputs that the request was read with; the buffers about one that is answered, and about one that is not.
    fn strict_table(&mut self) -> Result<(), String> {
        let hidden = [EXTENSION, BARE_DICTIONARY, BARE_LIST, KEYED_LEAF];
        let rows: [&[&str]; 12] = [
            &[KEYED_LEAF],
            &["0 0 0 ~ ~ - 0 M= 0"],
            &["0 0 0 ~ ~ - 0 N73= 0"],
            &["37 0 0 78 ~ - 0 N=78 1", BARE_LEAF],
            &["32 9 0 ~ ~ - 0 ~ 1", BARE_LEAF],
            &["32 4 0 ~ ~ - 0 N= 1", BARE_LEAF],
            &[STRUCT, WIDE, BARE_LEAF, KEYED_LEAF],
            &[EXTENSION, "32 4 0 ~ ~ ~ ~ ~ 1", BARE_LEAF],
            &hidden,
            &["30 0 0 ~ ~ 00 0 ~ 2", "40 0 0 ~ ~ - 0 ~ 0", "0 0 0 ~ ~ - 0 M= 0"],
            &["6 0 0 ~ ~ - 0 ~ 0"],
            &["11 0 0 ~ ~ - 0 ~ 0"],
        ];
        rows.into_iter().try_for_each(|lines| self.add_keyed(lines))?;
        for order in ORDERS {
            self.add(Request::under(Call::Export, order.number()), &keyed(&hidden), Ample)?;
        }
        for buffer in [Exact, OneShort, Empty] {
            self.add_strict(&keyed(&["0 0 0 ~ ~ - 0 N73= 0"]), buffer)?;
        }
        [KEYED_LEAF, LEAF].into_iter().try_for_each(|line| self.add_strict(&keyed(&[line]), Empty))?;
        self.add_strict(&keyed(&[WIDE, BARE_LEAF]), Empty)
    }

    /// Either key, alone, between and beside other pairs, on every line that has pairs; the present export lets them through.
    fn strict_keys(&mut self) -> Result<(), String> {
        for pairs in ["N=", "M=", "N=78", "M=79", "41=,N=,6d=", "41=,M=", "M=,6d=31", "M=,N=", "41=31,M=79,N=78,6d=31"] {
            self.add_keyed(&[&format!("0 0 0 ~ ~ - 0 {pairs} 0")])?;
            let export = Request::new(Call::Export, 0);
            self.add(export, &keyed(&[&format!("0 0 0 ~ ~ - 0 {pairs} 0")]), Ample)?;
        }
        for head in ["27 0 0 ~ ~", "28 3 0 ~ ~", "29 0 0 ~ ~", "30 0 0 ~ ~", "31 1 0 ~ ~", "41 0 0 ~ ~"] {
            self.add_keyed(&[&format!("{head} - 0 M= 1"), LEAF])?;
            self.add_keyed(&[&format!("{head} - 0 ~ 1"), KEYED_LEAF])?;
        }
        self.add_keyed(&["32 2 0 ~ ~ - 0 N= 1", BARE_LEAF])?;
        for (texts, pairs) in
            [("78 79", "N=78"), ("78 79", "M=79"), ("78 79", "M=79,N=78"), ("78 ~", "M="), ("- -", "M=,N=")]
        {
            self.add_keyed(&[&format!("37 0 0 {texts} - 0 {pairs} 1"), BARE_LEAF])?;
        }
        self.add_keyed(&[EXTENSION, BARE_LIST, KEYED_LEAF])
    }

    /// Keys that are not reserved, and reserved ones as values, names and extension's texts.
    fn strict_near_keys(&mut self) -> Result<(), String> {
        const KEYS: [&[u8]; 14] = [
            b"",
            b"A",
            b"ARROW:extension:",
            b"ARROW:extension:nam",
            b"ARROW:extension:names",
            b"ARROW:extension:name\0",
            b"ARROW:extension:namf",
            b"ARROW:extension:Name",
            b"arrow:extension:name",
            b" ARROW:extension:name",
            b"ARROW:extension:metadat",
            b"ARROW:extension:metadata2",
            b"ARROW:extension:METADATA",
            b"BRROW:extension:metadata",
        ];
        for key in KEYS {
            let key = String::from_utf8_lossy(&hex(key)).into_owned();
            self.add_keyed(&[&format!("0 0 0 ~ ~ - 0 {key}=78 0")])?;
        }
        self.add_keyed(&["0 0 0 ~ ~ N 0 6d=N,6e=M 0"])?;
        self.add_keyed(&["37 0 0 N M - 0 6d=M 1", BARE_LEAF])
    }

    /// Each place of `IntegerType`, wherever a dictionary can stand; and its types.
    fn strict_indices(&mut self) -> Result<(), String> {
        for place in 0..10 {
            let (named, bare) = (format!("32 {place} 0 ~ ~ - 0 ~ 1"), format!("32 {place} 1 ~ ~ ~ ~ ~ 1"));
            self.add_keyed(&[&named, BARE_LEAF])?;
            self.add_keyed(&[EXTENSION, &bare, BARE_LEAF])?;
            if matches!(place, 3 | 4 | 8 | 9) {
                self.add_keyed(&[EXTENSION, BARE_EXTENSION, &bare, BARE_LEAF])?;
                self.add_keyed(&["32 2 0 ~ ~ - 0 ~ 1", &bare, BARE_LEAF])?;
                self.add_keyed(&[EXTENSION, BARE_DICTIONARY, &bare, BARE_LEAF])?;
                self.add_keyed(&["27 0 0 ~ ~ - 0 ~ 1", &named, BARE_LEAF])?;
                self.add_keyed(&[STRUCT, LEAF, &named, BARE_LEAF])?;
            }
        }
        for kind in [6, 11] {
            self.add_keyed(&[STRUCT, &format!("{kind} 0 0 ~ ~ - 0 ~ 0"), EXTENSION, &format!("{kind} 0 0 ~ ~ ~ ~ ~ 0")])?;
            self.add_keyed(&["32 2 0 ~ ~ - 0 ~ 1", &format!("{kind} 0 0 ~ ~ ~ ~ ~ 0")])?;
        }
        Ok(())
    }

    /// Both causes: on one line, and on different ones in both orders, with lines above, beside and below.
    fn strict_first_lines(&mut self) -> Result<(), String> {
        let rows: [&[&str]; 9] = [
            &["32 9 1 ~ ~ - 0 M= 1", BARE_LEAF],
            &[STRUCT, KEYED_LEAF, WIDE, BARE_LEAF],
            &[STRUCT, WIDE, BARE_LEAF, KEYED_LEAF],
            &[WIDE, BARE_LIST, KEYED_LEAF],
            &["27 0 0 ~ ~ - 0 N= 1", WIDE, BARE_LEAF],
            &["37 0 0 78 ~ - 0 N=78 1", BARE_WIDE, BARE_LEAF],
            &[EXTENSION, BARE_WIDE, BARE_LIST, KEYED_LEAF],
            &[EXTENSION, BARE_DICTIONARY, "30 0 0 ~ ~ ~ ~ ~ 2", KEYED_LEAF, WIDE, BARE_LEAF],
            &[STRUCT, EXTENSION, BARE_DICTIONARY, BARE_WIDE, BARE_LEAF, KEYED_LEAF],
        ];
        rows.into_iter().try_for_each(|lines| self.add_keyed(lines))
    }

    /// Before 12, 13 and 14, wherever these stand, and before 16; after 2 and 3.
    fn strict_before_others(&mut self) -> Result<(), String> {
        for refused in
            ["40 0 0 ~ ~ - 0 ~ 0", "18 2 0 ~ ~ - 0 ~ 0", "41 0 0 - ~ - 0 ~ 0", "0 0 0 ~ ~ 00 0 ~ 0", "15 0 0 00 ~ - 0 ~ 0"]
        {
            self.add_keyed(&[refused])?;
            self.add_keyed(&[STRUCT, refused, KEYED_LEAF])?;
            self.add_keyed(&[STRUCT, KEYED_LEAF, refused])?;
            self.add_keyed(&[STRUCT, refused, WIDE, BARE_LEAF])?;
        }
        self.add_keyed(&["40 0 0 ~ ~ 00 0 N= 0"])?;
        self.add_keyed(&["32 9 0 ~ ~ 00 0 ~ 1", "40 0 0 ~ ~ ~ ~ ~ 0"])?;
        for broken in ["0 0 0 ~ ~ - 2 ~ 0", "0 0 0 ~ ~ - 0 ~ 1", "0 0 0 ~ ~ - 0 N=,M= 0", "0 0 0 ~ ~ ff 0 ~ 0"] {
            self.add_keyed(&[STRUCT, KEYED_LEAF, broken])?;
            self.add_keyed(&[STRUCT, WIDE, BARE_LEAF, broken])?;
        }
        self.add_keyed(&[STRUCT, KEYED_LEAF])?;
        self.add_keyed(&[KEYED_LEAF, LEAF])?;
        for (first, last) in [("N=", "~"), ("~", "M="), ("N=", "N=")] {
            for levels in [32, 33] {
                let mut lines = vec![format!("27 0 0 ~ ~ - 0 {first} 1")];
                lines.resize(levels - 1, "27 0 0 ~ ~ - 0 ~ 1".to_string());
                lines.push(format!("0 0 0 ~ ~ - 0 {last} 0"));
                self.add_keyed(&lines.iter().map(String::as_str).collect::<Vec<_>>())?;
            }
        }
        Ok(())
    }

    /// Causes that export never visits, at several depths; and what export would refuse there, which is no cause.
    fn strict_unvisited(&mut self) -> Result<(), String> {
        let causes: [&[&str]; 4] = [&[KEYED_LEAF], &["0 0 0 ~ ~ - 0 M=79 0"], &[WIDE, BARE_LEAF], &["40 0 0 ~ ~ 00 0 ~ 0"]];
        let above: [&[&str]; 4] = [
            &[EXTENSION, BARE_DICTIONARY, BARE_LIST],
            &[EXTENSION, BARE_EXTENSION, BARE_DICTIONARY, "31 0 0 ~ ~ ~ ~ ~ 1"],
            &[EXTENSION, BARE_DICTIONARY, BARE_EXTENSION, BARE_DICTIONARY, BARE_LIST, "27 0 0 ~ ~ - 0 ~ 1"],
            &["32 2 0 ~ ~ - 0 ~ 1", BARE_EXTENSION, BARE_DICTIONARY, "30 0 0 ~ ~ ~ ~ ~ 1"],
        ];
        for (above, cause) in above.iter().flat_map(|above| causes.iter().map(move |cause| (above, cause))) {
            self.add_keyed(&[*above, *cause].concat())?;
        }
        Ok(())
    }

    /// Each kind in its variants, alone, and the first of them in an extension.
    fn strict_kinds(&mut self) -> Result<(), String> {
        for kind in 0..=41 {
            for (variant, (numbers, below)) in kind_heads(kind).into_iter().enumerate() {
                let line = |own: &str| format!("{numbers} {own} {}", below.len());
                let alone = sheet_of(Kind::Field, &[&[&line("61 1 62=63")[..]], below].concat());
                self.add(strict(Order::Little), &alone, Ample)?;
                if variant == 0 {
                    let inside = sheet_of(Kind::Field, &[&["37 0 0 78 79 61 0 - 1", &line("~ ~ ~")[..]], below].concat());
                    self.add(strict(Order::Big), &inside, Ample)?;
                }
            }
        }
        Ok(())
    }

    fn strict_samples(&mut self) -> Result<(), String> {
        const SAMPLES: [&[u8]; 3] = [
            include_bytes!("../../../../samples/sweep.field"),
            include_bytes!("../../../../samples/trace.field"),
            include_bytes!("../../../../samples/report.field"),
        ];
        SAMPLES.into_iter().try_for_each(|sheet| self.add_strict(sheet, Ample))
    }

    /// Headings, lines and levels.
    fn strict_form(&mut self, seed: u64) -> Result<(), String> {
        let mut random = Random::new(seed);
        let sheet = keyed(&[KEYED_LEAF]);
        let heading = sheet.iter().position(|byte| *byte == b'\n').unwrap_or(0);
        let doubled = [&sheet[..], &sheet[heading + 1..]].concat();
        let other = sheet_of(Kind::Schema, &["6e - 0 ~ 0 0"]);
        for part in [&b""[..], &sheet[..heading], &sheet[..heading + 1], &sheet[..sheet.len() - 1], &doubled, &other] {
            self.add_strict(part, Ample)?;
        }
        for count in [31, 32, 33, 32, 33] {
            self.add_strict(&join_lines(Kind::Field, &levels(&mut random, Kind::Field, count)), Ample)?;
        }
        self.add_strict(&join_lines(Kind::Field, &huge_counts(&mut random, Kind::Field)), Ample)
    }

    /// One byte more than a sheet may have, with a cause; and an export that is longer than a sheet may be, which is answered.
    fn strict_limits(&mut self) -> Result<(), String> {
        let too_long = keyed(&[&format!("11 0 0 ~ ~ {} 0 N= 0", "61".repeat(32_715))]);
        let longer = keyed(&[&format!("6 0 0 ~ ~ {} 0 ~ 0", "61".repeat(32_733))]);
        self.add(strict(Order::Little), &too_long, Ample)?;
        self.add(strict(Order::Big), &longer, Exact)
    }

    /// The smallest cases that tell each wrong reading of strict export from the right one.
    fn strict_readings(&mut self, seed: u64) -> Result<(), String> {
        let readings = WRONG_READINGS.iter().map(|(wrong, _)| *wrong);
        let readings = readings.filter(|wrong| wrong.is_of_strict_export() && *wrong != Wrong::StrictLongIs1);
        let mut left: Vec<(Wrong, u8)> = readings.map(|wrong| (wrong, CASES)).collect();
        let mut generator = Generator::short(seed);
        for _ in 0..TRIED {
            if left.is_empty() {
                return Ok(());
            }
            let sheet = generator.strict_sheet();
            let request = strict(generator.random.pick(&ORDERS));
            let room = room(&mut generator.random, &self.answer(request, &sheet.bytes)?);
            self.add_smallest(&mut left, request, &sheet.bytes, room)?;
            left.retain(|(_, cases)| *cases > 0);
        }
        Err(format!("no short sheet tells these wrong readings: {left:?}"))
    }

    /// Generated sheets until each number came so often under each order.
    fn strict_generated(&mut self, seed: u64) -> Result<(), String> {
        let mut counts = [[0usize; NUMBERS]; ORDERS.len()];
        let mut generator = Generator::short(seed);
        for _ in 0..TRIED {
            let sheet = generator.strict_sheet();
            let request = strict(generator.random.pick(&ORDERS));
            let answered = self.answer(request, &sheet.bytes)?;
            let record = Record::of(request, room(&mut generator.random, &answered), &sheet.bytes, &answered);
            let count = &mut counts[request.order() as usize][record.number as usize];
            let short = record.number == LEVELS as u64 || record.input.len() + record.output.len() <= SHORT;
            if short && *count < strict_quota(record.number as u8) {
                *count += 1;
                self.add_room(request, &sheet.bytes, record.room as usize)?;
            }
        }
        Ok(())
    }
}

/// How many generated records of strict export with a number, under each order.
fn strict_quota(number: u8) -> usize {
    match number {
        0 => 30,
        RESERVED_KEY | WIDE_INDEX => 25,
        LINE => 6,
        HEADING | LEVELS => 1,
        _ => 4,
    }
}
