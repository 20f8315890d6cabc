//! The records of the page, after all others and from random numbers of their own.

use super::*;

/// Generated records of the page are shorter than the others: a page has three times the bytes of its sheet.
const SHORT_PAGE: usize = 400;
/// The cases that each wrong reading is told by.
const CASES: u8 = 2;

const PAGE: Request = Request { call: Call::Page, argument: 0 };

impl Chooser<'_> {
    pub fn pages(&mut self, seed: u64) -> Result<(), String> {
        self.page_of_sample()?;
        self.page_kinds()?;
        self.page_names()?;
        self.page_bare_lines()?;
        self.page_form()?;
        self.page_levels()?;
        self.page_limits()?;
        self.page_readings(seed.wrapping_add(2))?;
        self.page_generated(seed.wrapping_add(3))
    }

    fn add_page(&mut self, lines: &[&str], buffer: Buffer) -> Result<(), String> {
        self.add(PAGE, &sheet_of(Kind::Field, lines), buffer)
    }

    fn page_of_sample(&mut self) -> Result<(), String> {
        const SAMPLE: &[u8] = include_bytes!("../../../../samples/sweep.field");
        self.add(PAGE, SAMPLE, Ample)?;
        self.add(PAGE, SAMPLE, OneShort)
    }

    /// Each kind in its variants, the first of them also without a name, in an extension.
    fn page_kinds(&mut self) -> Result<(), String> {
        for kind in 0..=41 {
            for (variant, (numbers, below)) in kind_heads(kind).into_iter().enumerate() {
                let line = |own: &str| format!("{numbers} {own} {}", below.len());
                let named = line(if kind % 2 == 0 { "6b 1 62=63" } else { "6b 0 ~" });
                let alone = [&[&named[..]], below].concat();
                self.add_page(&alone, Ample)?;
                if variant == 0 {
                    let bare = line("~ ~ ~");
                    self.add_page(&[&["37 0 0 78 ~ 61 0 - 1", &bare], below].concat(), Ample)?;
                }
            }
        }
        Ok(())
    }

    /// Names about the 24 bytes that are shown, and characters across that place.
    fn page_names(&mut self) -> Result<(), String> {
        let line = |name: &[u8], nullable: bool| {
            let name = String::from_utf8_lossy(&hex_text(Some(name))).into_owned();
            format!("14 0 0 ~ ~ {name} {} ~ 0", nullable as u8)
        };
        for count in [0, 1, 2, 12, 22, 23, 24, 25, 26, 48, 49, 128, 255, 256] {
            self.add_page(&[&line(&b"n".repeat(count), count % 2 == 0)], Exact)?;
        }
        let characters: [&[u8]; 3] = [b"\xc3\xa9", b"\xe2\x82\xac", b"\xf0\x9f\x93\x88"];
        for character in characters {
            // from the last place where it is shown whole to the first where nothing of it is
            for before in 24 - character.len()..=24 {
                self.add_page(&[&line(&[&b"n".repeat(before), character].concat(), false)], Exact)?;
            }
        }
        for name in [&b"\0"[..], b" ", b"+", b"~", b"-", b"\n", b"\x7f", &[0; 25]] {
            self.add_page(&[&line(name, true)], Exact)?;
        }
        Ok(())
    }

    /// Bare lines under dictionaries and extensions, and what is below those.
    fn page_bare_lines(&mut self) -> Result<(), String> {
        const EXTENSION: &str = "37 0 0 78 ~ 65 1 ~ 1";
        const BARE_EXTENSION: &str = "37 0 0 79 7a ~ ~ ~ 1";
        const DICTIONARY: &str = "32 2 1 ~ ~ 64 0 ~ 1";
        const BARE_DICTIONARY: &str = "32 5 0 ~ ~ ~ ~ ~ 1";
        const BARE_LIST: &str = "27 0 0 ~ ~ ~ ~ ~ 1";
        const BARE_STRUCT: &str = "30 0 0 ~ ~ ~ ~ ~ 2";
        const LEAF: &str = "14 0 0 ~ ~ - 0 ~ 0";
        const BARE_LEAF: &str = "7 0 0 ~ ~ ~ ~ ~ 0";
        let chains: [&[&str]; 12] = [
            &[DICTIONARY, BARE_LEAF],
            &[DICTIONARY, BARE_DICTIONARY, BARE_LEAF],
            &[DICTIONARY, BARE_LIST, LEAF],
            &[DICTIONARY, BARE_EXTENSION, BARE_LEAF],
            &[DICTIONARY, BARE_EXTENSION, BARE_EXTENSION, BARE_LEAF],
            &[EXTENSION, BARE_DICTIONARY, BARE_LEAF],
            &[EXTENSION, BARE_DICTIONARY, BARE_EXTENSION, BARE_LIST, LEAF],
            &[EXTENSION, BARE_LIST, LEAF],
            &[EXTENSION, BARE_EXTENSION, BARE_LIST, LEAF],
            &[EXTENSION, BARE_EXTENSION, BARE_EXTENSION, BARE_LEAF],
            &[EXTENSION, BARE_LIST, EXTENSION, BARE_EXTENSION, BARE_LEAF],
            &[EXTENSION, BARE_EXTENSION, BARE_STRUCT, EXTENSION, BARE_LIST, LEAF, DICTIONARY, BARE_STRUCT, LEAF, LEAF],
        ];
        for chain in chains {
            self.add_page(chain, Exact)?;
        }
        self.add_page(chains[11], OneShort)?;
        // a line left out, and one with a name where it is to be bare
        self.add_page(&chains[11][..9], Ample)?;
        self.add_page(&[DICTIONARY, LEAF], Ample)?;
        self.add_page(&[BARE_LEAF], Ample)
    }

    /// Headings and line ends, and buffers.
    fn page_form(&mut self) -> Result<(), String> {
        let sheet = sheet_of(Kind::Field, &["14 0 0 ~ ~ 61 0 ~ 0"]);
        let schema = sheet_of(Kind::Schema, &["67 61 0 ~ 0 0"]);
        let heading = sheet.iter().position(|byte| *byte == b'\n').unwrap_or(0);
        let open = &sheet[..sheet.len() - 1];
        let doubled = [&sheet[..], &sheet[heading + 1..]].concat();
        let carriage = [&sheet[..heading], b"\r", &sheet[heading..]].concat();
        for part in [&b""[..], &sheet[..heading], &sheet[..heading + 1], open, &doubled, &carriage, &schema, &sheet] {
            self.add(PAGE, part, Ample)?;
            self.add(PAGE, part, Empty)?;
        }
        self.add(PAGE, &sheet, Exact)?;
        self.add(PAGE, &sheet, OneShort)?;
        let two = sheet_of(Kind::Field, &["27 0 0 ~ ~ 61 1 ~ 1", "14 0 0 ~ ~ 69 0 ~ 0"]);
        for room in [146, 147, 145, 73, 1] {
            self.add_room(PAGE, &two, room)?;
        }
        Ok(())
    }

    /// 31 to 33 levels by lists, dictionaries, extensions, and lists that are each in an extension.
    fn page_levels(&mut self) -> Result<(), String> {
        // the lines of a level, under a line with a name or a bare one, and whether it leaves what is below bare
        const WAYS: [(&[&str], &[&str], bool); 4] = [
            (&["27 0 0 ~ ~ 70 1 ~ 1"], &[], false),
            (&["32 2 1 ~ ~ 70 1 ~ 1"], &["32 2 1 ~ ~ ~ ~ ~ 1"], true),
            (&["37 0 0 78 ~ 70 1 ~ 1"], &["37 0 0 78 ~ ~ ~ ~ 1"], true),
            (&["37 0 0 78 ~ 70 1 ~ 1", "27 0 0 ~ ~ ~ ~ ~ 1"], &[], false),
        ];
        for (place, (named, bare, leaves_bare)) in WAYS.into_iter().enumerate() {
            for levels in [31, 32, 33] {
                // an extension's inner line is on its level, so that a chain of extensions has its leaf there
                let above = if place == 2 { levels } else { levels - 1 };
                let next = if leaves_bare { bare } else { named };
                let mut lines = named.to_vec();
                (1..above).for_each(|_| lines.extend(next));
                lines.push(if leaves_bare { "14 0 0 ~ ~ ~ ~ ~ 0" } else { "14 0 0 ~ ~ 69 0 ~ 0" });
                self.add_page(&lines, if levels == 31 { OneShort } else { Exact })?;
            }
        }
        Ok(())
    }

    /// The longest sheets, whose pages are short, and counts of children that no sheet has.
    fn page_limits(&mut self) -> Result<(), String> {
        self.add(PAGE, &long_name(Kind::Field, 65_535), Exact)?;
        self.add(PAGE, &long_name(Kind::Field, 65_536), Ample)?;
        for count in ["9223372036854775807", "18446744073709551615", "18446744073709551616", "1"] {
            self.add_page(&[&format!("30 0 0 ~ ~ - 0 ~ {count}")], Ample)?;
        }
        Ok(())
    }

    /// The smallest cases that tell each wrong reading of the page from the right one.
    fn page_readings(&mut self, seed: u64) -> Result<(), String> {
        let readings = WRONG_READINGS.iter().map(|(wrong, _)| *wrong).filter(|wrong| wrong.is_of_page());
        let mut left: Vec<(Wrong, u8)> = readings.map(|wrong| (wrong, CASES)).collect();
        let mut generator = Generator::short_with_long_names(seed);
        for _ in 0..TRIED {
            if left.is_empty() {
                return Ok(());
            }
            let sheet = generator.sheet_of(Kind::Field).bytes;
            if sheet.len() > SHORT_PAGE {
                continue;
            }
            let room = room(&mut generator.random, &self.answer(PAGE, &sheet)?);
            self.add_smallest(&mut left, PAGE, &sheet, room)?;
            left.retain(|(_, cases)| *cases > 0);
        }
        Err(format!("no short sheet tells these wrong readings: {left:?}"))
    }

    /// Generated sheets until each number came so often.
    fn page_generated(&mut self, seed: u64) -> Result<(), String> {
        let mut counts = [0usize; NUMBERS];
        let mut generator = Generator::short_with_long_names(seed);
        for _ in 0..TRIED {
            let sheet = generator.sheet_of(Kind::Field).bytes;
            let answered = self.answer(PAGE, &sheet)?;
            let record = Record::of(PAGE, room(&mut generator.random, &answered), &sheet, &answered);
            let count = &mut counts[record.number as usize];
            // no sheet that short has too many levels
            let short = record.number == LEVELS as u64 || record.input.len() + record.output.len() <= SHORT_PAGE;
            if short && *count < page_quota(record.number as u8) {
                *count += 1;
                self.add_room(PAGE, &sheet, record.room as usize)?;
            }
        }
        Ok(())
    }
}

/// How many generated records of the page with a number.
fn page_quota(number: u8) -> usize {
    match number {
        0 => 40,
        LINE => 16,
        BUFFER_SHORT => 16,
        LEVELS => 4,
        _ => 6,
    }
}
