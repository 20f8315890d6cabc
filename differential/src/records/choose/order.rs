//! The records of big-endian metadata (document 02, #104), after all others and from random numbers of their own. Where the same bytes
//! mean something in the other order too, they are put to that as well.

use super::*;
use crate::generator::{block, hex};

/// The cases that each wrong reading is told by.
const CASES: u8 = 2;

const NAME: &str = "ARROW:extension:name";
const METADATA: &str = "ARROW:extension:metadata";

fn big(call: Call) -> Request {
    Request::under(call, Order::Big.number())
}

fn hex_string(bytes: &[u8]) -> String {
    String::from_utf8_lossy(&hex(bytes)).into_owned()
}

/// The column of a block with these pairs.
fn block_of(pairs: &[(&str, &str)], order: Order) -> String {
    let pairs: Vec<_> = pairs.iter().map(|(key, value)| (key.as_bytes().to_vec(), value.as_bytes().to_vec())).collect();
    hex_string(&block(&pairs, order))
}

impl Chooser<'_> {
    pub fn orders(&mut self, seed: u64) -> Result<(), String> {
        self.order_table()?;
        self.order_exports()?;
        self.order_signs()?;
        self.order_long_texts()?;
        self.order_refusals()?;
        self.order_bytes_past()?;
        self.order_128_pairs()?;
        self.order_reserved_keys()?;
        self.order_nested()?;
        self.order_dictionaries()?;
        self.order_form(seed)?;
        self.order_readings(seed.wrapping_add(4))?;
        self.order_generated(seed.wrapping_add(5))
    }

    /// The lines under both orders.
    fn add_orders(&mut self, call: Call, lines: &[&str]) -> Result<(), String> {
        let kind = if call == Call::Import { Kind::Schema } else { Kind::Field };
        for order in ORDERS {
            self.add(Request::under(call, order.number()), &sheet_of(kind, lines), Ample)?;
        }
        Ok(())
    }

    /// A leaf with the block, imported under both orders.
    fn add_block(&mut self, block: &str) -> Result<(), String> {
        self.add_orders(Call::Import, &[&format!("6e - 0 {block} 0 0")])
    }

    fn add_big(&mut self, call: Call, lines: &[&str], buffer: Buffer) -> Result<(), String> {
        let kind = if call == Call::Import { Kind::Schema } else { Kind::Field };
        self.add(big(call), &sheet_of(kind, lines), buffer)
    }

    /// One key in both orders, and twice; counts and lengths with a sign bit; texts that are not UTF-8, and cut short.
    fn order_table(&mut self) -> Result<(), String> {
        const BLOCKS: [&str; 9] = [
            "00000001000000016d0000000131",
            "01000000010000006d0100000031",
            "80000000",
            "00000080",
            "0000000180000000",
            "0000000100000001ff",
            "0000000100000002ff",
            "-",
            "00000002000000016d0000000131000000016d0000000132",
        ];
        for block in BLOCKS {
            self.add_block(block)?;
        }
        self.add_orders(Call::Export, &["37 0 0 78 ~ - 0 ~ 1", "0 0 0 ~ ~ ~ ~ ~ 0"])?;
        for buffer in [Exact, OneShort, Empty] {
            self.add_big(Call::Import, &[&format!("6e - 0 {} 0 0", BLOCKS[0])], buffer)?;
            self.add_big(Call::Export, &["0 0 0 ~ ~ - 0 6d=31 0"], buffer)?;
        }
        Ok(())
    }

    /// Pairs as a field has them, none and nothing among them; and the refusals, which come before any block is written.
    fn order_exports(&mut self) -> Result<(), String> {
        for pairs in ["~", "-", "=", "6d=31", "6d=", "=31", "6d=32,6e=", "41=,6d=c3a9,7a=e282ac"] {
            self.add_orders(Call::Export, &[&format!("0 0 0 ~ ~ - 0 {pairs} 0")])?;
        }
        self.add_big(Call::Export, &["30 0 0 ~ ~ - 0 6d=31 1", "40 0 0 ~ ~ - 0 6d=31 0"], Ample)?;
        self.add_big(Call::Export, &["41 0 0 - ~ - 0 6d=31 0"], Ample)?;
        self.add_big(Call::Export, &["0 0 0 ~ ~ 00 0 6d=31 0"], Ample)?;
        self.add_big(Call::Export, &["0 0 0 ~ ~ - 0 6d=31,6d=32 0"], Ample)
    }

    /// A count, the length of a key and that of a value, with a sign bit at either end, at both and at neither.
    fn order_signs(&mut self) -> Result<(), String> {
        const WORDS: [&str; 8] =
            ["80000000", "00000080", "ffffffff", "7fffffff", "ffffff7f", "000000ff", "80000001", "01000080"];
        for word in WORDS {
            self.add_block(&format!("{word}000000016d0000000131"))?;
            self.add_block(&format!("00000001{word}6d0000000131"))?;
            self.add_block(&format!("00000001000000016d{word}31"))?;
        }
        Ok(())
    }

    /// Lengths about the one where a sign bit would stand at the other end, and those of two bytes.
    fn order_long_texts(&mut self) -> Result<(), String> {
        for len in [127, 128, 255, 256, 300] {
            let text = "x".repeat(len);
            for order in ORDERS {
                self.add_block(&block_of(&[(&text, "")], order))?;
                self.add_block(&block_of(&[("k", &text)], order))?;
            }
            self.add_orders(Call::Export, &[&format!("0 0 0 ~ ~ - 0 {}=6b 0", "78".repeat(len))])?;
            self.add_orders(Call::Export, &[&format!("0 0 0 ~ ~ - 0 6b={} 0", "78".repeat(len))])?;
        }
        Ok(())
    }

    /// 11 and 5 in the order in which a block is read, and among the numbers of other lines and of the name.
    fn order_refusals(&mut self) -> Result<(), String> {
        const CUT: [&str; 8] = [
            "000000",
            "00000001",
            "000000010000",
            "0000000100000001",
            "00000001000000016d",
            "00000001000000016d000000",
            "00000001000000016d00000001",
            "00000002000000016d0000000131000000016d",
        ];
        const TEXTS: [&str; 6] = [
            "0000000100000001ff80000000",
            "0000000100000002ffff00",
            "00000001000000016d00000001ff",
            "00000001000000016d00000002ff",
            "00000002000000016d0000000131000000016d00000001ff",
            "0000000200000000000000016dffffffff",
        ];
        for block in CUT.into_iter().chain(TEXTS) {
            self.add_block(block)?;
        }
        let (cut, text) = (CUT[1], "0000000100000001ff");
        for (format, block, name) in [("6e", cut, "ff"), ("6e", "00000000", "ff"), ("78", cut, "-"), ("~", cut, "-")] {
            self.add_big(Call::Import, &[&format!("{format} {name} 0 {block} 0 0")], Ample)?;
        }
        self.add_big(Call::Import, &[&format!("2b6c - 0 {cut} 0 0")], Ample)?;
        self.add_big(Call::Import, &[&format!("6e - 0 {cut} 0 1"), "6e - 0 ~ 0 0"], Ample)?;
        for (list, item) in [(cut, text), (text, cut)] {
            self.add_big(Call::Import, &[&format!("2b6c - 0 {list} 1 0"), &format!("6e - 0 {item} 0 0")], Ample)?;
        }
        self.add_big(Call::Import, &["6e - 0 00000000 1 0", &format!("6e - 0 {cut} 0 0")], Ample)
    }

    /// After a pair, after no pairs, and after a count below 0.
    fn order_bytes_past(&mut self) -> Result<(), String> {
        for block in ["00000001000000016d0000000131", "00000000", "ffffffff", "80000000"] {
            for past in ["ff", "000000", "00000001", "8000000080000000"] {
                self.add_block(&format!("{block}{past}"))?;
            }
        }
        Ok(())
    }

    /// Each order's count of 128 is a negative one of the other, which gives no pairs and is not refused.
    fn order_128_pairs(&mut self) -> Result<(), String> {
        let pairs: Vec<String> = (0..128).map(|key| format!("{key:02x}=")).collect();
        let field = sheet_of(Kind::Field, &[&format!("0 0 0 ~ ~ - 0 {} 0", pairs.join(","))]);
        for order in ORDERS {
            let export = Request::under(Call::Export, order.number());
            self.add(export, &field, Ample)?;
            let Ok(Answer::Sheet(schema)) = self.answer(export, &field)? else {
                return Err("128 pairs cannot be exported".to_string());
            };
            for order in ORDERS {
                self.add(Request::under(Call::Import, order.number()), &schema, Ample)?;
            }
        }
        Ok(())
    }

    /// What makes an extension, what is dropped, and what export writes over.
    fn order_reserved_keys(&mut self) -> Result<(), String> {
        let blocks: [&[(&str, &str)]; 8] = [
            &[(NAME, "x")],
            &[(NAME, "")],
            &[(NAME, "x"), (METADATA, "y")],
            &[(METADATA, ""), ("m", "1"), (NAME, "x"), ("A", "2")],
            &[(METADATA, "y")],
            &[(NAME, "x"), (NAME, "z")],
            &[("ARROW:extension:names", "x"), ("ARROW:extension:nam", "y")],
            &[("eman:noisnetxe:WORRA", "x")],
        ];
        for pairs in blocks {
            self.add_block(&block_of(pairs, Order::Big))?;
        }
        let (name, metadata) = (hex_string(NAME.as_bytes()), hex_string(METADATA.as_bytes()));
        let both = format!("41=,{metadata}=31,{name}=32,6d=33");
        for (text, more) in [("78", "~"), ("78", "79"), ("-", "-")] {
            for pairs in ["~", "41=,6d=31", &both] {
                let first = format!("37 0 0 {text} {more} - 0 {pairs} 1");
                self.add_big(Call::Export, &[&first, "0 0 0 ~ ~ ~ ~ ~ 0"], Ample)?;
                self.add_big(Call::Export, &[&first, "37 0 0 77 76 ~ ~ ~ 1", "0 0 0 ~ ~ ~ ~ ~ 0"], Ample)?;
            }
        }
        self.add_big(Call::Export, &[&format!("0 0 0 ~ ~ - 0 {both} 0")], Ample)
    }

    /// Blocks on every line of a tree, all of one order, and one of them of the other; the field that they give, and its exports.
    fn order_nested(&mut self) -> Result<(), String> {
        let lines = |other: Option<usize>| -> Vec<String> {
            let column = |place: usize, pairs: &[(&str, &str)]| {
                block_of(pairs, if other == Some(place) { Order::Little } else { Order::Big })
            };
            vec![
                format!("2b73 73 0 {} 4 0", column(0, &[("s", "1")])),
                format!("2b6c 6c 2 {} 1 0", column(1, &[("l", "2"), (NAME, "x")])),
                format!("67 69 2 {} 0 0", column(2, &[("i", ""), ("", "j")])),
                format!("2b75643a37 75 0 {} 1 0", column(3, &[("u", "3")])),
                format!("75 76 2 {} 0 0", column(4, &[(METADATA, "y"), (NAME, "z")])),
                format!("2b6d 6d 4 {} 1 0", column(5, &[("m", "4")])),
                format!("2b73 65 0 {} 0 0", column(6, &[("e", "5")])),
                format!("73 64 1 {} 0 1", column(7, &[("d", "6")])),
                format!("2b6c - 2 {} 1 0", column(8, &[(NAME, "v")])),
                format!("6e 6e 0 {} 0 0", column(9, &[("n", "7")])),
            ]
        };
        let sheet = |other: Option<usize>| {
            let lines = lines(other);
            sheet_of(Kind::Schema, &lines.iter().map(String::as_str).collect::<Vec<_>>())
        };
        for order in ORDERS {
            self.add(Request::under(Call::Import, order.number()), &sheet(None), Ample)?;
        }
        for place in 0..10 {
            self.add(big(Call::Import), &sheet(Some(place)), Ample)?;
        }
        let Ok(Answer::Sheet(field)) = self.answer(big(Call::Import), &sheet(None))? else {
            return Err("the nested sheet cannot be imported".to_string());
        };
        for order in ORDERS {
            self.add(Request::under(Call::Export, order.number()), &field, Ample)?;
        }
        self.add(big(Call::Export), &field, OneShort)
    }

    /// Dictionaries with an extension of their own, of their values, and directly under one.
    fn order_dictionaries(&mut self) -> Result<(), String> {
        let extension = |name: &str, order: Order| block_of(&[(NAME, name), ("unit", "dB")], order);
        for (own, values) in [(Order::Big, Order::Big), (Order::Big, Order::Little), (Order::Little, Order::Big)] {
            let first = format!("69 7472616365 3 {} 0 1", extension("sweep.trace", own));
            self.add_big(Call::Import, &[&first, &format!("75 - 2 {} 0 0", extension("v", values))], Ample)?;
        }
        const DICTIONARY: &str = "32 2 1 ~ ~ 64 1 6d=31 1";
        const BARE_DICTIONARY: &str = "32 2 1 ~ ~ ~ ~ ~ 1";
        const EXTENSION: &str = "37 0 0 78 79 65 0 6d=31 1";
        const BARE_EXTENSION: &str = "37 0 0 7a ~ ~ ~ ~ 1";
        const BARE_LEAF: &str = "25 0 0 ~ ~ ~ ~ ~ 0";
        let chains: [&[&str]; 4] = [
            &[DICTIONARY, BARE_EXTENSION, BARE_LEAF],
            &[EXTENSION, BARE_DICTIONARY, BARE_LEAF],
            &[EXTENSION, BARE_DICTIONARY, BARE_EXTENSION, BARE_LEAF],
            &[DICTIONARY, BARE_DICTIONARY, BARE_EXTENSION, BARE_LEAF],
        ];
        for chain in chains {
            self.add_orders(Call::Export, chain)?;
        }
        Ok(())
    }

    /// Headings, lines and levels are tested before any block.
    fn order_form(&mut self, seed: u64) -> Result<(), String> {
        let mut random = Random::new(seed);
        for (call, kind, line) in
            [(Call::Import, Kind::Schema, "6e - 0 00000001 0 0"), (Call::Export, Kind::Field, "0 0 0 ~ ~ - 0 6d=31 0")]
        {
            let sheet = sheet_of(kind, &[line]);
            let heading = sheet.iter().position(|byte| *byte == b'\n').unwrap_or(0);
            let doubled = [&sheet[..], &sheet[heading + 1..]].concat();
            let other = sheet_of(if kind == Kind::Schema { Kind::Field } else { Kind::Schema }, &[line]);
            for part in [&b""[..], &sheet[..heading], &sheet[..heading + 1], &sheet[..sheet.len() - 1], &doubled, &other] {
                self.add(big(call), part, Ample)?;
            }
            for count in [32, 33] {
                self.add(big(call), &join_lines(kind, &levels(&mut random, kind, count)), Ample)?;
            }
        }
        self.add_big(Call::Import, &["6e - 0 000 0 0"], Ample)?;
        self.add_big(Call::Import, &["6e - 0 0000000G 0 0"], Ample)
    }

    /// The smallest cases that tell each wrong reading of big-endian metadata from the right one.
    fn order_readings(&mut self, seed: u64) -> Result<(), String> {
        let readings = WRONG_READINGS.iter().map(|(wrong, _)| *wrong).filter(|wrong| wrong.is_of_order());
        let mut left: Vec<(Wrong, u8)> = readings.map(|wrong| (wrong, CASES)).collect();
        let mut generator = Generator::short_with_both_orders(seed);
        for _ in 0..TRIED {
            if left.is_empty() {
                return Ok(());
            }
            let sheet = generator.sheet();
            let request = big_request(&sheet);
            let room = room(&mut generator.random, &self.answer(request, &sheet.bytes)?);
            self.add_smallest(&mut left, request, &sheet.bytes, room)?;
            left.retain(|(_, cases)| *cases > 0);
        }
        Err(format!("no short sheet tells these wrong readings: {left:?}"))
    }

    /// Generated sheets until each number came so often; those that are answered are such as the other order answers otherwise.
    fn order_generated(&mut self, seed: u64) -> Result<(), String> {
        let mut counts = [[0usize; NUMBERS]; CALLS.len()];
        let mut generator = Generator::short_with_both_orders(seed);
        for _ in 0..TRIED {
            let sheet = generator.sheet();
            let request = big_request(&sheet);
            let answered = self.answer(request, &sheet.bytes)?;
            let record = Record::of(request, room(&mut generator.random, &answered), &sheet.bytes, &answered);
            let count = &mut counts[request.call as usize][record.number as usize];
            let short = record.input.len() + record.output.len() <= SHORT;
            if !short || *count >= order_quota(request.call, record.number as u8) {
                continue;
            }
            if answered.is_err() || self.answer(Request::new(request.call, 0), &sheet.bytes)? != answered {
                *count += 1;
                self.add_room(request, &sheet.bytes, record.room as usize)?;
            }
        }
        Ok(())
    }
}

/// The call under the big-endian order that reads the sheet.
fn big_request(sheet: &Sheet) -> Request {
    match sheet.kind {
        Kind::Schema => big(Call::Import),
        Kind::Field => big(Call::Export),
    }
}

/// How many generated records of a call under the big-endian order with a number.
fn order_quota(call: Call, number: u8) -> usize {
    match (call, number) {
        (_, 0) => 60,
        (Call::Import, NOT_UTF8 | METADATA_CUT) => 20,
        (_, BUFFER_SHORT) => 12,
        _ => 4,
    }
}
