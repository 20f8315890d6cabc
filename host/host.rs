//! A Rust host: links the static library and calls it on valid, broken, empty and oversized sheets, takes fields out and back and into pages, and tries
//! metadata in both byte orders, what import and export measure, what strict export refuses, and the mappings on every kind. The status is 0 only if every
//! answer was the expected one.

#[path = "rust/src/raw.rs"]
mod juzontefa;
mod mappings;
mod measures;
mod orders;
mod strict;

use std::process::ExitCode;

use juzontefa::*;

/// What a round trip answers, as far as it is tried here; include/juzontefa.h has all seven.
const ALL_SAME: u64 = 0;
const EXPORT_REFUSED: u64 = 1;
const IMPORT_REFUSED: u64 = 2;
const IMPORT_DIFFERS: u64 = 5;

/// The length of the answer to a sheet, written into a buffer, or the refusal's number.
type Call<'a> = &'a dyn Fn(&[u8], &mut [u8]) -> Result<usize, u64>;

fn told(answer: Answer) -> Result<usize, u64> {
    match answer.number {
        0 => Ok(answer.length as usize),
        number => Err(number),
    }
}

fn of(call: ToSheet) -> impl Fn(&[u8], &mut [u8]) -> Result<usize, u64> {
    // SAFETY: both slices are live and do not overlap; the library keeps to their lengths and changes only `out`.
    move |sheet, out| told(unsafe { call(sheet.as_ptr(), sheet.len(), out.as_mut_ptr(), out.len()) })
}

/// A round trip: without an order, with one, or with strict exports.
#[derive(Clone, Copy)]
enum Way {
    Little,
    With(u64),
    Strict(u64),
}

/// The round trip of a field sheet; the buffers get its export, the import of that, its plain form, and the export of that.
fn round_trip(sheet: &[u8], way: Way, buffers: &mut [Vec<u8>; 4]) -> Trip {
    let [a, b, c, d] = buffers;
    let (at, len) = (sheet.as_ptr(), sheet.len());
    // SAFETY: as above; the four buffers are different vectors.
    unsafe {
        let (first, second) = ((a.as_mut_ptr(), a.len()), (b.as_mut_ptr(), b.len()));
        let (third, fourth) = ((c.as_mut_ptr(), c.len()), (d.as_mut_ptr(), d.len()));
        match way {
            Way::Little => juzontefa_round_trip(at, len, first.0, first.1, second.0, second.1, third.0, third.1, fourth.0, fourth.1),
            Way::With(big) => juzontefa_round_trip_with_order(
                at, len, big, first.0, first.1, second.0, second.1, third.0, third.1, fourth.0, fourth.1,
            ),
            Way::Strict(big) => juzontefa_strict_round_trip(
                at, len, big, first.0, first.1, second.0, second.1, third.0, third.1, fourth.0, fourth.1,
            ),
        }
    }
}

const SCHEMA: &str = "format name flags metadata children dictionary\n";
const FIELD: &str = "kind p q text more name nullable pairs children\n";
const ROOM: usize = 98_304;

/// What was tried, and what of it was wrong.
#[derive(Default)]
struct Tries {
    tried: usize,
    wrong: Vec<String>,
}

impl Tries {
    fn count(&mut self, right: bool, what: &str) {
        self.tried += 1;
        if !right {
            self.wrong.push(what.to_string());
        }
    }

    /// The answer, every byte of the buffer and the input are as expected.
    fn expect(&mut self, call: Call, what: &str, sheet: &[u8], room: usize, expected: Result<&str, u64>) {
        let before = sheet.to_vec();
        let mut out = vec![7u8; room];
        let right = match (call(sheet, &mut out), expected) {
            (Ok(length), Ok(answer)) => length == answer.len() && holds(&out, Some(answer)),
            (Err(number), Err(wanted)) => number == wanted && holds(&out, None),
            _ => false,
        };
        self.count(right && sheet == before, what);
    }

    fn answered(&mut self, call: Call, what: &str, sheet: &str, answer: &str) {
        for (room, expected) in [(ROOM, Ok(answer)), (answer.len(), Ok(answer)), (answer.len() - 1, Err(16)), (0, Err(16))] {
            self.expect(call, &format!("{what}, {room} bytes"), sheet.as_bytes(), room, expected);
        }
    }

    /// An answer, with all kinds of buffers, or a refusal with room and without.
    fn gives(&mut self, call: Call, what: &str, sheet: &str, expected: Result<String, u64>) {
        match expected {
            Ok(answer) => self.answered(call, what, sheet, &answer),
            Err(number) => [ROOM, 0].iter().for_each(|room| self.expect(call, what, sheet.as_bytes(), *room, Err(number))),
        }
    }

    /// What every call refuses: `line` has one child, `leaf` none.
    fn broken(&mut self, call: Call, heading: &str, line: &str, leaf: &str) {
        let one = format!("{heading}{leaf}");
        let tries: [(&str, Vec<u8>, u64); 6] = [
            ("empty", Vec::new(), 1),
            ("oversized", vec![b'x'; 65_536], 1),
            ("cut short", one[..one.len() - 1].into(), 2),
            ("left over", format!("{one}{leaf}").into(), 2),
            ("missing", format!("{heading}{line}").into(), 2),
            ("33 levels", format!("{heading}{}{leaf}", line.repeat(32)).into(), 3),
        ];
        for (what, sheet, number) in &tries {
            self.expect(call, what, sheet, ROOM, Err(*number));
            self.expect(call, what, sheet, 0, Err(*number));
        }
    }

    /// The answer, and every byte of the four buffers: the sheets, or zeros in all four.
    fn trip(&mut self, what: &str, sheet: &str, way: Way, rooms: [usize; 4], expected: Trip, sheets: Option<[&str; 4]>) {
        let before = sheet.to_string();
        let mut buffers = rooms.map(|room| vec![7u8; room]);
        let told = round_trip(sheet.as_bytes(), way, &mut buffers);
        let held = (0..4).all(|step| holds(&buffers[step], sheets.map(|sheets| sheets[step])));
        self.count(told == expected && held && sheet == before, what);
    }

    /// A field with its export and its plain form.
    fn field(&mut self, what: &str, field: &str, exported: &str, plain: &str) {
        self.answered(&of(juzontefa_export), what, field, exported);
        self.answered(&of(juzontefa_plain_form), what, field, plain);
        self.comes_back(what, field, Way::Little, exported, plain);
    }

    /// A field that comes back as its plain form, with all kinds of buffers.
    fn comes_back(&mut self, what: &str, field: &str, way: Way, exported: &str, plain: &str) {
        let sheets = [exported, plain, plain, exported];
        let exact = sheets.map(str::len);
        self.trip(what, field, way, [ROOM; 4], Trip { answer: ALL_SAME, number: 0 }, Some(sheets));
        self.trip(what, field, way, exact, Trip { answer: ALL_SAME, number: 0 }, Some(sheets));
        for step in 0..4 {
            let mut rooms = exact;
            rooms[step] -= 1;
            self.trip(what, field, way, rooms, Trip { answer: EXPORT_REFUSED + step as u64, number: 16 }, None);
        }
    }
}

/// The answer and sevens, or zeros where there is none.
fn holds(buffer: &[u8], answer: Option<&str>) -> bool {
    match answer {
        Some(answer) => buffer.starts_with(answer.as_bytes()) && buffer[answer.len()..].iter().all(|&byte| byte == 7),
        None => buffer.iter().all(|&byte| byte == 0),
    }
}

fn imports(tries: &mut Tries) {
    let valid = format!("{SCHEMA}2b6c 7065616b 2 ~ 1 0\n67 6974656d 0 ~ 0 0\n");
    let answer = format!("{FIELD}27 0 0 ~ ~ 7065616b 1 ~ 1\n14 0 0 ~ ~ 6974656d 0 ~ 0\n");
    let many = format!("{SCHEMA}2b73 - 0 ~ 3446 0\n{}", "67 - 0 ~ 0 0\n".repeat(3446));
    tries.answered(&of(juzontefa_import), "a list of peaks", &valid, &answer);
    // Nullable is the flags' bit of value 2.
    for (flags, nullable) in [(-1, 1), (-2, 1), (-3, 0), (4, 0), (i64::MIN + 1, 0), (i64::MIN + 2, 1)] {
        let (valid, answer) = (format!("{SCHEMA}67 70 {flags} ~ 0 0\n"), format!("{FIELD}14 0 0 ~ ~ 70 {nullable} ~ 0\n"));
        tries.answered(&of(juzontefa_import), &format!("flags {flags}"), &valid, &answer);
    }
    tries.broken(&of(juzontefa_import), SCHEMA, "2b6c 70 2 ~ 1 0\n", "67 69 0 ~ 0 0\n");
    tries.expect(&of(juzontefa_import), "null format", format!("{SCHEMA}~ - 0 ~ 0 0\n").as_bytes(), ROOM, Err(4));
    tries.expect(&of(juzontefa_import), "longer than 65,536 bytes", many.as_bytes(), 65_536, Err(16));
}

fn fields(tries: &mut Tries) {
    for call in [juzontefa_export as ToSheet, juzontefa_plain_form as ToSheet, juzontefa_page as ToSheet] {
        tries.broken(&of(call), FIELD, "27 0 0 ~ ~ 70 1 ~ 1\n", "14 0 0 ~ ~ 69 0 ~ 0\n");
    }
    let named = "01000000140000004152524f573a657874656e73696f6e3a6e616d650100000078"; // ARROW:extension:name = x
    let lines = [
        (
            "a list of peaks",
            "27 0 0 ~ ~ 70 1 ~ 1\n14 0 0 ~ ~ 69 0 ~ 0\n",
            "2b6c 70 2 ~ 1 0\n67 69 0 ~ 0 0\n",
            "27 0 0 ~ ~ 70 1 ~ 1\n14 0 0 ~ ~ 69 0 ~ 0\n",
        ),
        (
            "a dictionary under an extension",
            "37 0 0 78 ~ 70 1 ~ 1\n32 2 1 ~ ~ ~ ~ ~ 1\n25 0 0 ~ ~ ~ ~ ~ 0\n",
            "69 70 2 NAMED 0 0\n",
            "37 0 0 78 ~ 70 1 ~ 1\n4 0 0 ~ ~ ~ ~ ~ 0\n",
        ),
        (
            "nested extensions",
            "37 0 0 78 ~ 70 1 - 1\n37 0 0 79 7a ~ ~ ~ 1\n25 0 0 ~ ~ ~ ~ ~ 0\n",
            "75 70 2 NAMED 0 0\n",
            "37 0 0 78 ~ 70 1 ~ 1\n25 0 0 ~ ~ ~ ~ ~ 0\n",
        ),
        (
            "a union without ids",
            "41 0 0 ~ ~ 75 0 ~ 1\n15 0 0 - ~ 62 0 ~ 0\n",
            "2b75643a30 75 0 ~ 1 0\n7473733a 62 0 ~ 0 0\n",
            "41 0 0 0 ~ 75 0 ~ 1\n15 0 0 ~ ~ 62 0 ~ 0\n",
        ),
    ];
    for (what, field, exported, plain) in lines {
        let exported = exported.replace("NAMED", named);
        tries.field(what, &format!("{FIELD}{field}"), &format!("{SCHEMA}{exported}"), &format!("{FIELD}{plain}"));
    }
    let refused = [
        ("no format", "40 0 0 ~ ~ 70 1 ~ 0\n", EXPORT_REFUSED, 12),
        ("no ids", "41 0 0 - ~ 70 1 ~ 0\n", EXPORT_REFUSED, 13),
        ("byte 00", "4 0 0 ~ ~ 00 1 ~ 0\n", EXPORT_REFUSED, 14),
        ("an index of 128 bits", "32 9 0 ~ ~ 70 1 ~ 1\n25 0 0 ~ ~ ~ ~ ~ 0\n", IMPORT_REFUSED, 9),
    ];
    for (what, field, answer, number) in refused {
        tries.trip(what, &format!("{FIELD}{field}"), Way::Little, [ROOM; 4], Trip { answer, number }, None);
    }
    tries.trip("empty", "", Way::Little, [ROOM; 4], Trip { answer: EXPORT_REFUSED, number: 1 }, None);
    let own = format!("{FIELD}4 0 0 ~ ~ 70 1 4152524f573a657874656e73696f6e3a6e616d65=78 0\n");
    let exported = format!("{SCHEMA}69 70 2 {named} 0 0\n");
    let imported = format!("{FIELD}37 0 0 78 ~ 70 1 ~ 1\n4 0 0 ~ ~ ~ ~ ~ 0\n");
    let differs = Trip { answer: IMPORT_DIFFERS, number: 0 };
    tries.trip("a reserved key", &own, Way::Little, [ROOM; 4], differs, Some([&exported, &imported, &own, &exported]));
}

/// A line of a page, as the standard library justifies it.
fn page_line((level, kind, mark, name): (usize, &str, char, &str)) -> String {
    let (shown, cut) = if name.len() > 48 { (&name[..48], '+') } else { (name, ' ') };
    format!("{level:>3} {kind:<16} {mark} {shown:<48}{cut}\n")
}

fn pages(tries: &mut Tries) {
    let [n23, n24, n25] = [23, 24, 25].map(|count| "6e".repeat(count));
    let names = format!("30 0 0 ~ ~ {n23} 0 ~ 3\n23 16 0 ~ ~ {n24} 1 ~ 0\n40 0 0 ~ ~ {n25} 0 ~ 0\n41 0 0 - ~ {n23}c3a9 1 ~ 0\n");
    let parted = format!("{n23}c3a9");
    let named = [(1, "Struct", 'n', &n23[..]), (2, "FixedSizeBinary", 'y', &n24), (2, "Unknown", 'n', &n25), (2, "Union", 'y', &parted)];
    let listed = [(1, "List", 'n', "70"), (2, "Extension", 'y', "69"), (2, "UInt128", '.', "")];
    let extended = [(1, "Extension", 'y', ""), (2, "Extension", '.', ""), (2, "Dictionary", '.', ""), (3, "Timestamp", '.', "")];
    let tables: [(&str, &str, &[_]); 4] = [
        ("a page of one leaf", "14 0 0 ~ ~ 7065616b 1 ~ 0\n", &[(1, "Float64", 'y', "7065616b")]),
        ("a page of a list", "27 0 0 ~ ~ 70 0 ~ 1\n37 0 0 78 ~ 69 1 ~ 1\n11 0 0 ~ ~ ~ ~ ~ 0\n", &listed),
        ("a page of extensions", "37 0 0 78 ~ - 1 - 1\n37 0 0 79 7a ~ ~ ~ 1\n32 2 1 ~ ~ ~ ~ ~ 1\n15 0 0 - ~ ~ ~ ~ 0\n", &extended),
        ("a page of names", &names, &named),
    ];
    for (what, field, lines) in tables {
        let page: String = lines.iter().copied().map(page_line).collect();
        tries.answered(&of(juzontefa_page), what, &format!("{FIELD}{field}"), &page);
    }
}

fn main() -> ExitCode {
    let mut tries = Tries::default();
    imports(&mut tries);
    fields(&mut tries);
    pages(&mut tries);
    orders::orders(&mut tries);
    measures::measures(&mut tries);
    strict::strict(&mut tries);
    mappings::mappings(&mut tries);
    for what in &tries.wrong {
        println!("wrong: {what}");
    }
    println!("Rust host: {} tried, {} wrong", tries.tried, tries.wrong.len());
    if tries.wrong.is_empty() { ExitCode::SUCCESS } else { ExitCode::FAILURE }
}
