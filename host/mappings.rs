//! The mappings and the two conversions, on every kind of the table `kinds`.

use super::*;

/// Name, nullable and pairs of a line.
const OWN: &str = "61 1 62=63";
const BARE: &str = "~ ~ ~";
/// Past every list of children and both enumerations.
const PAST: [u64; 6] = [17, 255, 256, 1 << 32, 1 << 63, u64::MAX];

fn child(index: u64) -> impl Fn(&[u8], &mut [u8]) -> Result<usize, u64> {
    // SAFETY: as for the calls without an index.
    move |sheet, out| told(unsafe { juzontefa_get_child(sheet.as_ptr(), sheet.len(), index, out.as_mut_ptr(), out.len()) })
}

type Conversion = unsafe extern "C" fn(u64, *mut u8, usize) -> Answer;

fn converts(call: Conversion, place: u64) -> impl Fn(&[u8], &mut [u8]) -> Result<usize, u64> {
    // SAFETY: the slice is live, and the library keeps to its length.
    move |_, out| told(unsafe { call(place, out.as_mut_ptr(), out.len()) })
}

/// What the three calls that answer numbers answer: number and numbers of each.
fn numbers(sheet: &str) -> [[u64; 3]; 3] {
    let (at, len) = (sheet.as_ptr(), sheet.len());
    // SAFETY: the slice is live, and the library keeps to its length.
    let (places, nested, dictionary) =
        unsafe { (juzontefa_to_physical_type(at, len), juzontefa_is_nested(at, len), juzontefa_contains_dictionary(at, len)) };
    [[places.number, places.place, places.inner], [nested.number, nested.answer, 0], [dictionary.number, dictionary.answer, 0]]
}

/// A row of the table.
struct Kind<'a> {
    columns: &'a str,
    number: u64,
    /// How many fields or values, and their lines: as they are handed in, without extensions, in their underlying types.
    children: usize,
    below: [&'a str; 3],
    /// Number, place and inner place.
    physical: [u64; 3],
    underlying: &'a str,
}

/// The first field is an extension over Date32, the second a text; a dictionary's values are such an extension.
const FIELDS: [[&str; 3]; 3] = [
    ["", "", ""],
    ["37 0 0 78 ~ 69 0 ~ 1\n16 0 0 ~ ~ ~ ~ ~ 0\n", "16 0 0 ~ ~ 69 0 ~ 0\n", "4 0 0 ~ ~ 69 0 ~ 0\n"],
    [
        "37 0 0 78 ~ 69 0 ~ 1\n16 0 0 ~ ~ ~ ~ ~ 0\n25 0 0 ~ ~ 75 1 - 0\n",
        "16 0 0 ~ ~ 69 0 ~ 0\n25 0 0 ~ ~ 75 1 - 0\n",
        "4 0 0 ~ ~ 69 0 ~ 0\n25 0 0 ~ ~ 75 1 - 0\n",
    ],
];
const CHILDREN: [&str; 2] = ["37 0 0 78 ~ ~ ~ ~ 1\n16 0 0 ~ ~ ~ ~ ~ 0\n", "25 0 0 ~ ~ ~ ~ ~ 0\n"];
const STORED_VALUES: &str = "16 0 0 ~ ~ ~ ~ ~ 0\n";

impl<'a> Kind<'a> {
    /// None for a row that does not read.
    fn of(row: &'a str) -> Option<Kind<'a>> {
        let [columns, fields, places, underlying] = row.split(';').collect::<Vec<_>>().try_into().ok()?;
        let (children, below) = match fields {
            "v" => (1, [CHILDREN[0], STORED_VALUES, ""]),
            _ => fields.parse().ok().and_then(|count: usize| Some((count, *FIELDS.get(count)?)))?,
        };
        let physical = match places.split(' ').map(|place| place.parse().ok()).collect::<Option<Vec<u64>>>()?[..] {
            [number] => [number, 0, 0],
            [place, inner] => [0, place, inner],
            _ => return None,
        };
        let number = columns.split(' ').next()?.parse().ok()?;
        Some(Kind { columns, number, children, below, physical, underlying })
    }

    fn is_list(&self) -> bool {
        (27..=29).contains(&self.number)
    }

    fn is_dictionary(&self) -> bool {
        self.number == 32
    }

    fn has_children(&self) -> bool {
        self.is_list() || matches!(self.number, 30 | 31 | 41)
    }

    /// The kind's lines under those before, with these own columns.
    fn handed(&self, before: &str, own: &str) -> String {
        format!("{FIELD}{before}{} {own} {}\n{}", self.columns, self.children, self.below[0])
    }

    /// Not defined for maps and unions.
    fn stored(&self, before: &str, own: &str) -> Result<String, u64> {
        match self.number {
            31 | 41 => Err(15),
            _ => Ok(format!("{FIELD}{before}{} {own} {}\n{}", self.columns, self.children, self.below[1])),
        }
    }

    fn underlying(&self, before: &str, own: &str) -> Result<String, u64> {
        match self.underlying {
            "15" => Err(15),
            "=" => Ok(format!("{FIELD}{before}{} {own} {}\n{}", self.columns, self.children, self.below[2])),
            leaf => Ok(format!("{FIELD}{before}{leaf} {own} 0\n")),
        }
    }
}

impl Tries {
    fn gives_no_child(&mut self, what: &str, sheet: &str, from: u64) {
        for index in [from].into_iter().chain(PAST) {
            self.gives(&child(index), what, sheet, Err(15));
        }
    }

    fn says(&mut self, what: &str, sheet: &str, physical: [u64; 3], nested: bool, dictionary: bool) {
        self.count(numbers(sheet) == [physical, [0, nested as u64, 0], [0, dictionary as u64, 0]], what);
    }

    /// Alone, or inside these extensions.
    fn in_extensions(&mut self, kind: &Kind, extensions: &str) {
        let inside = !extensions.is_empty();
        let sheet = kind.handed(extensions, if inside { BARE } else { OWN });
        let what = &format!("{sheet:?}");
        self.says(what, &sheet, kind.physical, inside || kind.has_children() || kind.is_dictionary(), kind.is_dictionary());
        self.gives(&of(juzontefa_to_storage), what, &sheet, Ok(kind.handed("", OWN)));
        self.gives(&of(juzontefa_to_storage_recursive), what, &sheet, kind.stored("", OWN));
        self.gives(&of(juzontefa_underlying_physical_type), what, &sheet, kind.underlying("", OWN));
        let inner = if kind.is_list() && !inside { Ok(format!("{FIELD}{}", CHILDREN[0])) } else { Err(15) };
        self.gives(&of(juzontefa_inner_dtype), what, &sheet, inner);
        let children = if kind.has_children() { kind.children } else { 0 };
        for (index, line) in CHILDREN.iter().take(children).enumerate() {
            self.gives(&child(index as u64), what, &sheet, Ok(format!("{FIELD}{line}")));
        }
        self.gives_no_child(what, &sheet, children as u64);
    }

    fn in_list(&mut self, kind: &Kind) {
        let list = "27 0 0 ~ ~ 6c 0 ~ 1\n";
        let sheet = kind.handed(list, OWN);
        let what = &format!("{sheet:?}");
        self.says(what, &sheet, [0, 8, 0], true, kind.is_dictionary());
        self.gives(&of(juzontefa_to_storage), what, &sheet, Ok(sheet.clone()));
        self.gives(&of(juzontefa_to_storage_recursive), what, &sheet, kind.stored(list, OWN));
        self.gives(&of(juzontefa_underlying_physical_type), what, &sheet, kind.underlying(list, OWN));
        self.gives(&of(juzontefa_inner_dtype), what, &sheet, Ok(kind.handed("", BARE)));
        self.gives(&child(0), what, &sheet, Ok(kind.handed("", BARE)));
        self.gives_no_child(what, &sheet, 1);
    }

    /// As a dictionary's values, which `underlying_physical_type` does not look at.
    fn in_dictionary(&mut self, kind: &Kind) {
        let values = "32 2 1 ~ ~ 64 0 - 1\n";
        let sheet = kind.handed(values, BARE);
        let what = &format!("{sheet:?}");
        self.says(what, &sheet, [0, 14, 2], true, true);
        self.gives(&of(juzontefa_to_storage), what, &sheet, Ok(sheet.clone()));
        self.gives(&of(juzontefa_to_storage_recursive), what, &sheet, kind.stored(values, BARE));
        self.gives(&of(juzontefa_underlying_physical_type), what, &sheet, Ok(format!("{FIELD}4 0 0 ~ ~ 64 0 - 0\n")));
        self.gives(&of(juzontefa_inner_dtype), what, &sheet, Err(15));
        self.gives_no_child(what, &sheet, 0);
    }
}

fn conversions(tries: &mut Tries) {
    for place in (0..40).chain(PAST) {
        let line = |columns: String| Ok(format!("{FIELD}{columns} ~ ~ ~ ~ ~ 0\n"));
        let integer = if place < 10 { line(format!("{} 0 0", place + 2)) } else { Err(15) };
        tries.gives(&converts(juzontefa_from_integer_type, place), "from_integer_type", "", integer);
        let primitive = match place {
            0..=4 => line(format!("{} 0 0", place + 2)),
            5 => line("36 32 32".to_string()),
            6..=13 => line(format!("{} 0 0", place + 1)),
            14..=16 => line(format!("21 {} 0", place - 13)),
            _ => Err(15),
        };
        tries.gives(&converts(juzontefa_from_primitive_type, place), "from_primitive_type", "", primitive);
    }
}

/// Refused by the calls that answer numbers too, with numbers that are all 0.
fn broken_numbers(tries: &mut Tries) {
    let leaf = "40 0 0 ~ ~ 69 0 ~ 0\n";
    let deep = format!("{FIELD}{}{leaf}", "27 0 0 ~ ~ 70 1 ~ 1\n".repeat(32));
    let sheets = [(String::new(), 1), ("x".repeat(65_536), 1), (format!("{SCHEMA}{leaf}"), 1), (format!("{FIELD}{leaf}{leaf}"), 2), (deep, 3)];
    for (sheet, number) in sheets {
        tries.count(numbers(&sheet) == [[number, 0, 0]; 3], "broken, for numbers");
    }
}

pub fn mappings(tries: &mut Tries) {
    let calls: [ToSheet; 4] =
        [juzontefa_underlying_physical_type, juzontefa_to_storage, juzontefa_to_storage_recursive, juzontefa_inner_dtype];
    let (line, leaf) = ("27 0 0 ~ ~ 70 1 ~ 1\n", "14 0 0 ~ ~ 69 0 ~ 0\n");
    calls.iter().for_each(|call| tries.broken(&of(*call), FIELD, line, leaf));
    tries.broken(&child(0), FIELD, line, leaf);
    broken_numbers(tries);
    let rows = include_str!("kinds").lines().filter(|row| !row.starts_with('#'));
    for row in rows {
        let Some(kind) = Kind::of(row) else {
            tries.count(false, &format!("the table of kinds: {row}"));
            continue;
        };
        for extensions in ["", "37 0 0 78 79 61 1 62=63 1\n", "37 0 0 78 79 61 1 62=63 1\n37 0 0 - ~ ~ ~ ~ 1\n"] {
            tries.in_extensions(&kind, extensions);
        }
        tries.in_list(&kind);
        tries.in_dictionary(&kind);
    }
    conversions(tries);
}
