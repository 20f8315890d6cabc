//! What import and export would write and visit, measured before they are asked.

use super::*;

/// A measure, its conversion, and the heading of the sheets that both read.
type Way = (ToMeasure, ToSheetWith, &'static str);

const IMPORT: Way = (juzontefa_measure_import, juzontefa_import_with_order, SCHEMA);
const EXPORT: Way = (juzontefa_measure_export, juzontefa_export_with_order, FIELD);

/// Every number but 0 is big-endian.
const ORDERS: [u64; 6] = [0, 1, 2, 256, 1 << 63, u64::MAX];

/// `ARROW:extension:name` is `x`, in each order.
const NAMED: [&str; 2] = [
    "01000000140000004152524f573a657874656e73696f6e3a6e616d650100000078",
    "00000001000000144152524f573a657874656e73696f6e3a6e616d650000000178",
];

/// What a sheet is measured to, and that the conversion gives the same number with a buffer of that length, and 16 with one byte fewer.
fn expect(tries: &mut Tries, (measure, convert, heading): Way, lines: &str, order: u64, expected: Measure) {
    let sheet = format!("{heading}{lines}");
    let before = sheet.clone();
    // SAFETY: the slice is live, and the library keeps to its length.
    let told = unsafe { measure(sheet.as_ptr(), sheet.len(), order) };
    tries.count(told == expected && sheet == before, &format!("{told:?} of {lines}"));
    let length = expected.length as usize;
    let mut out = vec![7u8; length];
    // SAFETY: as above, of both slices, which do not overlap.
    let mut converted = |room: usize| unsafe { convert(sheet.as_ptr(), sheet.len(), order, out.as_mut_ptr(), room) };
    let exact = converted(length);
    tries.count((exact.number, exact.length) == (expected.number, expected.length), lines);
    if expected.number == 0 {
        tries.count(converted(length - 1).number == 16, lines);
    }
}

fn visited(tries: &mut Tries) {
    let imports = [
        ("6e - 0 ~ 0 0\n", 66, 1),
        ("6e - 0 ~ 1 0\n78 - 0 ~ 0 0\n", 66, 1),
        ("2b6c - 0 ~ 2 0\n6e - 0 ~ 0 0\n78 - 0 ~ 0 0\n", 85, 2),
        ("69 - 0 ~ 1 1\n78 - 0 ~ 0 0\n6e - 0 ~ 0 0\n", 85, 2),
        ("2b73 - 0 ~ 2 0\n6e - 0 ~ 0 0\n6e - 0 ~ 1 0\n78 - 0 ~ 0 0\n", 103, 3),
    ];
    let exports = [
        ("37 0 0 78 ~ - 0 ~ 1\n0 0 0 ~ ~ ~ ~ ~ 0\n", 125, 2),
        ("32 2 0 ~ ~ - 0 ~ 1\n0 0 0 ~ ~ ~ ~ ~ 0\n", 73, 2),
        ("37 0 0 78 ~ - 0 ~ 1\n32 2 0 ~ ~ ~ ~ ~ 1\n0 0 0 ~ ~ ~ ~ ~ 0\n", 125, 2),
        ("37 0 0 78 ~ - 0 ~ 1\n37 0 0 79 ~ ~ ~ ~ 1\n32 2 0 ~ ~ ~ ~ ~ 1\n40 0 0 ~ ~ ~ ~ ~ 0\n", 125, 3),
        ("32 2 0 ~ ~ - 0 ~ 1\n37 0 0 78 ~ ~ ~ ~ 1\n32 2 0 ~ ~ ~ ~ ~ 1\n0 0 0 ~ ~ ~ ~ ~ 0\n", 138, 3),
    ];
    for order in ORDERS {
        for (way, sheets) in [(IMPORT, imports), (EXPORT, exports)] {
            for (lines, length, visited) in sheets {
                expect(tries, way, lines, order, Measure { number: 0, length, lines: visited });
            }
        }
        for (place, block) in NAMED.into_iter().enumerate() {
            let right = (order != 0) == (place == 1);
            let expected =
                if right { Measure { number: 0, length: 86, lines: 1 } } else { Measure { number: 11, length: 0, lines: 0 } };
            expect(tries, IMPORT, &format!("6e - 0 {block} 0 0\n"), order, expected);
        }
    }
}

fn refused(tries: &mut Tries) {
    let imports = [("", 2), ("~ - 0 ~ 0 0\n", 4), ("2b6c - 0 ~ 1 0\n78 - 0 ~ 0 0\n", 6), ("2b6c - 0 ~ 0 0\n", 10)];
    let exports = [("", 2), ("40 0 0 ~ ~ - 0 ~ 0\n", 12), ("41 0 0 - ~ - 0 ~ 0\n", 13), ("0 0 0 ~ ~ 00 0 ~ 0\n", 14)];
    for order in [0, 1] {
        for (way, sheets) in [(IMPORT, imports), (EXPORT, exports)] {
            for (lines, number) in sheets {
                expect(tries, way, lines, order, Measure { number, length: 0, lines: 0 });
            }
            expect(tries, (way.0, way.1, ""), "", order, Measure { number: 1, length: 0, lines: 0 });
        }
    }
}

/// Longer than a sheet may be, and than a buffer of 65,536 bytes: 16 does not come.
fn long(tries: &mut Tries) {
    let (leaves, items) = ("67 - 0 ~ 0 0\n".repeat(3446), "14 0 0 ~ ~ - 0 ~ 0\n".len() as u64 * 3446);
    let length = format!("{FIELD}30 0 0 ~ ~ - 0 ~ 3446\n").len() as u64 + items;
    expect(tries, IMPORT, &format!("2b73 - 0 ~ 3446 0\n{leaves}"), 0, Measure { number: 0, length, lines: 3447 });
}

pub fn measures(tries: &mut Tries) {
    visited(tries);
    refused(tries);
    long(tries);
}
