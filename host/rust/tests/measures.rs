//! How much a conversion would write and visit, before it is asked.

use juzontefa::*;

const SCHEMA: &str = "format name flags metadata children dictionary\n";
const FIELD: &str = "kind p q text more name nullable pairs children\n";
const BOTH: [ByteOrder; 2] = [ByteOrder::LittleEndian, ByteOrder::BigEndian];
/// `ARROW:extension:name` is `x`, in each order.
const NAMED: [&str; 2] = [
    "01000000140000004152524f573a657874656e73696f6e3a6e616d650100000078",
    "00000001000000144152524f573a657874656e73696f6e3a6e616d650000000178",
];

/// A call that measures, and the conversion that it measures.
#[derive(Clone, Copy)]
struct Way {
    measure: fn(&[u8], ByteOrder) -> Result<Measure, Refusal>,
    convert: fn(&[u8], ByteOrder, &mut [u8]) -> Result<usize, Refusal>,
    room: fn(usize) -> usize,
}

const IMPORT: Way = Way { measure: measure_import, convert: import_with_order, room: import_room };
const EXPORT: Way = Way { measure: measure_export, convert: export_with_order, room: export_room };

/// The measure, held against the conversion with an ample buffer, the exact one, one a byte short, and none.
fn measured(way: Way, sheet: &[u8], order: ByteOrder) -> Result<Measure, Refusal> {
    let measure = (way.measure)(sheet, order);
    let mut out = vec![7; (way.room)(sheet.len())];
    assert_eq!((way.convert)(sheet, order, &mut out), measure.map(|measure| measure.length));
    let short = match measure {
        Ok(Measure { length, lines }) => {
            assert!(lines >= 1 && lines < sheet.iter().filter(|byte| **byte == b'\n').count());
            assert_eq!((way.convert)(sheet, order, &mut vec![7; length]), Ok(length));
            assert_eq!((way.convert)(sheet, order, &mut vec![7; length - 1]), Err(Refusal::NoRoom));
            Refusal::NoRoom
        }
        Err(refusal) => refusal,
    };
    assert_eq!((way.convert)(sheet, order, &mut []), Err(short));
    measure
}

fn expect(way: Way, sheet: &str, order: ByteOrder, length: usize, lines: usize) {
    assert_eq!(measured(way, sheet.as_bytes(), order), Ok(Measure { length, lines }), "{sheet}");
}

#[test]
fn lines_that_import_visits() {
    let sheets = [
        ("6e - 0 ~ 0 0\n", 66, 1),
        ("6e - 0 ~ 1 0\n78 - 0 ~ 0 0\n", 66, 1),
        ("2b6c - 0 ~ 2 0\n6e - 0 ~ 0 0\n78 - 0 ~ 0 0\n", 85, 2),
        ("69 - 0 ~ 1 1\n78 - 0 ~ 0 0\n6e - 0 ~ 0 0\n", 85, 2),
        ("2b73 - 0 ~ 2 0\n6e - 0 ~ 0 0\n6e - 0 ~ 1 0\n~ - 0 ~ 0 0\n", 103, 3),
    ];
    for (lines, length, visited) in sheets {
        BOTH.iter().for_each(|order| expect(IMPORT, &format!("{SCHEMA}{lines}"), *order, length, visited));
    }
    for (order, named) in BOTH.into_iter().zip(NAMED) {
        expect(IMPORT, &format!("{SCHEMA}6e - 0 {named} 0 0\n"), order, 86, 1);
    }
    let crossed = format!("{SCHEMA}6e - 0 {} 0 0\n", NAMED[0]);
    assert_eq!(measured(IMPORT, crossed.as_bytes(), ByteOrder::BigEndian), Err(Refusal::BadMetadata));
}

#[test]
fn lines_that_export_visits() {
    let sheets = [
        ("37 0 0 78 ~ - 0 ~ 1\n0 0 0 ~ ~ ~ ~ ~ 0\n", 125, 2),
        ("32 2 0 ~ ~ - 0 ~ 1\n0 0 0 ~ ~ ~ ~ ~ 0\n", 73, 2),
        ("37 0 0 78 ~ - 0 ~ 1\n32 2 0 ~ ~ ~ ~ ~ 1\n0 0 0 ~ ~ ~ ~ ~ 0\n", 125, 2),
        ("37 0 0 78 ~ - 0 ~ 1\n37 0 0 79 ~ ~ ~ ~ 1\n32 2 0 ~ ~ ~ ~ ~ 1\n40 0 0 ~ ~ ~ ~ ~ 0\n", 125, 3),
        ("32 2 0 ~ ~ - 0 ~ 1\n37 0 0 78 ~ ~ ~ ~ 1\n32 2 0 ~ ~ ~ ~ ~ 1\n0 0 0 ~ ~ ~ ~ ~ 0\n", 138, 3),
    ];
    for (lines, length, visited) in sheets {
        BOTH.iter().for_each(|order| expect(EXPORT, &format!("{FIELD}{lines}"), *order, length, visited));
    }
}

#[test]
fn refusals() {
    use Refusal::*;
    let imports = [
        ("2b6c - 0 ~ 1 0\n", BadLines),
        ("~ - 0 ~ 0 0\n", NullFormat),
        ("2b6c - 0 ~ 1 0\n78 - 0 ~ 0 0\n", UnsupportedFormat),
        ("2b6c - 0 ~ 0 0\n", NoChild),
        ("6e - 0 - 0 0\n", BadMetadata),
        ("6e ff 0 ~ 0 0\n", NotUtf8),
    ];
    let exports =
        [("40 0 0 ~ ~ - 0 ~ 0\n", NoFormat), ("41 0 0 - ~ - 0 ~ 0\n", NoUnionIds), ("0 0 0 ~ ~ 00 0 ~ 0\n", ZeroByte)];
    for order in BOTH {
        for way in [IMPORT, EXPORT] {
            assert_eq!(measured(way, b"", order), Err(NotSheet));
        }
        for (lines, refusal) in imports {
            assert_eq!(measured(IMPORT, format!("{SCHEMA}{lines}").as_bytes(), order), Err(refusal));
        }
        for (lines, refusal) in exports {
            assert_eq!(measured(EXPORT, format!("{FIELD}{lines}").as_bytes(), order), Err(refusal));
        }
    }
}
