//! The export that is sure to return: what it refuses, and that all else is as by export.

use juzontefa::*;

const SCHEMA: &str = "format name flags metadata children dictionary\n";
const FIELD: &str = "kind p q text more name nullable pairs children\n";
const BOTH: [ByteOrder; 2] = [ByteOrder::LittleEndian, ByteOrder::BigEndian];
/// `ARROW:extension:name`, 20 bytes, and `ARROW:extension:metadata`, 24; `N` and `M` stand for them below.
const NAME: &str = "4152524f573a657874656e73696f6e3a6e616d65";
const METADATA: &str = "4152524f573a657874656e73696f6e3a6d65746164617461";

fn keyed(heading: &str, lines: &str) -> String {
    format!("{heading}{}", lines.replace('N', NAME).replace('M', METADATA))
}

/// What strict export answers with room to spare, held against the exact buffer, one a byte short, and none; on refusal all zeros.
fn exported(sheet: &str, order: ByteOrder) -> Result<String, Refusal> {
    let with = |room: usize| {
        let mut out = vec![7; room];
        let answer = strict_export(sheet.as_bytes(), order, &mut out);
        let kept = answer.map_or(0, |length| length);
        assert!(out[kept..].iter().all(|byte| *byte == if answer.is_ok() { 7 } else { 0 }));
        answer.map(|length| String::from_utf8(out[..length].to_vec()).expect("a sheet"))
    };
    let answer = with(export_room(sheet.len()));
    match &answer {
        Ok(schema) => {
            assert_eq!(with(schema.len()), answer);
            assert_eq!([with(schema.len() - 1), with(0)], [Err(Refusal::NoRoom), Err(Refusal::NoRoom)]);
        }
        Err(_) => assert_eq!([with(1), with(0)], [answer.clone(), answer.clone()]),
    }
    answer
}

fn expect(lines: &str, refusal: Refusal) {
    BOTH.iter().for_each(|order| assert_eq!(exported(&keyed(FIELD, lines), *order), Err(refusal), "{lines}"));
}

#[test]
fn reserved_keys() {
    let fields = [
        "0 0 0 ~ ~ - 0 N= 0\n",
        "0 0 0 ~ ~ - 0 M= 0\n",
        "0 0 0 ~ ~ - 0 41=,M=,N=,6d= 0\n",
        "37 0 0 78 ~ - 0 N=78 1\n0 0 0 ~ ~ ~ ~ ~ 0\n",
        "37 0 0 78 79 - 0 M=79 1\n0 0 0 ~ ~ ~ ~ ~ 0\n",
        "27 0 0 ~ ~ - 0 ~ 1\n0 0 0 ~ ~ - 0 N= 0\n",
        "37 0 0 78 ~ - 0 ~ 1\n32 2 0 ~ ~ ~ ~ ~ 1\n27 0 0 ~ ~ ~ ~ ~ 1\n0 0 0 ~ ~ - 0 N= 0\n",
    ];
    fields.iter().for_each(|lines| expect(lines, Refusal::ReservedKey));
}

#[test]
fn wide_indices() {
    let fields = [
        "32 4 0 ~ ~ - 0 ~ 1\n0 0 0 ~ ~ ~ ~ ~ 0\n",
        "32 9 0 ~ ~ - 0 ~ 1\n0 0 0 ~ ~ ~ ~ ~ 0\n",
        "37 0 0 78 ~ - 0 ~ 1\n32 4 0 ~ ~ ~ ~ ~ 1\n0 0 0 ~ ~ ~ ~ ~ 0\n",
        "32 2 0 ~ ~ - 0 ~ 1\n32 9 0 ~ ~ ~ ~ ~ 1\n0 0 0 ~ ~ ~ ~ ~ 0\n",
        "37 0 0 78 ~ - 0 ~ 1\n32 2 0 ~ ~ ~ ~ ~ 1\n32 9 0 ~ ~ ~ ~ ~ 1\n0 0 0 ~ ~ ~ ~ ~ 0\n",
    ];
    fields.iter().for_each(|lines| expect(lines, Refusal::WideIndex));
}

/// The first line with either decides; on one line it is the key. The sheet's form comes before, all else after.
#[test]
fn order_of_the_tests() {
    let (key, index) = ("0 0 0 ~ ~ - 0 N= 0\n", "32 4 0 ~ ~ - 0 ~ 1\n0 0 0 ~ ~ ~ ~ ~ 0\n");
    expect("32 4 0 ~ ~ - 0 N= 1\n0 0 0 ~ ~ ~ ~ ~ 0\n", Refusal::ReservedKey);
    expect(&format!("30 0 0 ~ ~ - 0 ~ 2\n{index}{key}"), Refusal::WideIndex);
    expect(&format!("30 0 0 ~ ~ - 0 ~ 2\n{key}{index}"), Refusal::ReservedKey);
    for refused in ["40 0 0 ~ ~ - 0 ~ 0\n", "41 0 0 - ~ - 0 ~ 0\n", "0 0 0 ~ ~ 00 0 ~ 0\n"] {
        expect(&format!("30 0 0 ~ ~ 00 0 ~ 2\n{refused}{key}"), Refusal::ReservedKey);
        expect(&format!("30 0 0 ~ ~ 00 0 ~ 2\n{refused}{index}"), Refusal::WideIndex);
    }
    expect(&format!("30 0 0 ~ ~ - 0 ~ 2\n{key}"), Refusal::BadLines);
    expect(&format!("{}{key}", "27 0 0 ~ ~ - 0 N= 1\n".repeat(32)), Refusal::TooDeep);
}

/// Where neither is found, it is export, its refusals too, and import gives the plain form.
#[test]
fn all_else_is_export() {
    let fields = [
        ("0 0 0 ~ ~ - 0 N73= 0\n", "6e - 0 0100000015000000N7300000000 0 0\n"),
        ("6 0 0 ~ ~ - 0 ~ 0\n", "5f706c69313238 - 0 ~ 0 0\n"),
        ("32 3 0 ~ ~ - 0 ~ 1\n11 0 0 ~ ~ ~ ~ ~ 0\n", "6c - 0 ~ 0 1\n5f706c75313238 - 2 ~ 0 0\n"),
    ];
    for (lines, schema) in fields {
        let field = keyed(FIELD, lines);
        assert_eq!(exported(&field, ByteOrder::LittleEndian), Ok(keyed(SCHEMA, schema)));
        for order in BOTH {
            let sheet = exported(&field, order).expect("a sheet");
            let mut out = vec![7; export_room(field.len())];
            assert_eq!(export_with_order(field.as_bytes(), order, &mut out), Ok(sheet.len()));
            assert!(out.starts_with(sheet.as_bytes()));
            let mut back = vec![7; import_room(sheet.len())];
            let length = import_with_order(sheet.as_bytes(), order, &mut back).expect("a field");
            assert_eq!(&back[..length], field.as_bytes());
        }
    }
    for (lines, refusal) in [("40 0 0 ~ ~ - 0 ~ 0\n", Refusal::NoFormat), ("0 0 0 ~ ~ 00 0 ~ 0\n", Refusal::ZeroByte)] {
        expect(lines, refusal);
    }
    assert_eq!(strict_export(b"", ByteOrder::BigEndian, &mut []), Err(Refusal::NotSheet));
}

#[test]
fn round_trips() {
    let trip = |lines: &str, order: ByteOrder| {
        let sheet = keyed(FIELD, lines);
        let [mut a, mut b, mut c, mut d] = [(); 4].map(|()| vec![7; 512]);
        strict_round_trip(sheet.as_bytes(), order, &mut a, &mut b, &mut c, &mut d)
    };
    for order in BOTH {
        assert_eq!(trip("0 0 0 ~ ~ - 0 N73=31 0\n", order), Trip::AllSame);
        assert_eq!(trip("0 0 0 ~ ~ - 0 M= 0\n", order), Trip::ExportRefused(Refusal::ReservedKey));
        assert_eq!(trip("32 9 0 ~ ~ - 0 ~ 1\n0 0 0 ~ ~ ~ ~ ~ 0\n", order), Trip::ExportRefused(Refusal::WideIndex));
        let nothing = strict_round_trip(&[], order, &mut [], &mut [], &mut [], &mut []);
        assert_eq!(nothing, Trip::ExportRefused(Refusal::NotSheet));
    }
}
