//! Metadata in both byte orders.

use juzontefa::*;

const SCHEMA: &str = "format name flags metadata children dictionary\n";
const FIELD: &str = "kind p q text more name nullable pairs children\n";
const BOTH: [ByteOrder; 2] = [ByteOrder::LittleEndian, ByteOrder::BigEndian];

/// What a call answers with a buffer that holds it; on refusal the whole buffer is zeros.
fn text_of(call: impl Fn(&mut [u8]) -> Result<usize, Refusal>) -> Result<String, Refusal> {
    let mut out = vec![7; 4096];
    match call(&mut out) {
        Ok(length) => {
            assert!(out[length..].iter().all(|byte| *byte == 7));
            out.truncate(length);
            Ok(String::from_utf8(out).expect("a sheet"))
        }
        Err(refusal) => {
            assert!(out.iter().all(|byte| *byte == 0));
            Err(refusal)
        }
    }
}

fn imported(sheet: &str, order: ByteOrder) -> Result<String, Refusal> {
    text_of(|out| import_with_order(sheet.as_bytes(), order, out))
}

fn exported(sheet: &str, order: ByteOrder) -> Result<String, Refusal> {
    text_of(|out| export_with_order(sheet.as_bytes(), order, out))
}

/// A field of kind Null without a name.
fn field(pairs: &str) -> String {
    format!("{FIELD}0 0 0 ~ ~ - 0 {pairs} 0\n")
}

fn schema(block: &str) -> String {
    format!("{SCHEMA}6e - 0 {block} 0 0\n")
}

/// Each block, and what it is in little-endian and in big-endian.
#[test]
fn blocks() {
    use Refusal::{BadMetadata, NotUtf8};
    let blocks = [
        ("00000001000000016d0000000131", Err(BadMetadata), Ok("6d=31")),
        ("01000000010000006d0100000031", Ok("6d=31"), Err(BadMetadata)),
        ("80000000", Err(BadMetadata), Ok("~")),
        ("00000080", Ok("~"), Err(BadMetadata)),
        ("0000000180000000", Err(BadMetadata), Err(BadMetadata)),
        ("0000000100000001ff", Err(BadMetadata), Err(NotUtf8)),
        ("0100000001000000ff", Err(NotUtf8), Err(BadMetadata)),
        ("0000000100000002ff", Err(BadMetadata), Err(BadMetadata)),
        ("-", Err(BadMetadata), Err(BadMetadata)),
        ("~", Ok("~"), Ok("~")),
        ("00000002000000016d0000000131000000016d0000000132", Err(BadMetadata), Ok("6d=32")),
        ("02000000010000006d0100000031010000006d0100000032", Ok("6d=32"), Err(BadMetadata)),
    ];
    for (block, little, big) in blocks {
        let answers = BOTH.map(|order| imported(&schema(block), order));
        assert_eq!(answers, [little, big].map(|pairs| pairs.map(field)), "{block}");
        assert_eq!(text_of(|out| import(schema(block).as_bytes(), out)), answers[0], "{block}");
    }
}

/// An extension over Null: its name is written under a key of 20 bytes.
#[test]
fn export_of_an_extension() {
    let extension = format!("{FIELD}37 0 0 78 ~ - 0 ~ 1\n0 0 0 ~ ~ ~ ~ ~ 0\n");
    let key = "4152524f573a657874656e73696f6e3a6e616d65";
    let blocks = [format!("0100000014000000{key}0100000078"), format!("0000000100000014{key}0000000178")];
    let answers = BOTH.map(|order| exported(&extension, order));
    assert_eq!(answers, blocks.map(|block| Ok(schema(&block))));
    assert_eq!(text_of(|out| export(extension.as_bytes(), out)), answers[0]);
    for (order, answer) in BOTH.into_iter().zip(answers) {
        assert_eq!(imported(&answer.expect("a sheet"), order), Ok(extension.clone()));
    }
}

/// Read in the other order a pair is refused; 128 pairs have a count that is negative there, and are none.
#[test]
fn the_other_order() {
    let keys: Vec<String> = (0..128).map(|key| format!("{:02x}{:02x}=", 48 + key / 64, 48 + key % 64)).collect();
    for [written, read] in [BOTH, [BOTH[1], BOTH[0]]] {
        let one = exported(&field("6d=31"), written).expect("a sheet");
        assert_eq!(imported(&one, read), Err(Refusal::BadMetadata));
        let many = exported(&field(&keys.join(",")), written).expect("a sheet");
        assert_eq!(imported(&many, written), Ok(field(&keys.join(","))));
        assert_eq!(imported(&many, read), Ok(field("~")));
    }
}

/// A buffer a byte short, and none.
#[test]
fn short_buffers() {
    for order in BOTH {
        let (plain, sheet) = (field("6d=31"), exported(&field("6d=31"), order).expect("a sheet"));
        for room in [0, plain.len() - 1] {
            let mut out = vec![7; room];
            assert_eq!(import_with_order(sheet.as_bytes(), order, &mut out), Err(Refusal::NoRoom));
            assert!(out.iter().all(|byte| *byte == 0));
        }
        for room in [0, sheet.len() - 1] {
            let mut out = vec![7; room];
            assert_eq!(export_with_order(plain.as_bytes(), order, &mut out), Err(Refusal::NoRoom));
            assert!(out.iter().all(|byte| *byte == 0));
        }
        assert_eq!(import_with_order(&[], order, &mut []), Err(Refusal::NotSheet));
        assert_eq!(export_with_order(&[], order, &mut []), Err(Refusal::NotSheet));
        let trip = round_trip_with_order(&[], order, &mut [], &mut [], &mut [], &mut []);
        assert_eq!(trip, Trip::ExportRefused(Refusal::NotSheet));
    }
}
