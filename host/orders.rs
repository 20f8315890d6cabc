//! Metadata in both byte orders.

use super::*;

fn with(call: ToSheetWith, big: u64) -> impl Fn(&[u8], &mut [u8]) -> Result<usize, u64> {
    // SAFETY: as for the calls without an order.
    move |sheet, out| told(unsafe { call(sheet.as_ptr(), sheet.len(), big, out.as_mut_ptr(), out.len()) })
}

/// Every number but 0 is big-endian.
const BIGS: [u64; 7] = [1, 2, 255, 256, 1 << 32, 1 << 63, u64::MAX];

/// `ARROW:extension:name`, 20 bytes.
const NAME: &str = "4152524f573a657874656e73696f6e3a6e616d65";

/// A block, and the pairs or the refusal that it gets little-endian and big-endian.
type Block = (&'static str, Result<&'static str, u64>, Result<&'static str, u64>);

const BLOCKS: [Block; 16] = [
    ("00000001000000016d0000000131", Err(11), Ok("6d=31")),
    ("01000000010000006d0100000031", Ok("6d=31"), Err(11)),
    ("80000000", Err(11), Ok("~")),
    ("00000080", Ok("~"), Err(11)),
    ("ffffffff", Ok("~"), Ok("~")),
    ("0000000180000000", Err(11), Err(11)),
    ("0100000000000080", Err(11), Err(11)),
    ("0000000100000001ff", Err(11), Err(5)),
    ("0100000001000000ff", Err(5), Err(11)),
    ("0000000100000002ff", Err(11), Err(11)),
    ("0100000002000000ff", Err(11), Err(11)),
    ("-", Err(11), Err(11)),
    ("~", Ok("~"), Ok("~")),
    ("00000002000000016d0000000131000000016d0000000132", Err(11), Ok("6d=32")),
    ("02000000010000006d0100000031010000006d0100000032", Ok("6d=32"), Err(11)),
    ("00000001000000016d0000000131ff", Err(11), Ok("6d=31")),
];

fn imports(tries: &mut Tries) {
    for (block, little, big) in BLOCKS {
        let sheet = format!("{SCHEMA}6e - 0 {block} 0 0\n");
        let field = |pairs: &str| format!("{FIELD}0 0 0 ~ ~ - 0 {pairs} 0\n");
        tries.gives(&of(juzontefa_import), block, &sheet, little.map(field));
        tries.gives(&with(juzontefa_import_with_order, 0), block, &sheet, little.map(field));
        for order in BIGS {
            tries.gives(&with(juzontefa_import_with_order, order), block, &sheet, big.map(field));
        }
    }
}

/// A field line or two that are their own plain form, and the schema line of each order.
fn fields() -> [[String; 3]; 3] {
    [
        ["0 0 0 ~ ~ - 0 ~ 0\n", "6e - 0 ~ 0 0\n", "6e - 0 ~ 0 0\n"],
        [
            "30 0 0 ~ ~ 73 0 6d=31 1\n14 0 0 ~ ~ 69 1 6d=,6e= 0\n",
            "2b73 73 0 01000000010000006d0100000031 1 0\n67 69 2 02000000010000006d00000000010000006e00000000 0 0\n",
            "2b73 73 0 00000001000000016d0000000131 1 0\n67 69 2 00000002000000016d00000000000000016e00000000 0 0\n",
        ],
        [
            "37 0 0 78 ~ - 0 ~ 1\n0 0 0 ~ ~ ~ ~ ~ 0\n",
            "6e - 0 0100000014000000NAME0100000078 0 0\n",
            "6e - 0 0000000100000014NAME0000000178 0 0\n",
        ],
    ]
    .map(|[field, little, big]| [(FIELD, field), (SCHEMA, little), (SCHEMA, big)])
    .map(|sheets| sheets.map(|(heading, lines)| format!("{heading}{}", lines.replace("NAME", NAME))))
}

fn out_and_back(tries: &mut Tries) {
    for [field, little, big] in &fields() {
        tries.answered(&of(juzontefa_export), field, field, little);
        for (order, exported) in [(0, little)].into_iter().chain(BIGS.map(|order| (order, big))) {
            tries.answered(&with(juzontefa_export_with_order, order), field, field, exported);
            tries.answered(&with(juzontefa_import_with_order, order), field, exported, field);
            tries.comes_back(field, field, Way::With(order), exported, field);
        }
    }
    for order in [0, 1] {
        let (empty, owner) = (Trip { answer: EXPORT_REFUSED, number: 1 }, Trip { answer: EXPORT_REFUSED, number: 14 });
        tries.trip("empty", "", Way::With(order), [ROOM; 4], empty, None);
        tries.trip("byte 00", &format!("{FIELD}4 0 0 ~ ~ 00 1 6d=31 0\n"), Way::With(order), [ROOM; 4], owner, None);
    }
}

/// Written in one order and read in the other: what the block says there. A count of 128 has a byte 80, which is the sign there.
fn mixed(tries: &mut Tries) {
    let keys: Vec<String> = (0..128).map(|key| format!("{:02x}{:02x}=", 48 + key / 64, 48 + key % 64)).collect();
    let nothing = format!("{FIELD}0 0 0 ~ ~ - 0 ~ 0\n");
    for (pairs, expected) in [("6d=31".to_string(), Err(11)), (keys.join(","), Ok(nothing))] {
        let field = format!("{FIELD}0 0 0 ~ ~ - 0 {pairs} 0\n");
        for (written, read) in [(0, 1), (1, 0)] {
            let mut out = vec![7u8; ROOM];
            let length = with(juzontefa_export_with_order, written)(field.as_bytes(), &mut out).unwrap_or(0);
            let exported = String::from_utf8_lossy(&out[..length]);
            tries.answered(&with(juzontefa_import_with_order, written), "read in its order", &exported, &field);
            tries.gives(&with(juzontefa_import_with_order, read), "read in the other order", &exported, expected.clone());
        }
    }
}

pub fn orders(tries: &mut Tries) {
    imports(tries);
    out_and_back(tries);
    mixed(tries);
    for order in [0, 1] {
        tries.broken(&with(juzontefa_import_with_order, order), SCHEMA, "2b6c 70 2 ~ 1 0\n", "67 69 0 ~ 0 0\n");
        tries.broken(&with(juzontefa_export_with_order, order), FIELD, "27 0 0 ~ ~ 70 1 ~ 1\n", "14 0 0 ~ ~ 69 0 ~ 0\n");
    }
}
