//! Strict export and the strict round trip.

use super::*;

/// Every number but 0 is big-endian.
const ORDERS: [u64; 6] = [0, 1, 2, 256, 1 << 63, u64::MAX];

/// `ARROW:extension:name` and `ARROW:extension:metadata`; `N` and `M` stand for them below.
const NAME: &str = "4152524f573a657874656e73696f6e3a6e616d65";
const METADATA: &str = "4152524f573a657874656e73696f6e3a6d65746164617461";

fn keyed(heading: &str, lines: &str) -> String {
    format!("{heading}{}", lines.replace('N', NAME).replace('M', METADATA))
}

fn export(big: u64) -> impl Fn(&[u8], &mut [u8]) -> Result<usize, u64> {
    // SAFETY: as for the present export.
    move |sheet, out| told(unsafe { juzontefa_strict_export(sheet.as_ptr(), sheet.len(), big, out.as_mut_ptr(), out.len()) })
}

fn refusals(tries: &mut Tries) {
    let refused = [
        ("0 0 0 ~ ~ - 0 N= 0\n", 17),
        ("0 0 0 ~ ~ - 0 M= 0\n", 17),
        ("37 0 0 78 ~ - 0 N=78 1\n0 0 0 ~ ~ ~ ~ ~ 0\n", 17),
        ("32 9 0 ~ ~ - 0 ~ 1\n0 0 0 ~ ~ ~ ~ ~ 0\n", 18),
        ("32 4 0 ~ ~ - 0 N= 1\n0 0 0 ~ ~ ~ ~ ~ 0\n", 17),
        ("30 0 0 ~ ~ - 0 ~ 2\n32 4 0 ~ ~ - 0 ~ 1\n0 0 0 ~ ~ ~ ~ ~ 0\n0 0 0 ~ ~ - 0 N= 0\n", 18),
        ("37 0 0 78 ~ - 0 ~ 1\n32 4 0 ~ ~ ~ ~ ~ 1\n0 0 0 ~ ~ ~ ~ ~ 0\n", 18),
        ("37 0 0 78 ~ - 0 ~ 1\n32 2 0 ~ ~ ~ ~ ~ 1\n27 0 0 ~ ~ ~ ~ ~ 1\n0 0 0 ~ ~ - 0 N= 0\n", 17),
        ("30 0 0 ~ ~ 00 0 ~ 2\n40 0 0 ~ ~ - 0 ~ 0\n0 0 0 ~ ~ - 0 M= 0\n", 17),
        ("30 0 0 ~ ~ - 0 ~ 2\n0 0 0 ~ ~ - 0 N= 0\n0 0 0 ~ ~ - 2 ~ 0\n", 2),
        ("40 0 0 ~ ~ - 0 ~ 0\n", 12),
        ("41 0 0 - ~ - 0 ~ 0\n", 13),
        ("0 0 0 ~ ~ 00 0 ~ 0\n", 14),
    ];
    for (lines, number) in refused {
        let field = keyed(FIELD, lines);
        for order in ORDERS {
            tries.gives(&export(order), lines, &field, Err(number));
            let trip = Trip { answer: EXPORT_REFUSED, number };
            tries.trip(lines, &field, Way::Strict(order), [ROOM; 4], trip, None);
        }
    }
}

fn answers(tries: &mut Tries) {
    let fields = [
        ["0 0 0 ~ ~ - 0 N73= 0\n", "6e - 0 0100000015000000N7300000000 0 0\n", "6e - 0 0000000100000015N7300000000 0 0\n"],
        ["6 0 0 ~ ~ - 0 ~ 0\n", "5f706c69313238 - 0 ~ 0 0\n", "5f706c69313238 - 0 ~ 0 0\n"],
        [
            "37 0 0 78 ~ - 0 ~ 1\n0 0 0 ~ ~ ~ ~ ~ 0\n",
            "6e - 0 0100000014000000N0100000078 0 0\n",
            "6e - 0 0000000100000014N0000000178 0 0\n",
        ],
    ];
    for [lines, little, big] in fields {
        let field = keyed(FIELD, lines);
        for order in ORDERS {
            let schema = keyed(SCHEMA, if order == 0 { little } else { big });
            tries.answered(&export(order), lines, &field, &schema);
            tries.comes_back(lines, &field, Way::Strict(order), &schema, &field);
        }
    }
}

pub fn strict(tries: &mut Tries) {
    refusals(tries);
    answers(tries);
    for order in [0, 1] {
        tries.broken(&export(order), FIELD, "27 0 0 ~ ~ 70 1 ~ 1\n", "14 0 0 ~ ~ 69 0 ~ 0\n");
    }
}
