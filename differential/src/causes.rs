//! What strict export looks for (document 02, #106), found in the columns of a field sheet as they stand there. The plain reading finds it
//! in its trees, so that each is held against the other.

use crate::refusal::{Number, RESERVED_KEY, WIDE_INDEX};

/// `ARROW:extension:name` and `ARROW:extension:metadata` as a column has them: its digits are lowercase, so that equal keys are equal text.
const RESERVED: [&[u8]; 2] =
    [b"4152524f573a657874656e73696f6e3a6e616d65", b"4152524f573a657874656e73696f6e3a6d65746164617461"];

/// The number of the first line that has a reserved key or a dictionary index of 128 bits, of a sheet whose form is right.
pub fn first(sheet: &[u8]) -> Option<Number> {
    sheet.split(|byte| *byte == b'\n').skip(1).find_map(of_line)
}

/// The key comes before the index.
fn of_line(line: &[u8]) -> Option<Number> {
    let columns: Vec<&[u8]> = line.split(|byte| *byte == b' ').collect();
    let [kind, p, .., pairs, _] = columns[..] else {
        return None;
    };
    let key = |pair: &[u8]| RESERVED.iter().any(|key| pair.strip_prefix(*key).is_some_and(|rest| rest.starts_with(b"=")));
    if pairs.split(|byte| *byte == b',').any(key) {
        return Some(RESERVED_KEY);
    }
    (kind == b"32" && (p == b"4" || p == b"9")).then_some(WIDE_INDEX)
}
