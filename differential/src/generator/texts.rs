//! Texts, numbers and formats to build sheets from, with their faults.

use super::random::Random;
use super::Bytes;

/// Characters at the ends of the rows of table 3-7 of the Unicode standard.
const CHARACTERS: [&[u8]; 22] = [
    b"a",
    b"m",
    b" ",
    b"~",
    b"\x01",
    b"\x7f",
    b"\xc2\x80",
    b"\xdf\xbf",
    b"\xe0\xa0\x80",
    b"\xe0\xbf\xbf",
    b"\xe1\x80\x80",
    b"\xec\xbf\xbf",
    b"\xed\x80\x80",
    b"\xed\x9f\xbf",
    b"\xee\x80\x80",
    b"\xef\xbf\xbf",
    b"\xf0\x90\x80\x80",
    b"\xf0\xbf\xbf\xbf",
    b"\xf1\x80\x80\x80",
    b"\xf3\xbf\xbf\xbf",
    b"\xf4\x80\x80\x80",
    b"\xf4\x8f\xbf\xbf",
];

/// Just past the rows, and characters cut short.
const NO_CHARACTERS: [&[u8]; 30] = [
    b"\x80",
    b"\xbf",
    b"\xc0\x80",
    b"\xc1\xbf",
    b"\xc2",
    b"\xc2\x7f",
    b"\xc2\xc0",
    b"\xdf",
    b"\xe0\x80\x80",
    b"\xe0\x9f\xbf",
    b"\xe0\xa0",
    b"\xe0\xa0\x7f",
    b"\xe1\x80",
    b"\xe1\x80\xc0",
    b"\xed\xa0\x80",
    b"\xed\xbf\xbf",
    b"\xef\xbf",
    b"\xf0\x80\x80\x80",
    b"\xf0\x8f\xbf\xbf",
    b"\xf0\x90\x80",
    b"\xf1\x80\x80\x7f",
    b"\xf3\xbf",
    b"\xf4\x90\x80\x80",
    b"\xf4\xbf\xbf\xbf",
    b"\xf5\x80\x80\x80",
    b"\xf8",
    b"\xfe",
    b"\xff",
    b"\xf4",
    b"\xe2\x82",
];

/// Names, keys and values that mean something somewhere.
const WORDS: [&[u8]; 16] = [
    b"",
    b"a",
    b"ab",
    b"b",
    b"m",
    b"item",
    b"peak",
    b"1",
    b"ARROW:extension:name",
    b"ARROW:extension:metadata",
    b"ARROW:extension:nam",
    b"ARROW:extension:names",
    b"arrow:extension:name",
    b"UTC",
    b"+07:30",
    b"Europe/Paris",
];

/// Formats that read, but for those with numbers; lists and the map come apart from these.
pub const LEAF_FORMATS: [&str; 34] = [
    "n", "b", "c", "C", "s", "S", "i", "I", "l", "L", "_pli128", "_plu128", "e", "f", "g", "z", "Z", "u", "U", "tdD",
    "tdm", "tts", "ttm", "ttu", "ttn", "tDs", "tDm", "tDu", "tDn", "tiM", "tiD", "tin", "vu", "vz",
];

const INDEX_FORMATS: [&str; 8] = ["c", "C", "s", "S", "i", "I", "l", "L"];

/// Formats that no type has.
const NO_FORMATS: [&str; 30] = [
    "", ":", "x", "N", "+", "+x", "+vl", "+vL", "+r", "t", "ts", "tss", "tsn", "tsx:", "ttx", "tts:", "n:", "+l:", "+m:",
    "w", "+w", "d", "+us", "+ud", "+u:0", "vl", "_pli64", "W:4", " w:4", "wx:4",
];

/// Numbers that read as sizes, precisions, scales and widths.
const SIZES: [&str; 22] = [
    "0",
    "1",
    "2",
    "3",
    "7",
    "16",
    "32",
    "42",
    "64",
    "128",
    "255",
    "256",
    "+16",
    "+0",
    "00",
    "007",
    "+032",
    "0256",
    "+64",
    "9223372036854775808",
    "18446744073709551615",
    "00000000000000000000000000000000000000000000001",
];

/// Numbers that do not, some of them ids.
const NO_SIZES: [&str; 20] = [
    "-0",
    "-1",
    "-7",
    "",
    "+",
    "-",
    "++1",
    "--1",
    "+-1",
    "1 ",
    " 1",
    "1a",
    "z",
    "2147483647",
    "2147483648",
    "-2147483648",
    "-2147483649",
    "18446744073709551616",
    "99999999999999999999",
    "340282366920938463463374607431768211456",
];

/// A word, or some characters.
pub fn text(random: &mut Random) -> Bytes {
    if random.chance(1, 2) {
        return random.pick(&WORDS).to_vec();
    }
    let mut text = Bytes::new();
    for _ in 0..random.below(5) {
        text.extend(random.pick(&CHARACTERS));
    }
    text
}

/// A name of 23 bytes and more: a page shows 24, and a character may stand across that place.
pub fn long_name(random: &mut Random) -> Bytes {
    let mut name = b"n".repeat(random.between(19, 25));
    while name.len() < 23 || random.chance(1, 3) {
        name.extend(random.pick(&CHARACTERS));
    }
    name
}

/// A key of a block: few, so that they meet again, and the reserved ones often.
pub fn key(random: &mut Random) -> Bytes {
    match random.below(8) {
        0 | 1 => b"ARROW:extension:name".to_vec(),
        2 => b"ARROW:extension:metadata".to_vec(),
        3 => random.pick(&[&b""[..], b"a", b"ab", b"b"]).to_vec(),
        _ => text(random),
    }
}

/// A key of up to three letters, so that many of them meet and share their beginnings.
pub fn short_key(random: &mut Random) -> Bytes {
    (0..random.below(4)).map(|_| random.pick(b"ABab~")).collect()
}

/// A text of 124 bytes and more: the last byte of its length has its top bit, or the length takes two bytes.
pub fn long_text(random: &mut Random) -> Bytes {
    let mut long = b"x".repeat(random.pick(&[124, 200, 252, 300]));
    long.extend(text(random));
    long
}

/// A text that is not UTF-8.
pub fn bad_text(random: &mut Random) -> Bytes {
    let mut bad = if random.chance(1, 3) { Bytes::new() } else { text(random) };
    bad.extend(random.pick(&NO_CHARACTERS));
    if random.chance(1, 3) {
        bad.extend(random.pick(&CHARACTERS));
    }
    bad
}

pub fn numeral(random: &mut Random, faulty: bool) -> &'static str {
    match faulty && random.chance(1, 2) {
        true => random.pick(&NO_SIZES),
        false => random.pick(&SIZES),
    }
}

fn timestamp(random: &mut Random) -> Bytes {
    let mut format = random.pick(&["tss:", "tsm:", "tsu:", "tsn:"]).as_bytes().to_vec();
    match random.below(5) {
        0 | 1 => {}
        2 => format.extend(b":"),
        _ => format.extend(text(random)),
    }
    format
}

pub fn decimal(random: &mut Random, faulty: bool) -> Bytes {
    let parts = if faulty { random.below(5) } else { random.between(2, 3) };
    let parts: Vec<&str> = (0..parts).map(|_| numeral(random, faulty)).collect();
    let mut format = b"d:".to_vec();
    format.extend(parts.join(",").bytes());
    format
}

/// The format of a type without children.
pub fn leaf_format(random: &mut Random, faulty: bool) -> Bytes {
    match random.below(12) {
        0 | 1 => timestamp(random),
        2 => [b"w:", numeral(random, faulty).as_bytes()].concat(),
        3 => decimal(random, faulty),
        4 if faulty => random.pick(&NO_FORMATS).as_bytes().to_vec(),
        5 if faulty => bad_text(random),
        _ => random.pick(&LEAF_FORMATS).as_bytes().to_vec(),
    }
}

pub fn index_format(random: &mut Random, faulty: bool) -> Bytes {
    if faulty && random.chance(1, 2) {
        return match random.below(4) {
            0 => random.pick(&NO_FORMATS).as_bytes().to_vec(),
            1 => random.pick(&LEAF_FORMATS).as_bytes().to_vec(),
            2 => random.pick(&["_pli128", "_plu128", "", "n", "i:"]).as_bytes().to_vec(),
            _ => bad_text(random),
        };
    }
    random.pick(&INDEX_FORMATS).as_bytes().to_vec()
}

/// A union's format with some ids.
pub fn union_format(random: &mut Random, faulty: bool, children: usize) -> Bytes {
    let mut format = random.pick(&["+us:", "+ud:"]).as_bytes().to_vec();
    let ids = if random.chance(2, 3) { children } else { random.below(4) };
    let least = if faulty { 0 } else { 1 };
    let ids: Vec<String> = (0..ids.max(least)).map(|_| id(random, faulty)).collect();
    format.extend(ids.join(",").bytes());
    format
}

fn id(random: &mut Random, faulty: bool) -> String {
    match random.below(6) {
        0 => "-2147483648".to_string(),
        1 => "2147483647".to_string(),
        2 if faulty => random.pick(&NO_SIZES).to_string(),
        3 => random.pick(&["+7", "-0", "00", "-1", "+0", "-007"]).to_string(),
        _ => random.below(200).to_string(),
    }
}

/// Flags, negative ones and the ends of 64 bits among them.
pub fn flags(random: &mut Random) -> i64 {
    match random.below(12) {
        0..=5 => random.below(8) as i64,
        6..=8 => -(random.between(1, 9) as i64),
        9 => random.pick(&[i64::MIN, i64::MAX, i64::MIN + 1, i64::MIN + 2, i64::MIN + 3, i64::MAX - 1]),
        _ => random.next() as i64,
    }
}

/// A size, precision or scale.
pub fn size(random: &mut Random) -> u64 {
    match random.below(6) {
        0 => 0,
        1 => u64::MAX,
        2 => i64::MAX as u64 + 1,
        3 => random.next(),
        _ => random.below(400) as u64,
    }
}
