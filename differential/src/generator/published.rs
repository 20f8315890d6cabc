//! The format strings that the Arrow C data interface document publishes: its tables of types and its examples. The Rust
//! refuses some of them (list views, run ends, views of lists).

/// The tables, with the examples that the document itself gives for the ones with parameters.
pub const FORMATS: &[&str] = &[
    "n",
    "b",
    "c",
    "C",
    "s",
    "S",
    "i",
    "I",
    "l",
    "L",
    "e",
    "f",
    "g",
    "z",
    "Z",
    "vz",
    "u",
    "U",
    "vu",
    "d:19,10",
    "d:19,10,NNN",
    "d:19,10,32",
    "d:19,10,64",
    "d:19,10,128",
    "d:19,10,256",
    "w:42",
    "tdD",
    "tdm",
    "tts",
    "ttm",
    "ttu",
    "ttn",
    "tss:",
    "tsm:",
    "tsu:",
    "tsn:",
    "tss:...",
    "tsm:...",
    "tsu:...",
    "tsn:...",
    "tDs",
    "tDm",
    "tDu",
    "tDn",
    "tiM",
    "tiD",
    "tin",
    "+l",
    "+L",
    "+vl",
    "+vL",
    "+w:123",
    "+s",
    "+m",
    "+ud:I,J",
    "+us:I,J",
    "+ud:I,J,...",
    "+us:I,J,...",
    "+r",
    "d:12,5",
    "+us:4,5",
    "+ud:4,5",
    "+us:0,1",
    "+ud:0,1",
    "tsn:UTC",
    "tss:Europe/Paris",
    "tsu:America/New_York",
    "tsm:+07:30",
];

/// The types of dictionary indices, and some that are none.
pub const INDEX_FORMATS: &[&str] = &["c", "C", "s", "S", "i", "I", "l", "L", "n", "e", "u", "+s", "d:12,5", "_pli128", ""];

/// A line of an example: format, name, children, dictionary.
pub type Node = (&'static str, &'static str, u8, u8);

/// The worked examples: a dictionary-encoded decimal, lists, a struct, a map, a sparse union, run ends, and the two exports.
pub const EXAMPLES: &[&[Node]] = &[
    &[("s", "", 0, 1), ("d:12,5", "", 0, 0)],
    &[("+l", "", 1, 0), ("L", "", 0, 0)],
    &[("+vL", "", 1, 0), ("L", "", 0, 0)],
    &[("+s", "", 2, 0), ("i", "ints", 0, 0), ("f", "floats", 0, 0)],
    &[("+m", "", 1, 0), ("+s", "entries", 2, 0), ("u", "key", 0, 0), ("g", "value", 0, 0)],
    &[("+us:4,5", "", 2, 0), ("i", "ints", 0, 0), ("f", "floats", 0, 0)],
    &[("+r", "", 2, 0), ("i", "run_ends", 0, 0), ("f", "values", 0, 0)],
    &[("i", "", 0, 0)],
    &[("+s", "", 2, 0), ("f", "floats", 0, 0), ("u", "strings", 0, 0)],
];

/// The example of a metadata block, little-endian.
pub const METADATA: &[u8] = b"\x01\x00\x00\x00\x04\x00\x00\x00key1\x06\x00\x00\x00value1";
