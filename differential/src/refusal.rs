//! The refusals of document 01 and of document 02, #106, by name.

/// A refusal's number, 1 to 18.
pub type Number = u8;

pub const HEADING: Number = 1;
pub const LINE: Number = 2;
pub const LEVELS: Number = 3;
pub const NULL_FORMAT: Number = 4;
pub const NOT_UTF8: Number = 5;
pub const UNSUPPORTED_FORMAT: Number = 6;
pub const BAD_NUMBER: Number = 7;
pub const DECIMAL_PARTS: Number = 8;
pub const INDEX_FORMAT: Number = 9;
pub const CHILD_ABSENT: Number = 10;
pub const METADATA_CUT: Number = 11;
pub const NO_FORMAT: Number = 12;
pub const UNION_WITHOUT_IDS: Number = 13;
pub const BYTE_ZERO: Number = 14;
pub const UNDEFINED: Number = 15;
pub const BUFFER_SHORT: Number = 16;
/// Of strict export alone, as is the next.
pub const RESERVED_KEY: Number = 17;
pub const WIDE_INDEX: Number = 18;

/// 0 and all of them.
pub const NUMBERS: usize = 19;
