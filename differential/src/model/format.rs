//! Format strings: `to_dtype`, `to_integer_type` and `to_format`.

use super::field::*;
use super::text::{digits, put_number, split};
use super::wrong::Wrong;
use super::{Bytes, Model};
use crate::refusal::*;

/// The fixed names of types without children: name, kind, unit.
const NAMES: [(&[u8], u8, u64); 34] = [
    (b"n", 0, 0),
    (b"b", 1, 0),
    (b"c", 2, 0),
    (b"s", 3, 0),
    (b"i", 4, 0),
    (b"l", 5, 0),
    (b"_pli128", 6, 0),
    (b"C", 7, 0),
    (b"S", 8, 0),
    (b"I", 9, 0),
    (b"L", 10, 0),
    (b"_plu128", 11, 0),
    (b"e", 12, 0),
    (b"f", 13, 0),
    (b"g", 14, 0),
    (b"tdD", 16, 0),
    (b"tdm", 17, 0),
    (b"tts", 18, 0),
    (b"ttm", 18, 1),
    (b"ttu", 19, 2),
    (b"ttn", 19, 3),
    (b"tDs", 20, 0),
    (b"tDm", 20, 1),
    (b"tDu", 20, 2),
    (b"tDn", 20, 3),
    (b"tiM", 21, 0),
    (b"tiD", 21, 1),
    (b"tin", 21, 2),
    (b"z", 22, 0),
    (b"Z", 24, 0),
    (b"u", 25, 0),
    (b"U", 26, 0),
    (b"vz", 38, 0),
    (b"vu", 39, 0),
];

/// The index formats, at their places in `IntegerType`; those of 128 bits are none.
const INDEXES: [&[u8]; 10] = [b"c", b"s", b"i", b"l", b"_pli128", b"C", b"S", b"I", b"L", b"_plu128"];

const UNITS: &[u8] = b"smun";

/// What a format says; the children are read after it.
pub enum Format {
    Leaf(DataType),
    /// A list or map by its kind and `p`.
    Nested(u8, u64),
    Struct,
    Union(u64, Vec<i32>),
}

impl Model {
    pub fn read_format(&self, format: &[u8], sorted: bool) -> Result<Format, Number> {
        let mut name = format;
        if self.is(Wrong::NameWithColon) {
            name = name.strip_suffix(b":").unwrap_or(name);
        }
        if let Some((_, kind, p)) = NAMES.iter().find(|(fixed, _, _)| self.is_named(name, fixed)) {
            return Ok(Format::Leaf(DataType::Leaf { kind: *kind, p: *p, q: 0 }));
        }
        match name {
            b"+l" => return Ok(Format::Nested(LIST, 0)),
            b"+L" => return Ok(Format::Nested(LARGE_LIST, 0)),
            b"+m" => return Ok(Format::Nested(MAP, sorted as u64)),
            b"+s" => return Ok(Format::Struct),
            _ => {}
        }
        match format.iter().position(|byte| *byte == b':') {
            Some(colon) => self.read_parts(&format[..colon], &format[colon + 1..]),
            None if self.is(Wrong::ZoneOptional) && format.starts_with(b"ts") => self.read_parts(format, b""),
            None => Err(UNSUPPORTED_FORMAT),
        }
    }

    fn is_named(&self, name: &[u8], fixed: &[u8]) -> bool {
        let first = name.first() == fixed.first();
        match fixed {
            b"tin" if self.is(Wrong::LastNameLost) => false,
            b"n" if name.is_empty() && self.is(Wrong::EmptyFormatIsNull) => true,
            [_] if first && self.is(Wrong::FirstByteAlone) => true,
            _ if first && name.len() == fixed.len() && self.is(Wrong::FirstOfItsCell) => true,
            _ => name == fixed,
        }
    }

    fn read_parts(&self, head: &[u8], rest: &[u8]) -> Result<Format, Number> {
        match head {
            [b't', b's', unit] if UNITS.contains(unit) => {
                let unit = UNITS.iter().position(|u| u == unit).unwrap_or(0) as u64;
                Ok(Format::Leaf(DataType::Timestamp { unit, zone: self.zone(rest) }))
            }
            b"w" => Ok(Format::Leaf(DataType::Leaf { kind: FIXED_SIZE_BINARY, p: self.size(rest)?, q: 0 })),
            b"+w" => Ok(Format::Nested(FIXED_SIZE_LIST, self.size(rest)?)),
            b"d" => self.decimal(split(rest, b',')).map(Format::Leaf),
            b"+ud" => Ok(Format::Union(0, self.format_ids(rest)?)),
            b"+us" => Ok(Format::Union(1, self.format_ids(rest)?)),
            _ => Err(UNSUPPORTED_FORMAT),
        }
    }

    fn zone(&self, rest: &[u8]) -> Option<Bytes> {
        let mut zone = rest;
        if self.is(Wrong::ZoneToColon) {
            zone = split(rest, b':')[0];
        }
        (!zone.is_empty() || self.is(Wrong::EmptyZoneSome)).then(|| zone.to_vec())
    }

    /// `usize`: digits with an optional plus.
    fn size(&self, text: &[u8]) -> Result<u64, Number> {
        if self.is(Wrong::SizeMinusZero) && text == b"-0" {
            return Ok(0);
        }
        let unsigned = text.strip_prefix(b"+").filter(|_| !self.is(Wrong::SizePlusRefused)).unwrap_or(text);
        if self.is(Wrong::SizeZerosRefused) && unsigned.len() > 1 && unsigned[0] == b'0' {
            return Err(BAD_NUMBER);
        }
        let value = digits(unsigned).ok_or(BAD_NUMBER)?;
        let max = if self.is(Wrong::SizeSigned) { i64::MAX as u128 } else { u64::MAX as u128 };
        if value > max && !self.is(Wrong::SizeWraps) {
            return Err(BAD_NUMBER);
        }
        Ok(value as u64)
    }

    fn format_ids(&self, rest: &[u8]) -> Result<Vec<i32>, Number> {
        if self.is(Wrong::NoIdsTaken) && rest.is_empty() {
            return Ok(Vec::new());
        }
        split(rest, b',').into_iter().map(|id| self.id(id)).collect()
    }

    /// `i32`: digits with an optional plus or minus.
    fn id(&self, text: &[u8]) -> Result<i32, Number> {
        let negative = text.first() == Some(&b'-');
        let plus_taken = !self.is(Wrong::IdPlusRefused);
        let unsigned = match text.first() {
            Some(b'-') => &text[1..],
            Some(b'+') if plus_taken => &text[1..],
            _ => text,
        };
        let value = digits(unsigned).ok_or(BAD_NUMBER)?.min(1 << 100) as i128;
        if negative && value == 0 && self.is(Wrong::IdMinusZeroRefused) {
            return Err(BAD_NUMBER);
        }
        let value = if negative { -value } else { value };
        let least = if self.is(Wrong::IdLeastRefused) { -(i32::MAX as i128) } else { i32::MIN as i128 };
        if (value < least || value > i32::MAX as i128) && !self.is(Wrong::IdWraps) {
            return Err(BAD_NUMBER);
        }
        Ok(value as i32)
    }

    /// The part count, then the width, the precision and the scale.
    fn decimal(&self, mut parts: Vec<&[u8]>) -> Result<DataType, Number> {
        if self.is(Wrong::NumbersBeforeParts) {
            parts.iter().try_for_each(|part| self.size(part).map(drop))?;
        }
        if self.is(Wrong::EmptyPartsDropped) {
            parts.retain(|part| !part.is_empty());
        }
        if self.is(Wrong::FourParts) {
            parts.truncate(3);
        }
        let (p, q, kind) = match parts[..] {
            [p, q] => (p, q, DECIMAL),
            [p, q, width] if !self.is(Wrong::TwoPartsOnly) => (p, q, self.width(width)?),
            _ => return Err(DECIMAL_PARTS),
        };
        Ok(DataType::Leaf { kind, p: self.size(p)?, q: self.size(q)? })
    }

    fn width(&self, text: &[u8]) -> Result<u8, Number> {
        let width = self.size(text)?;
        if self.is(Wrong::WidthIgnored) || (self.is(Wrong::WidthByText) && text != width.to_string().as_bytes()) {
            return Ok(DECIMAL);
        }
        match width {
            32 => Ok(DECIMAL_32),
            64 => Ok(DECIMAL_64),
            256 => Ok(DECIMAL_256),
            128 => Ok(DECIMAL),
            _ if self.is(Wrong::Width128Only) => Err(BAD_NUMBER),
            _ => Ok(DECIMAL),
        }
    }

    /// `to_integer_type`: the place in `IntegerType`.
    pub fn index_of(&self, format: &[u8]) -> Result<u64, Number> {
        let wide = |index: &usize| *index == 4 || *index == 9;
        let index = INDEXES.iter().position(|name| *name == format);
        match index.filter(|index| !wide(index) || self.is(Wrong::WideIndexTaken)) {
            Some(index) => Ok(index as u64),
            None if self.is(Wrong::EmptyIndexIs6) && self.read_format(format, false).is_err() => Err(UNSUPPORTED_FORMAT),
            None => Err(INDEX_FORMAT),
        }
    }

    /// `to_format`, looked up through extensions.
    pub fn to_format(&self, dtype: &DataType) -> Result<Bytes, Number> {
        match dtype {
            DataType::Leaf { kind, p, q } => self.leaf_format(*kind, *p, *q),
            DataType::Timestamp { unit, zone } => Ok(self.timestamp_format(*unit, zone.as_deref())),
            DataType::Nested { kind: FIXED_SIZE_LIST, p, .. } => Ok(with_numbers(b"+w:", &[*p])),
            DataType::Nested { kind: LIST, .. } => Ok(b"+l".to_vec()),
            DataType::Nested { kind: LARGE_LIST, .. } => Ok(b"+L".to_vec()),
            DataType::Nested { .. } => Ok(b"+m".to_vec()),
            DataType::Struct(_) => Ok(b"+s".to_vec()),
            DataType::Union { mode, ids, fields } => self.union_format(*mode, ids.as_deref(), fields.len()),
            DataType::Dictionary { index, .. } => self.to_format(&DataType::integer(*index)),
            DataType::Extension { inner, .. } => self.to_format(inner),
        }
    }

    fn leaf_format(&self, kind: u8, p: u64, q: u64) -> Result<Bytes, Number> {
        match kind {
            FIXED_SIZE_BINARY => Ok(with_numbers(b"w:", &[p])),
            DECIMAL if self.is(Wrong::WidthAlways) => Ok(with_numbers(b"d:", &[p, q, 128])),
            DECIMAL => Ok(with_numbers(b"d:", &[p, q])),
            DECIMAL_32 => Ok(with_numbers(b"d:", &[p, q, 32])),
            DECIMAL_64 => Ok(with_numbers(b"d:", &[p, q, 64])),
            DECIMAL_256 => Ok(with_numbers(b"d:", &[p, q, 256])),
            18 if p > 1 && self.is(Wrong::TimeUnitsFree) => Ok(if p == 2 { b"ttu".to_vec() } else { b"ttn".to_vec() }),
            INTERVAL if p == 3 && self.is(Wrong::IntervalFree) => Ok(b"tin".to_vec()),
            _ => {
                let row = NAMES.iter().find(|(_, k, unit)| *k == kind && *unit == p);
                row.map(|(name, _, _)| name.to_vec()).ok_or(NO_FORMAT)
            }
        }
    }

    fn timestamp_format(&self, unit: u64, zone: Option<&[u8]>) -> Bytes {
        let mut format = b"ts".to_vec();
        format.extend(UNITS.get(unit as usize));
        if zone.is_some() || !self.is(Wrong::NoZoneNoColon) {
            format.push(b':');
        }
        format.extend(zone.unwrap_or(b""));
        format
    }

    fn union_format(&self, mode: u64, ids: Option<&[i32]>, fields: usize) -> Result<Bytes, Number> {
        let counted: Vec<i32> = (0..fields as i32).collect();
        let ids = match ids {
            Some([]) if self.is(Wrong::EmptyIdsNumbered) => &counted,
            Some(ids) => ids,
            None if fields == 0 && self.is(Wrong::NoFieldsNoIds) => return Ok(b"+ud:".to_vec()),
            None => &counted,
        };
        if ids.is_empty() {
            return Err(UNION_WITHOUT_IDS);
        }
        let mut format = if mode == 1 { b"+us:".to_vec() } else { b"+ud:".to_vec() };
        put_joined(ids, &mut format);
        Ok(format)
    }
}

fn with_numbers(head: &[u8], numbers: &[u64]) -> Bytes {
    let mut format = head.to_vec();
    put_joined(numbers, &mut format);
    format
}

fn put_joined<T: std::fmt::Display>(numbers: &[T], out: &mut Bytes) {
    for (at, number) in numbers.iter().enumerate() {
        if at > 0 {
            out.push(b',');
        }
        put_number(number, out);
    }
}
