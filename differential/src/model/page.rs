//! The page of a field (document 02, #101): the lines of its sheet below the heading, each in 72 bytes and a byte 10.

use super::field::{DataType, Field, Own, HEADING};
use super::wrong::Wrong;
use super::{Bytes, Model};
use crate::call::Order;
use crate::refusal::Number;

/// The kinds' names as `ArrowDataType` spells them, in its order.
const NAMES: [&str; 42] = [
    "Null",
    "Boolean",
    "Int8",
    "Int16",
    "Int32",
    "Int64",
    "Int128",
    "UInt8",
    "UInt16",
    "UInt32",
    "UInt64",
    "UInt128",
    "Float16",
    "Float32",
    "Float64",
    "Timestamp",
    "Date32",
    "Date64",
    "Time32",
    "Time64",
    "Duration",
    "Interval",
    "Binary",
    "FixedSizeBinary",
    "LargeBinary",
    "Utf8",
    "LargeUtf8",
    "List",
    "FixedSizeList",
    "LargeList",
    "Struct",
    "Map",
    "Dictionary",
    "Decimal",
    "Decimal32",
    "Decimal64",
    "Decimal256",
    "Extension",
    "BinaryView",
    "Utf8View",
    "Unknown",
    "Union",
];

/// So many digits of a name are shown, which are 24 of its bytes.
const DIGITS: usize = 48;

impl Model {
    /// Only a wrong reading refuses a field.
    pub fn page(&self, field: &Field) -> Result<Bytes, Number> {
        if self.is(Wrong::PageExportable) {
            self.to_schema(field, Order::Little)?;
        }
        let mut lines = Vec::new();
        if self.is(Wrong::PageHeading) {
            lines.push(format!("{:<72}", String::from_utf8_lossy(HEADING)));
        }
        let first = !self.is(Wrong::PageLevelZero) as usize;
        self.page_type(&field.dtype, Some(&field.own), first, &mut lines);
        let mut page = Bytes::new();
        for line in &lines {
            let line = if self.is(Wrong::PageTrimmed) { line.trim_end() } else { line };
            page.extend(line.bytes());
            page.push(b'\n');
        }
        if self.is(Wrong::PageLastOpen) {
            page.pop();
        }
        Ok(page)
    }

    /// The lines of a type whose first is on this level; it is bare without columns of its own.
    fn page_type(&self, dtype: &DataType, own: Option<&Own>, level: usize, lines: &mut Vec<String>) {
        lines.push(self.page_line(dtype, own, level));
        match dtype {
            DataType::Leaf { .. } | DataType::Timestamp { .. } => {}
            DataType::Nested { field, .. } => self.page_type(&field.dtype, Some(&field.own), level + 1, lines),
            DataType::Struct(fields) | DataType::Union { fields, .. } => {
                fields.iter().for_each(|field| self.page_type(&field.dtype, Some(&field.own), level + 1, lines));
            }
            DataType::Dictionary { values, .. } => self.page_type(values, None, level + 1, lines),
            DataType::Extension { inner, .. } => {
                let deeper = match **inner {
                    DataType::Extension { .. } => !self.is(Wrong::PageInnerExtension),
                    _ => self.is(Wrong::PageInnerDeeper),
                };
                self.page_type(inner, None, level + deeper as usize, lines);
            }
        }
    }

    fn page_line(&self, dtype: &DataType, own: Option<&Own>, level: usize) -> String {
        let level = if self.is(Wrong::PageLevelLeft) { format!("{level:<3}") } else { format!("{level:>3}") };
        let mut kind = NAMES[dtype.kind() as usize].to_string();
        if self.is(Wrong::PageKindSpelling) {
            kind = kind.replace("UInt", "Uint");
        }
        let mark = match own {
            Some(own) if own.nullable => 'y',
            None if !self.is(Wrong::PageBareNot) => '.',
            _ => 'n',
        };
        let (name, is_cut) = self.page_name(own);
        let cut = if is_cut { '+' } else { ' ' };
        format!("{level} {kind:<16} {mark} {name:<48}{cut}")
    }

    /// What is shown of a name, and whether there is more of it.
    fn page_name(&self, own: Option<&Own>) -> (String, bool) {
        let name = match own {
            Some(own) => &own.name[..],
            None if self.is(Wrong::PageBareName) => return ("~".to_string(), false),
            None => b"",
        };
        if own.is_some() && name.is_empty() && self.is(Wrong::PageEmptyName) {
            return ("-".to_string(), false);
        }
        if self.is(Wrong::PageNameText) {
            let text = String::from_utf8_lossy(name);
            return (text.chars().take(DIGITS).collect(), text.chars().count() > DIGITS);
        }
        let mut digits: String = name.iter().map(|byte| format!("{byte:02x}")).collect();
        let is_cut = digits.len() > DIGITS || (digits.len() == DIGITS && self.is(Wrong::PagePlusAt24));
        digits.truncate(self.page_digits(name));
        (digits, is_cut && !self.is(Wrong::PagePlusLacks))
    }

    /// How many digits are shown at most.
    fn page_digits(&self, name: &[u8]) -> usize {
        let mut end = DIGITS / 2;
        let parts_character = |end: usize| matches!(name.get(end), Some(0x80..=0xbf));
        while self.is(Wrong::PageWholeCharacters) && parts_character(end) {
            end -= 1;
        }
        end * 2
    }
}
