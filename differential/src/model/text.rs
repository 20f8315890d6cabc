//! Lines, numbers, hexadecimal and UTF-8.

use super::wrong::Wrong;
use super::{Bytes, Model};
use crate::refusal::{Number, HEADING, LINE};

/// The parts between separators, one more than there are separators.
pub fn split(bytes: &[u8], separator: u8) -> Vec<&[u8]> {
    bytes.split(|byte| *byte == separator).collect()
}

/// A number in digits; more than 38 of them are more than any column takes.
pub fn digits(text: &[u8]) -> Option<u128> {
    if text.is_empty() || !text.iter().all(u8::is_ascii_digit) {
        return None;
    }
    Some(text.iter().fold(0u128, |value, digit| value.saturating_mul(10).saturating_add((digit - b'0') as u128)))
}

impl Model {
    /// The lines after the heading, each without its byte 10.
    pub fn lines<'a>(&self, sheet: &'a [u8], heading: &[u8]) -> Result<Vec<&'a [u8]>, Number> {
        let limit = match self.wrong {
            Some(Wrong::LongSheetTaken) => 65_536,
            Some(Wrong::LongestSheetRefused) => 65_534,
            _ => 65_535,
        };
        let Some(mut rest) = sheet.strip_prefix(heading).filter(|_| sheet.len() <= limit) else {
            return Err(HEADING);
        };
        while self.is(Wrong::HeadingTrimmed) && rest.first() == Some(&b' ') {
            rest = &rest[1..];
        }
        let Some(body) = rest.strip_prefix(b"\n") else {
            return Err(if self.is(Wrong::OpenHeadingIs2) { LINE } else { HEADING });
        };
        if body.is_empty() && self.is(Wrong::HeadingAloneIs1) {
            return Err(HEADING);
        }
        let mut lines = split(body, b'\n');
        let last = lines.pop().unwrap_or(b"");
        if !last.is_empty() {
            if !self.is(Wrong::LastLineOpen) {
                return Err(LINE);
            }
            lines.push(last);
        }
        Ok(lines)
    }

    pub fn columns<'a, const N: usize>(&self, line: &'a [u8]) -> Result<[&'a [u8]; N], Number> {
        let mut columns = split(line, b' ');
        if self.is(Wrong::DoubleSpaceTaken) {
            columns.retain(|column| !column.is_empty());
        }
        columns.try_into().map_err(|_| LINE)
    }

    /// Digits without plus and spare zeros, at most `max`.
    pub fn number(&self, column: &[u8], max: u128) -> Result<u128, Number> {
        let mut text = column;
        if self.is(Wrong::PlusTaken) {
            text = text.strip_prefix(b"+").unwrap_or(text);
        }
        let value = digits(text).ok_or(LINE)?;
        if text.len() > 1 && text[0] == b'0' && !self.is(Wrong::SpareZerosTaken) {
            return Err(LINE);
        }
        if value > max {
            return Err(LINE);
        }
        Ok(value)
    }

    /// From -(max + 1) to max, without -0.
    pub fn signed(&self, column: &[u8], max: u128) -> Result<i128, Number> {
        let Some(text) = column.strip_prefix(b"-") else {
            return Ok(self.number(column, max)? as i128);
        };
        let value = self.number(text, max + 1)? as i128;
        if value == 0 && !self.is(Wrong::MinusZeroTaken) {
            return Err(LINE);
        }
        Ok(-value)
    }

    pub fn hex(&self, text: &[u8]) -> Result<Bytes, Number> {
        let pairs = text.chunks(2).map(|pair| match pair {
            [high, low] => Ok(Some(self.hex_digit(*high)? * 16 + self.hex_digit(*low)?)),
            _ if self.is(Wrong::OddDigitTaken) => Ok(None),
            _ => Err(LINE),
        });
        pairs.filter_map(Result::transpose).collect()
    }

    fn hex_digit(&self, digit: u8) -> Result<u8, Number> {
        match digit {
            b'0'..=b'9' => Ok(digit - b'0'),
            b'a'..=b'f' => Ok(digit - b'a' + 10),
            b'A'..=b'F' if self.is(Wrong::UppercaseTaken) => Ok(digit - b'A' + 10),
            _ => Err(LINE),
        }
    }

    /// A text's column: `~` is none, `-` the empty text.
    pub fn text(&self, column: &[u8]) -> Result<Option<Bytes>, Number> {
        match column {
            b"~" => Ok(None),
            b"-" => Ok(Some(Bytes::new())),
            b"" if !self.is(Wrong::EmptyTextColumn) => Err(LINE),
            pairs => Ok(Some(self.hex(pairs)?)),
        }
    }

    /// Whether the bytes are sequences of table 3-7 of the Unicode standard.
    pub fn is_utf8(&self, bytes: &[u8]) -> bool {
        let mut rest = bytes;
        while !rest.is_empty() {
            match self.character(rest) {
                Some(len) => rest = &rest[len..],
                None => return self.is(Wrong::Utf8Cut) && is_cut(rest),
            }
        }
        true
    }

    /// The length of the character that the bytes begin with.
    fn character(&self, bytes: &[u8]) -> Option<usize> {
        match bytes {
            [0x00..=0x7f, ..] => Some(1),
            [0xc2..=0xdf, 0x80..=0xbf, ..] => Some(2),
            [0xe0, 0xa0..=0xbf, 0x80..=0xbf, ..] => Some(3),
            [0xe1..=0xec, 0x80..=0xbf, 0x80..=0xbf, ..] => Some(3),
            [0xed, 0x80..=0x9f, 0x80..=0xbf, ..] => Some(3),
            [0xee..=0xef, 0x80..=0xbf, 0x80..=0xbf, ..] => Some(3),
            [0xf0, 0x90..=0xbf, 0x80..=0xbf, 0x80..=0xbf, ..] => Some(4),
            [0xf1..=0xf3, 0x80..=0xbf, 0x80..=0xbf, 0x80..=0xbf, ..] => Some(4),
            [0xf4, 0x80..=0x8f, 0x80..=0xbf, 0x80..=0xbf, ..] => Some(4),
            _ => self.wrong_character(bytes),
        }
    }

    fn wrong_character(&self, bytes: &[u8]) -> Option<usize> {
        match (self.wrong?, bytes) {
            (Wrong::Utf8Overlong2, [0xc0..=0xc1, 0x80..=0xbf, ..]) => Some(2),
            (Wrong::Utf8OverlongE0, [0xe0, 0x80..=0x9f, 0x80..=0xbf, ..]) => Some(3),
            (Wrong::Utf8Surrogates, [0xed, 0xa0..=0xbf, 0x80..=0xbf, ..]) => Some(3),
            (Wrong::Utf8OverlongF0, [0xf0, 0x80..=0x8f, 0x80..=0xbf, 0x80..=0xbf, ..]) => Some(4),
            (Wrong::Utf8PastF4, [0xf4, 0x90..=0xbf, 0x80..=0xbf, 0x80..=0xbf, ..]) => Some(4),
            (Wrong::Utf8F5, [0xf5..=0xf7, 0x80..=0xbf, 0x80..=0xbf, 0x80..=0xbf, ..]) => Some(4),
            (Wrong::Utf8Loose, [0xc2..=0xdf, _, ..]) => Some(2),
            (Wrong::Utf8Loose, [0xe0..=0xef, _, _, ..]) => Some(3),
            (Wrong::Utf8Loose, [0xf0..=0xf4, _, _, _, ..]) => Some(4),
            _ => None,
        }
    }
}

/// A beginning of a character, cut at the end of the text.
fn is_cut(rest: &[u8]) -> bool {
    matches!(
        rest,
        [0xc2..=0xf4] | [0xe1..=0xec, 0x80..=0xbf] | [0xf1..=0xf3, 0x80..=0xbf] | [0xf1..=0xf3, 0x80..=0xbf, 0x80..=0xbf]
    )
}

pub fn put_text(text: Option<&[u8]>, out: &mut Bytes) {
    match text {
        None => out.push(b'~'),
        Some(b"") => out.push(b'-'),
        Some(bytes) => put_hex(bytes, out),
    }
}

pub fn put_hex(bytes: &[u8], out: &mut Bytes) {
    for byte in bytes {
        for digit in [byte / 16, byte % 16] {
            out.push(if digit < 10 { b'0' + digit } else { b'a' + digit - 10 });
        }
    }
}

/// A number's own text.
pub fn put_number(value: impl std::fmt::Display, out: &mut Bytes) {
    out.extend(value.to_string().bytes());
}

/// `~` for none, `-` for nothing, else the elements joined by commas.
pub fn put_list<T>(list: Option<&[T]>, out: &mut Bytes, put: impl Fn(&T, &mut Bytes)) {
    match list {
        None => out.push(b'~'),
        Some([]) => out.push(b'-'),
        Some(elements) => {
            for (at, element) in elements.iter().enumerate() {
                if at > 0 {
                    out.push(b',');
                }
                put(element, out);
            }
        }
    }
}
