//! Reads the columns of a sheet from its bytes, in one pass. A column that breaks its rules is refusal 2.

use crate::refusal::{Number, HEADING, LINE};

const LONGEST_SHEET: usize = 65_535;

/// The value of each hexadecimal digit, `NO_DIGIT` for all other bytes.
static DIGITS: [u8; 256] = digits();
const NO_DIGIT: u8 = 0xff;

const fn digits() -> [u8; 256] {
    let mut table = [NO_DIGIT; 256];
    let mut value = 0;
    while value < 16 {
        table[b"0123456789abcdef"[value] as usize] = value as u8;
        value += 1;
    }
    table
}

pub struct Cursor<'a> {
    bytes: &'a [u8],
    at: usize,
}

impl<'a> Cursor<'a> {
    /// At the first line of a sheet with this heading, which ends in byte 10.
    pub fn after_heading(sheet: &'a [u8], heading: &[u8]) -> Result<Cursor<'a>, Number> {
        if sheet.len() > LONGEST_SHEET || !sheet.starts_with(heading) {
            return Err(HEADING);
        }
        Ok(Cursor { bytes: sheet, at: heading.len() })
    }

    /// How many lines there are, for the room that they take.
    pub fn lines_left(&self) -> usize {
        self.bytes[self.at..].iter().filter(|byte| **byte == b'\n').count()
    }

    pub fn at_end(&self) -> bool {
        self.at == self.bytes.len()
    }

    pub fn peek(&self) -> Option<u8> {
        self.bytes.get(self.at).copied()
    }

    /// Goes past the byte if it is the next one.
    pub fn skip(&mut self, byte: u8) -> bool {
        let is_next = self.peek() == Some(byte);
        self.at += is_next as usize;
        is_next
    }

    pub fn expect(&mut self, byte: u8) -> Result<(), Number> {
        if self.skip(byte) {
            Ok(())
        } else {
            Err(LINE)
        }
    }

    /// Digits without spare zeros, at most `max`.
    pub fn number(&mut self, max: u64) -> Result<u64, Number> {
        let start = self.at;
        let mut value: u64 = 0;
        while let Some(digit @ b'0'..=b'9') = self.peek() {
            value = value.checked_mul(10).and_then(|v| v.checked_add((digit - b'0') as u64)).ok_or(LINE)?;
            self.at += 1;
        }
        let digits = &self.bytes[start..self.at];
        if digits.is_empty() || (digits.len() > 1 && digits[0] == b'0') || value > max {
            return Err(LINE);
        }
        Ok(value)
    }

    /// A number or a minus and a number that is not 0, from -(max + 1) to max.
    pub fn signed(&mut self, max: u64) -> Result<i64, Number> {
        if !self.skip(b'-') {
            return Ok(self.number(max)? as i64);
        }
        match self.number(max + 1)? {
            0 => Err(LINE),
            value => Ok((value as i64).wrapping_neg()),
        }
    }

    /// Appends the bytes of as many hexadecimal pairs as there are.
    pub fn hex(&mut self, into: &mut Vec<u8>) -> Result<(), Number> {
        // Long texts go by eight pairs at a time.
        while let Some(eight) = self.bytes[self.at..].first_chunk::<16>().and_then(eight_pairs) {
            into.extend_from_slice(&eight);
            self.at += 16;
        }
        while let Some(pair) = self.bytes[self.at..].first_chunk::<2>() {
            let [high, low] = pair.map(|digit| DIGITS[digit as usize]);
            if high == NO_DIGIT {
                break;
            }
            if low == NO_DIGIT {
                return Err(LINE);
            }
            into.push(high << 4 | low);
            self.at += 2;
        }
        Ok(())
    }

    /// A text's bytes appended: false for `~`, none for `-`.
    pub fn text(&mut self, into: &mut Vec<u8>) -> Result<bool, Number> {
        if self.skip(b'~') {
            return Ok(false);
        }
        if self.skip(b'-') {
            return Ok(true);
        }
        let before = into.len();
        self.hex(into)?;
        if into.len() == before {
            return Err(LINE);
        }
        Ok(true)
    }
}

/// The bytes of eight hexadecimal pairs, if all sixteen are digits.
fn eight_pairs(digits: &[u8; 16]) -> Option<[u8; 8]> {
    let values = digits.map(|digit| DIGITS[digit as usize]);
    let all = values.iter().fold(0, |all, value| all | value);
    (all < 16).then(|| std::array::from_fn(|at| values[2 * at] << 4 | values[2 * at + 1]))
}
