//! What a call answers, before and after a buffer is lent.

use std::fmt;

use crate::refusal::{Number, BUFFER_SHORT};

#[derive(Debug, Clone, PartialEq, Eq)]
pub enum Answer {
    Sheet(Vec<u8>),
    /// The place in `PhysicalType` and that of the inner type; of a yes or no the first is 1 or 0; of a measure the length and the lines.
    Values(u64, u64),
}

pub type Answered = Result<Answer, Number>;

/// The number, the length or the first value, the second value, and every byte of the lent buffer.
#[derive(Debug, Clone, Default, PartialEq, Eq)]
pub struct Outcome {
    pub number: Number,
    pub first: u64,
    pub second: u64,
    pub buffer: Vec<u8>,
}

impl Outcome {
    /// Success: bytes past the length keep what they held. Refusal: zeros throughout. 16 is tested last.
    pub fn of(answered: &Answered, mut buffer: Vec<u8>) -> Outcome {
        match answered {
            Ok(Answer::Values(first, second)) => Outcome { number: 0, first: *first, second: *second, buffer },
            Ok(Answer::Sheet(sheet)) if sheet.len() <= buffer.len() => {
                buffer[..sheet.len()].copy_from_slice(sheet);
                Outcome { number: 0, first: sheet.len() as u64, second: 0, buffer }
            }
            Ok(Answer::Sheet(_)) => Outcome::refused(BUFFER_SHORT, buffer),
            Err(number) => Outcome::refused(*number, buffer),
        }
    }

    fn refused(number: Number, mut buffer: Vec<u8>) -> Outcome {
        buffer.fill(0);
        Outcome { number, first: 0, second: 0, buffer }
    }
}

impl fmt::Display for Outcome {
    fn fmt(&self, f: &mut fmt::Formatter<'_>) -> fmt::Result {
        write!(f, "number {}, values {} {}, ", self.number, self.first, self.second)?;
        match self.buffer.iter().all(|byte| *byte == 0) {
            true => write!(f, "{} zeros", self.buffer.len()),
            false => write!(f, "buffer \"{}\"", self.buffer.escape_ascii()),
        }
    }
}
