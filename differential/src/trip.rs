//! A round trip, demand 3 as one call: the export of a field sheet, the import of that, the plain form of the sheet, the
//! export of that; then what was imported is held against the plain form, and the second export against the first. In a strict
//! one both exports are strict (document 02, #106).

use std::fmt;

use crate::answer::{Answer, Answered};
use crate::call::{Call, Request};
use crate::compare::{answer, smallest};
use crate::library;
use crate::model::Model;
use crate::oracle::Rust;
use crate::refusal::{Number, BUFFER_SHORT, HEADING};

pub const ALL_SAME: u64 = 0;
pub const EXPORT_REFUSED: u64 = 1;
const IMPORT_REFUSED: u64 = 2;
const PLAIN_REFUSED: u64 = 3;
const AGAIN_REFUSED: u64 = 4;
const IMPORT_DIFFERS: u64 = 5;
const AGAIN_DIFFERS: u64 = 6;

/// The answer, as `include/juzontefa.h` numbers it: 1 to 4 for the step that was refused; the refusal's number, else 0; and
/// every byte of the four lent buffers.
#[derive(Debug, Clone, PartialEq, Eq)]
pub struct Trip {
    pub answer: u64,
    pub number: u64,
    pub buffers: [Vec<u8>; 4],
}

/// What the steps answer where there is room, up to the first refusal, with this export and under its order: by the Rust and, for
/// what it has not, the plain reading.
pub fn steps(rust: &Rust, model: &Model, sheet: &[u8], export: Request) -> Vec<Answered> {
    let mut steps: Vec<Answered> = Vec::new();
    for (call, reads) in [(export.call, None), (Call::Import, Some(0)), (Call::Plain, None), (export.call, Some(2))] {
        let handed = match reads.map(|step: usize| &steps[step]) {
            Some(Ok(Answer::Sheet(earlier))) => earlier,
            _ => sheet,
        };
        let answered = answer(rust, model, Request::under(call, export.argument), handed);
        let refused = answered.is_err();
        steps.push(answered);
        if refused {
            break;
        }
    }
    steps
}

impl Trip {
    /// The round trip whose steps answer so, with these buffers.
    pub fn of(steps: &[Answered], lent: &[Vec<u8>; 4]) -> Trip {
        let mut buffers = lent.clone();
        let mut sheets: Vec<&[u8]> = Vec::new();
        for (step, answered) in steps.iter().enumerate() {
            match answered {
                Ok(Answer::Sheet(sheet)) if sheet.len() <= lent[step].len() => sheets.push(sheet),
                Err(number) => return Trip::refused(step, *number, lent),
                _ => return Trip::refused(step, BUFFER_SHORT, lent),
            }
        }
        for (buffer, sheet) in buffers.iter_mut().zip(&sheets) {
            buffer[..sheet.len()].copy_from_slice(sheet);
        }
        let answer = match sheets[..] {
            [_, imported, plain, _] if imported != plain => IMPORT_DIFFERS,
            [exported, _, _, again] if exported != again => AGAIN_DIFFERS,
            _ => ALL_SAME,
        };
        Trip { answer, number: 0, buffers }
    }

    /// Whether a strict one can answer so: all is the same, its export is refused, or a sheet is too long to be handed in or for its
    /// buffer, which is all that is left to the caller.
    pub fn is_strict(&self) -> bool {
        let too_long = [HEADING as u64, BUFFER_SHORT as u64].contains(&self.number);
        match self.answer {
            ALL_SAME | EXPORT_REFUSED => true,
            IMPORT_REFUSED | AGAIN_REFUSED => too_long,
            PLAIN_REFUSED => self.number == BUFFER_SHORT as u64,
            _ => false,
        }
    }

    /// Zeros in all four buffers, also in those of steps before it.
    fn refused(step: usize, number: Number, lent: &[Vec<u8>; 4]) -> Trip {
        Trip { answer: step as u64 + 1, number: number as u64, buffers: lent.each_ref().map(|lent| vec![0; lent.len()]) }
    }
}

/// The library's round trip of a sheet into buffers, with this export and under its order; none where it has none.
type Asked = fn(&[u8], &[Vec<u8>; 4], Request) -> Option<Trip>;

const LIBRARY: [(Asked, &str); 2] =
    [(library::round_trip, "the library"), (library::round_trip_with_order, "the library asked with order 0")];

/// The round trip with this export and under its order, if our library's is the same; else both on the smallest sheet that is found
/// to differ.
pub fn compared(rust: &Rust, model: &Model, sheet: &[u8], lent: &[Vec<u8>; 4], export: Request) -> Result<Trip, String> {
    let expected = |sheet: &[u8]| Trip::of(&steps(rust, model, sheet, export), lent);
    let trip = expected(sheet);
    for (asked, name) in LIBRARY {
        let Some(ours) = asked(sheet, lent, export).filter(|ours| *ours != trip) else {
            continue;
        };
        let small = smallest(sheet.to_vec(), |sheet| asked(sheet, lent, export) != Some(expected(sheet)));
        let (trip, ours) = (expected(&small), asked(&small, lent, export).unwrap_or(ours));
        let Request { call, argument } = export;
        let (call, small) = (call.name(), small.escape_ascii());
        return Err(format!("the round trip by {call} {argument} on \"{small}\": {trip}, but {name} {ours}"));
    }
    Ok(trip)
}

impl fmt::Display for Trip {
    fn fmt(&self, f: &mut fmt::Formatter<'_>) -> fmt::Result {
        write!(f, "answer {}, number {}, buffers", self.answer, self.number)?;
        for buffer in &self.buffers {
            match buffer.iter().all(|byte| *byte == 0) {
                true => write!(f, " {} zeros", buffer.len())?,
                false => write!(f, " \"{}\"", buffer.escape_ascii())?,
            }
        }
        Ok(())
    }
}
