//! The recorded list of answers: made from the Rust, and replayed against it and against the plain reading.

mod choose;
mod list;

use std::io::Write;

use crate::answer::Outcome;
use crate::compare::{answer, Case, Counts, OTHERS};
use crate::failure::Failure;
use crate::model::Model;
use crate::oracle::Rust;
use list::Record;

/// Writes the list from a seed; what it holds is told on standard error.
pub fn record(rust: &Rust, seed: u64, out: &mut dyn Write) -> Result<(), Failure> {
    let records = choose::choose(rust, seed).map_err(Failure::Found)?;
    let mut counts = Counts::default();
    records.iter().for_each(|record| counts.add(record.request, record.number as u8));
    write!(std::io::stderr(), "{} records from seed {seed}; numbers by call:\n{counts}", records.len())?;
    out.write_all(&list::write(&records))?;
    Ok(())
}

/// Replays a list; the first record that differs ends it.
pub fn check(rust: &Rust, text: &[u8], out: &mut dyn Write) -> Result<(), Failure> {
    let records = list::read(text).map_err(Failure::Wrong)?;
    let model = Model::new();
    writeln!(out, "{} records", records.len())?;
    let agreed = replay(&records, "the Rust", |case| {
        let in_rust = case.request.is_partly_in_rust();
        in_rust.then(|| Outcome::of(&answer(rust, &model, case.request, case.sheet), case.lent()))
    })?;
    writeln!(out, "{agreed} agree with the Rust")?;
    for (other, name) in OTHERS {
        let agreed = replay(&records, name, |case| other.outcome(&model, case))?;
        if agreed > 0 {
            writeln!(out, "{agreed} agree with {name}")?;
        }
    }
    Ok(())
}

/// How many records agree: all that `outcome` has an answer for, or else it is an error.
fn replay(records: &[Record], who: &str, outcome: impl Fn(&Case) -> Option<Outcome>) -> Result<usize, Failure> {
    let mut agreed = 0;
    for (place, record) in records.iter().enumerate() {
        let case = record.case();
        let Some(outcome) = outcome(&case) else {
            continue;
        };
        if !record.is(&outcome, &case.lent()) {
            let request = record.request;
            return Err(Failure::Found(format!("record {place}, {request}: {who} answers {outcome}")));
        }
        agreed += 1;
    }
    Ok(agreed)
}
