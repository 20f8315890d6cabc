//! Document 02, #106, run on any field: strict export refuses it with 17 or 18 exactly if demand 3 does not speak of it, and else answers
//! as export does; what it writes, if that can be handed in, imports to the plain form, which is exported strictly to the same bytes. On
//! the Rust, with what it has not by the plain reading, and on our library's own calls and its strict round trip where it has them.

use std::fmt;

use crate::answer::{Answer, Answered};
use crate::call::{Call, Order, Request};
use crate::compare::{answer, lent};
use crate::demand3::{Answers, LONGEST_SHEET};
use crate::library;
use crate::model::Model;
use crate::oracle::Rust;
use crate::refusal::{RESERVED_KEY, WIDE_INDEX};
use crate::trip;

/// The request under an order.
pub struct Strict<'a> {
    rust: &'a Rust,
    model: &'a Model,
    order: Order,
    counted: Counted,
}

#[derive(Default)]
struct Counted {
    /// Fields whose strict export imported to the plain form, and those whose export cannot be handed in.
    returned: u64,
    long: u64,
    reserved_key: u64,
    wide_index: u64,
    /// Refused as by export.
    otherwise: u64,
    /// Strict round trips of our library.
    trips: u64,
}

impl<'a> Strict<'a> {
    pub fn new(rust: &'a Rust, model: &'a Model, order: Order) -> Strict<'a> {
        Strict { rust, model, order, counted: Counted::default() }
    }

    fn request(&self, call: Call) -> Request {
        Request::under(call, self.order.number())
    }

    pub fn try_field(&mut self, field: &[u8]) -> Result<(), String> {
        let exported = returns(self.model, field, &|call, sheet| answer(self.rust, self.model, self.request(call), sheet))?;
        if self.is_in_library() {
            let ours = returns(self.model, field, &|call, sheet| library::answer(self.request(call), sheet));
            if ours.map_err(|what| format!("by the library: {what}"))? != exported {
                return Err(format!("the library exports otherwise: {}", field.escape_ascii()));
            }
        }
        if library::has_round_trip(Call::StrictExport, self.order) {
            self.round_trip(field, &exported)?;
        }
        let Counted { returned, long, reserved_key, wide_index, otherwise, .. } = &mut self.counted;
        *match exported {
            Ok(Answer::Sheet(exported)) if exported.len() > LONGEST_SHEET => long,
            Ok(_) => returned,
            Err(RESERVED_KEY) => reserved_key,
            Err(WIDE_INDEX) => wide_index,
            Err(_) => otherwise,
        } += 1;
        Ok(())
    }

    fn is_in_library(&self) -> bool {
        library::has_demand3(self.order) && library::has(self.request(Call::StrictExport))
    }

    /// With room for all, it is refused where strict export is, and else all is the same or a sheet is too long.
    fn round_trip(&mut self, field: &[u8], exported: &Answered) -> Result<(), String> {
        // no answer is eight times as long as its sheet
        let room = 8 * field.len();
        let trip = trip::compared(self.rust, self.model, field, &[room; 4].map(lent), self.request(Call::StrictExport))?;
        let refused = trip.answer == trip::EXPORT_REFUSED;
        self.counted.trips += (trip.answer == trip::ALL_SAME) as u64;
        match trip.is_strict() && refused == exported.is_err() {
            true => Ok(()),
            false => Err(format!("{trip} is the strict round trip of {}", field.escape_ascii())),
        }
    }
}

/// What strict export answers; an error where the request does not hold.
fn returns(model: &Model, field: &[u8], answers: Answers) -> Result<Answered, String> {
    let exported = answers(Call::StrictExport, field);
    let refused = matches!(exported, Err(RESERVED_KEY | WIDE_INDEX));
    let told = |what: &str| Err(format!("{what}: {}", field.escape_ascii()));
    match model.comes_back(field) {
        Some(false) if !refused => return told("a reserved key or an index of 128 bits is let through"),
        Some(false) => return Ok(exported),
        _ if exported != answers(Call::Export, field) => return told("strict export is not export"),
        _ => {}
    }
    let Ok(Answer::Sheet(written)) = &exported else {
        return Ok(exported);
    };
    let plain = answers(Call::Plain, field);
    if written.len() <= LONGEST_SHEET && (plain.is_err() || answers(Call::Import, written) != plain) {
        return told("the strict export is not imported to the plain form");
    }
    match plain {
        Ok(Answer::Sheet(plain)) if plain.len() <= LONGEST_SHEET && answers(Call::StrictExport, &plain) != exported => {
            told("the plain form is not strictly exported as the field")
        }
        _ => Ok(exported),
    }
}

impl fmt::Display for Strict<'_> {
    fn fmt(&self, f: &mut fmt::Formatter<'_>) -> fmt::Result {
        let Counted { returned, long, reserved_key, wide_index, otherwise, trips } = self.counted;
        let order = self.order.name();
        write!(
            f,
            "{order}, strictly: {returned} fields came back in plain form, {long} exports are too long to be handed in; refused were \
             {reserved_key} with 17, {wide_index} with 18 and {otherwise} as by export"
        )?;
        if self.is_in_library() {
            write!(f, "; the library answers the same")?;
        }
        match trips {
            0 => Ok(()),
            _ => write!(f, "; {trips} strict round trips of the library answer 0"),
        }
    }
}
