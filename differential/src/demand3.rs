//! Demand 3 run on the Rust, with plain form by the plain reading: a field without reserved keys and without dictionary
//! indices of 128 bits that can be exported comes back from its export in plain form; the plain form is exported as the
//! field is; and two such fields have equal exports exactly if their plain forms are equal. With big-endian metadata, which
//! the Rust has not, it is run on the plain reading alone. Where our library has the three calls, it is run on those alone
//! too, and on its round trip. What an export gives under the order that it was not made in is counted, and never a failure.
//! These fields, and with each pair one that is rich in what strict export refuses, are exported strictly too (`strict_return.rs`).

use std::fmt;
use std::io::Write;

use crate::answer::{Answer, Answered};
use crate::call::{Call, Order, Request, ORDERS};
use crate::compare::{answer, lent};
use crate::failure::Failure;
use crate::generator::Generator;
use crate::library;
use crate::model::Model;
use crate::oracle::Rust;
use crate::strict_return::Strict;
use crate::trip;

/// Sheets handed in have at most so many bytes.
pub const LONGEST_SHEET: usize = 65_535;

/// Runs it over at least `fields` fields that the demand speaks of, under each order.
pub fn demand3(rust: &Rust, fields: u64, seed: u64, out: &mut dyn Write) -> Result<(), Failure> {
    let model = Model::new();
    let mut runs = ORDERS.map(|order| Run { rust, model: &model, order, counted: Counted::default() });
    let mut strictly = ORDERS.map(|order| Strict::new(rust, &model, order));
    let mut generator = Generator::short(seed);
    // of its own, so that the pairs are what they are without these
    let mut causes = Generator::short(seed);
    let mut tried = 0;
    while runs.iter().any(|run| run.counted.returned < fields) {
        let (first, second) = generator.two_fields();
        let two = [&first[..], &second[..]];
        tried += 2;
        let [little, big] = &mut runs;
        let come_back = little.try_two(two).map_err(Failure::Found)?;
        let come_back_big = big.try_two(two).map_err(Failure::Found)?;
        for (field, (little, big)) in two.iter().zip(come_back.iter().zip(&come_back_big)) {
            same_but_order(field, little, big).map_err(Failure::Found)?;
        }
        let third = causes.strict_field();
        for strict in &mut strictly {
            for field in [&first, &second, &third] {
                strict.try_field(field).map_err(Failure::Found)?;
            }
        }
    }
    for run in &runs {
        run.tell(tried, seed, out)?;
    }
    for strict in &strictly {
        writeln!(out, "{strict}")?;
    }
    let [little, big] = runs.map(|run| run.counted);
    writeln!(
        out,
        "{} fields came back little-endian and {} big-endian; read under the other order, of which nothing is promised, \
         the little-endian exports gave {}, the big-endian ones {}",
        little.returned, big.returned, little.crossed, big.crossed
    )?;
    Ok(())
}

/// The demand under an order.
struct Run<'a> {
    rust: &'a Rust,
    model: &'a Model,
    order: Order,
    counted: Counted,
}

#[derive(Default)]
struct Counted {
    /// Fields that came back.
    returned: u64,
    /// Pairs of fields with equal exports, and with different ones.
    alike: u64,
    unlike: u64,
    /// Round trips of our library.
    trips: u64,
    crossed: Crossed,
}

/// What exports give under the order that they were not made in: the plain form, another field, or a refusal.
#[derive(Default)]
struct Crossed {
    plain: u64,
    other: u64,
    refused: u64,
}

impl Run<'_> {
    fn answer(&self, order: Order, call: Call, sheet: &[u8]) -> Answered {
        answer(self.rust, self.model, Request::under(call, order.number()), sheet)
    }

    fn try_two(&mut self, two: [&[u8]; 2]) -> Result<[Option<Returned>; 2], String> {
        let order = self.order;
        let both = two_come_back(self.model, two, &|call, sheet| self.answer(order, call, sheet))?;
        if library::has_demand3(order) {
            ours_come_back(self.model, two, &both, order)?;
        }
        for (field, back) in two.iter().zip(&both).filter_map(|(field, back)| Some((field, back.as_ref()?))) {
            self.counted.returned += 1;
            self.cross(back);
            if library::has_round_trip(Call::Export, order) {
                self.counted.trips += self.round_trips(field, back)? as u64;
            }
        }
        if let [Some((x, _)), Some((y, _))] = &both {
            self.counted.alike += (x == y) as u64;
            self.counted.unlike += (x != y) as u64;
        }
        Ok(both)
    }

    /// Reads an export under the order that it was not made in.
    fn cross(&mut self, (exported, plain): &Returned) {
        let other = match self.order {
            Order::Little => Order::Big,
            Order::Big => Order::Little,
        };
        let imported = self.answer(other, Call::Import, exported);
        let Crossed { plain: same, other, refused } = &mut self.counted.crossed;
        match imported {
            Ok(Answer::Sheet(field)) if field == *plain => *same += 1,
            Ok(_) => *other += 1,
            Err(_) => *refused += 1,
        }
    }

    /// Whether the field's round trip can go all the way, which then answers that all came back the same.
    fn round_trips(&self, field: &[u8], (exported, plain): &Returned) -> Result<bool, String> {
        let rooms = [exported.len() + 3, plain.len(), plain.len() + 5, exported.len()];
        let export = Request::under(Call::Export, self.order.number());
        let trip = trip::compared(self.rust, self.model, field, &rooms.map(lent), export)?;
        let handed_in = exported.len() <= LONGEST_SHEET && plain.len() <= LONGEST_SHEET;
        match handed_in == (trip.answer == trip::ALL_SAME) {
            true => Ok(handed_in),
            false => Err(format!("{trip} is the round trip of {}", field.escape_ascii())),
        }
    }

    fn tell(&self, tried: u64, seed: u64, out: &mut dyn Write) -> Result<(), Failure> {
        let Counted { returned, alike, unlike, trips, .. } = self.counted;
        let order = self.order.name();
        let by = match self.order {
            Order::Little => "the Rust",
            Order::Big => "the plain reading",
        };
        writeln!(
            out,
            "{order}: {returned} fields of {tried} from seed {seed} came back from {by} in plain form, whose export is theirs;"
        )?;
        writeln!(
            out,
            "{order}: {alike} pairs with equal exports and {unlike} with different ones, their plain forms likewise"
        )?;
        if library::has_demand3(self.order) {
            writeln!(
                out,
                "{order}, the library: all of this with the same exports and plain forms, by its own export, import and plain form"
            )?;
        }
        if library::has_round_trip(Call::Export, self.order) {
            writeln!(
                out,
                "{order}, the library: {trips} round trips of these fields answer 0, the four sheets in their buffers"
            )?;
        }
        Ok(())
    }
}

impl fmt::Display for Crossed {
    fn fmt(&self, f: &mut fmt::Formatter<'_>) -> fmt::Result {
        write!(f, "{} plain forms, {} other fields and {} refusals", self.plain, self.other, self.refused)
    }
}

/// Under both orders a field comes back or not, with the same plain form and with exports of one length.
fn same_but_order(field: &[u8], little: &Option<Returned>, big: &Option<Returned>) -> Result<(), String> {
    let told = |back: &Option<Returned>| back.as_ref().map(|(exported, plain)| (exported.len(), plain.clone()));
    match told(little) == told(big) {
        true => Ok(()),
        false => Err(format!("the orders differ in more than the blocks: {}", field.escape_ascii())),
    }
}

/// A field's export and its plain form.
pub type Returned = (Vec<u8>, Vec<u8>);

/// What answers import, the exports and plain form.
pub type Answers<'a> = &'a dyn Fn(Call, &[u8]) -> Answered;

/// Both fields come back, and have equal exports exactly if their plain forms are equal.
fn two_come_back(model: &Model, fields: [&[u8]; 2], answers: Answers) -> Result<[Option<Returned>; 2], String> {
    let [first, second] = fields;
    let both = [returned_by(model, first, answers)?, returned_by(model, second, answers)?];
    if let [Some((x, plain_x)), Some((y, plain_y))] = &both {
        if (x == y) != (plain_x == plain_y) {
            let (first, second) = (first.escape_ascii(), second.escape_ascii());
            return Err(format!("exports or plain forms alike, but not both: {first} and {second}"));
        }
    }
    Ok(both)
}

/// Both fields come back from our library, with the same exports and plain forms.
fn ours_come_back(model: &Model, fields: [&[u8]; 2], expected: &[Option<Returned>; 2], order: Order) -> Result<(), String> {
    let answers = |call, sheet: &[u8]| library::answer(Request::under(call, order.number()), sheet);
    let ours = two_come_back(model, fields, &answers).map_err(|what| format!("by the library: {what}"))?;
    match fields.iter().zip(ours.iter().zip(expected)).find(|(_, (ours, expected))| ours != expected) {
        Some((field, _)) => Err(format!("the library exports or makes plain otherwise: {}", field.escape_ascii())),
        None => Ok(()),
    }
}

/// Export, import and export again by the Rust, where demand 3 speaks of the field; None where it does not.
pub fn comes_back(rust: &Rust, model: &Model, field: &[u8]) -> Result<Option<Returned>, String> {
    returned_by(model, field, &|call, sheet| answer(rust, model, Request::new(call, 0), sheet))
}

fn returned_by(model: &Model, field: &[u8], answers: Answers) -> Result<Option<Returned>, String> {
    if model.comes_back(field) != Some(true) {
        return Ok(None);
    }
    let Ok(Answer::Sheet(exported)) = answers(Call::Export, field) else {
        return Ok(None);
    };
    let Ok(Answer::Sheet(plain)) = answers(Call::Plain, field) else {
        return Err(format!("no plain form of {}", field.escape_ascii()));
    };
    if exported.len() <= LONGEST_SHEET && answers(Call::Import, &exported) != Ok(Answer::Sheet(plain.clone())) {
        return Err(format!("the export is not imported to the plain form: {}", field.escape_ascii()));
    }
    if plain.len() <= LONGEST_SHEET && answers(Call::Export, &plain) != Ok(Answer::Sheet(exported.clone())) {
        return Err(format!("the plain form is not exported as the field: {}", field.escape_ascii()));
    }
    Ok(Some((exported, plain)))
}
