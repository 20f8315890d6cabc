//! Whether the generator tells each wrong reading of document 01 from the Rust, and each of what the Rust has not, the page, big-endian
//! metadata, the measures and strict export, from the right one.

use std::io::Write;

use crate::answer::{Answer, Outcome};
use crate::call::{Call, Order, Request, ORDERS};
use crate::compare::{self, requests, room, Case};
use crate::demand3::comes_back;
use crate::failure::Failure;
use crate::generator::{Generator, Kind, Sheet};
use crate::model::{Model, Wrong, WRONG_READINGS};
use crate::oracle::Rust;

/// A wrong reading, and the first sheet and call that told it.
struct Mutant {
    wrong: Wrong,
    what: &'static str,
    caught: Option<(u64, String)>,
}

/// Generates sheets until each wrong reading is caught, at most `limit` of them; prints after how many sheets and by what.
pub fn mutants(rust: &Rust, limit: u64, seed: u64, out: &mut dyn Write) -> Result<(), Failure> {
    let mutant = |(wrong, what): &(Wrong, &'static str)| Mutant { wrong: *wrong, what, caught: None };
    let mut mutants: Vec<Mutant> = WRONG_READINGS.iter().map(mutant).collect();
    let mut generator = Generator::new(seed);
    let mut done = 0;
    while done < limit && mutants.iter().any(|mutant| mutant.caught.is_none()) {
        let sheet = generator.sheet();
        done += 1;
        try_calls(rust, &mut generator, &sheet, done, &mut mutants);
        try_big(&sheet, done, &mut mutants);
        try_measures(rust, &sheet, done, &mut mutants);
        if sheet.kind == Kind::Field {
            try_strict(rust, &mut generator, &sheet, done, &mut mutants);
            try_plain(rust, &sheet, done, &mut mutants).map_err(Failure::Found)?;
            try_page(&sheet, done, &mut mutants);
        }
    }
    write_table(&mutants, out)?;
    let left = mutants.iter().filter(|mutant| mutant.caught.is_none()).count();
    let caught = mutants.len() - left;
    writeln!(out, "{} wrong readings, {caught} caught within {done} sheets from seed {seed}", mutants.len())?;
    match left {
        0 => Ok(()),
        _ => Err(Failure::Found(format!("{left} wrong readings were not caught"))),
    }
}

fn try_calls(rust: &Rust, generator: &mut Generator, sheet: &Sheet, done: u64, mutants: &mut [Mutant]) {
    for request in requests(&mut generator.random, sheet.kind) {
        if !request.is_in_rust() {
            continue;
        }
        let answered = rust.answer(request, &sheet.bytes);
        let case = Case { request, sheet: &sheet.bytes, room: room(&mut generator.random, &answered) };
        let outcome = Outcome::of(&answered, case.lent());
        for mutant in mutants.iter_mut().filter(|mutant| mutant.caught.is_none()) {
            if Model::wrongly(mutant.wrong).outcome(request, case.sheet, case.lent()) != outcome {
                mutant.caught = Some((done, request.to_string()));
            }
        }
    }
}

/// Big-endian metadata is not in the Rust: its readings, and only these, are told from the right one.
fn try_big(sheet: &Sheet, done: u64, mutants: &mut [Mutant]) {
    let call = match sheet.kind {
        Kind::Schema => Call::Import,
        Kind::Field => Call::Export,
    };
    let request = Request::under(call, Order::Big.number());
    let right = Model::new().answer(request, &sheet.bytes);
    for mutant in mutants.iter_mut().filter(|mutant| mutant.caught.is_none() && mutant.wrong.is_of_order()) {
        if Model::wrongly(mutant.wrong).answer(request, &sheet.bytes) != right {
            mutant.caught = Some((done, request.to_string()));
        }
    }
}

/// The measures are not in the Rust, but little-endian the answers whose lengths they tell are: their readings, and only these, are told
/// from the right one under both orders.
fn try_measures(rust: &Rust, sheet: &Sheet, done: u64, mutants: &mut [Mutant]) {
    let call = match sheet.kind {
        Kind::Schema => Call::MeasureImport,
        Kind::Field => Call::MeasureExport,
    };
    if mutants.iter().all(|mutant| mutant.caught.is_some() || !mutant.wrong.is_of_measures()) {
        return;
    }
    for request in ORDERS.map(|order| Request::under(call, order.number())) {
        let right = Outcome::of(&compare::answer(rust, &Model::new(), request, &sheet.bytes), Vec::new());
        for mutant in mutants.iter_mut().filter(|mutant| mutant.caught.is_none() && mutant.wrong.is_of_measures()) {
            if Model::wrongly(mutant.wrong).outcome(request, &sheet.bytes, Vec::new()) != right {
                mutant.caught = Some((done, request.to_string()));
            }
        }
    }
}

/// Strict export is not in the Rust, but what it answers where it lets a field through is: its readings, and only these, are told from
/// the right one under both orders.
fn try_strict(rust: &Rust, generator: &mut Generator, sheet: &Sheet, done: u64, mutants: &mut [Mutant]) {
    if mutants.iter().all(|mutant| mutant.caught.is_some() || !mutant.wrong.is_of_strict_export()) {
        return;
    }
    for request in ORDERS.map(|order| Request::under(Call::StrictExport, order.number())) {
        let answered = compare::answer(rust, &Model::new(), request, &sheet.bytes);
        let case = Case { request, sheet: &sheet.bytes, room: room(&mut generator.random, &answered) };
        let right = Outcome::of(&answered, case.lent());
        for mutant in mutants.iter_mut().filter(|mutant| mutant.caught.is_none() && mutant.wrong.is_of_strict_export()) {
            if Model::wrongly(mutant.wrong).outcome(request, case.sheet, case.lent()) != right {
                mutant.caught = Some((done, request.to_string()));
            }
        }
    }
}

/// Plain form is not in the Rust, but what comes back from its export is, where demand 3 speaks of the field.
fn try_plain(rust: &Rust, sheet: &Sheet, done: u64, mutants: &mut [Mutant]) -> Result<(), String> {
    let Some((_, returned)) = comes_back(rust, &Model::new(), &sheet.bytes)? else {
        return Ok(());
    };
    let returned = Ok(Answer::Sheet(returned));
    for mutant in mutants.iter_mut().filter(|mutant| mutant.caught.is_none()) {
        if Model::wrongly(mutant.wrong).answer(Request::new(Call::Plain, 0), &sheet.bytes) != returned {
            mutant.caught = Some((done, "demand 3".to_string()));
        }
    }
    Ok(())
}

/// The page is not in the Rust: it is told from the right page of the same field, so that only readings of the page are caught here.
fn try_page(sheet: &Sheet, done: u64, mutants: &mut [Mutant]) {
    let right = Model::new();
    let Ok(field) = right.read_field(&sheet.bytes) else {
        return;
    };
    let page = right.page(&field);
    for mutant in mutants.iter_mut().filter(|mutant| mutant.caught.is_none()) {
        if Model::wrongly(mutant.wrong).page(&field) != page {
            mutant.caught = Some((done, Call::Page.name().to_string()));
        }
    }
}

fn write_table(mutants: &[Mutant], out: &mut dyn Write) -> Result<(), Failure> {
    writeln!(out, "{:<26} {:>9}  {:<24}  reading", "name", "sheets", "caught by")?;
    for mutant in mutants {
        let (sheets, by) = match &mutant.caught {
            Some((sheets, by)) => (sheets.to_string(), &by[..]),
            None => ("-".to_string(), "not caught"),
        };
        writeln!(out, "{:<26} {sheets:>9}  {by:<24}  {}", format!("{:?}", mutant.wrong), mutant.what)?;
    }
    Ok(())
}
