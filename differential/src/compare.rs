//! The Rust held against the plain reading, and against our library where one is linked, over generated sheets. What the Rust has
//! not, big-endian metadata among it, is the plain reading held against our library. A measure has its length from the conversion's
//! answer, so that both are held against that; for some sheets its lines are also found by what the Rust visits. Strict export is held
//! to export's answer, unless a cause to refuse stands in the sheet's columns.

use std::collections::BTreeMap;
use std::fmt;
use std::io::Write;

use crate::answer::{Answer, Answered, Outcome};
use crate::call::{Call, Input, Order, Request, BIG_NUMBERS, CALLS, ORDERS};
use crate::causes;
use crate::failure::Failure;
use crate::generator::{limits, Generator, Kind, Random, Sheet};
use crate::library;
use crate::model::Model;
use crate::oracle::Rust;
use crate::refusal::{HEADING, LEVELS, LINE, NUMBERS};
use crate::trip::{self, Trip};
use crate::visits;

/// What a call is asked: the request, its sheet, and the bytes of the buffer that is lent.
pub struct Case<'a> {
    pub request: Request,
    pub sheet: &'a [u8],
    pub room: usize,
}

impl Case<'_> {
    /// A call that writes no sheet is lent nothing.
    pub fn lent(&self) -> Vec<u8> {
        lent(if self.request.call.writes() { self.room } else { 0 })
    }
}

/// A buffer before a call: no byte is 0, so that zeros and bytes that are kept can be told.
pub fn lent(room: usize) -> Vec<u8> {
    (0..room).map(|at| 1 + (at % 255) as u8).collect()
}

/// The requests that a sheet of this kind can be put to, under both orders where the call takes one.
pub fn requests(random: &mut Random, kind: Kind) -> Vec<Request> {
    let input = match kind {
        Kind::Schema => Input::SchemaSheet,
        Kind::Field => Input::FieldSheet,
    };
    let index = random.pick(&[0, 0, 0, 1, 1, 2, 3, 4, 1 << 32, i64::MAX as u64, u64::MAX]);
    let place = if random.chance(1, 8) { index } else { random.below(20) as u64 };
    let calls = CALLS.iter().map(|(call, _)| *call).filter(|call| call.input() == input || call.input() == Input::Place);
    let arguments = |call: Call| match (call.input(), call) {
        (Input::Place, _) => vec![place],
        (_, Call::GetChild) => vec![index],
        _ if call.takes_order() => ORDERS.map(Order::number).to_vec(),
        _ => vec![0],
    };
    calls.flat_map(|call| arguments(call).into_iter().map(move |argument| Request::new(call, argument))).collect()
}

/// A number that means the order.
fn any_number(random: &mut Random, order: Order) -> u64 {
    match order {
        Order::Little => order.number(),
        Order::Big => random.pick(&BIG_NUMBERS),
    }
}

/// A buffer for the answer: exact, one short, empty, with bytes to spare, or any.
pub fn room(random: &mut Random, answered: &Answered) -> usize {
    let len = match answered {
        Ok(Answer::Sheet(sheet)) => sheet.len(),
        Ok(Answer::Values(..)) => return 0,
        Err(_) => 40,
    };
    match random.below(6) {
        0 => len.saturating_sub(1),
        1 => 0,
        2 => random.below(len + 1),
        3 => len,
        _ => len + random.below(50),
    }
}

/// How often each call gave each number, and a round trip each answer with its number, under each order.
#[derive(Default)]
pub struct Counts {
    numbers: [[[u64; NUMBERS]; ORDERS.len()]; CALLS.len()],
    /// In the order of `TRIPS`.
    trips: [[BTreeMap<(u64, u64), u64>; ORDERS.len()]; TRIPS.len()],
}

/// The round trips by what exports in them.
pub const TRIPS: [(Call, &str); 2] = [(Call::Export, "round_trip"), (Call::StrictExport, "strict_round_trip")];

impl Counts {
    pub fn add(&mut self, request: Request, number: u8) {
        self.numbers[request.call as usize][request.order() as usize][number as usize] += 1;
    }

    fn add_trip(&mut self, export: Call, order: Order, trip: &Trip) {
        let strict = (export == Call::StrictExport) as usize;
        *self.trips[strict][order as usize].entry((trip.answer, trip.number)).or_default() += 1;
    }

    fn total(&self) -> u64 {
        let trips = self.trips.iter().flatten().flat_map(BTreeMap::values);
        self.numbers.iter().flatten().flatten().chain(trips).sum()
    }
}

impl fmt::Display for Counts {
    fn fmt(&self, f: &mut fmt::Formatter<'_>) -> fmt::Result {
        for (call, order) in CALLS.iter().flat_map(|(call, _)| ORDERS.map(|order| (*call, order))) {
            let numbers = self.numbers[call as usize][order as usize].iter().enumerate();
            let numbers = numbers.filter(|(_, count)| **count > 0).map(|(number, count)| format!("{number}: {count}"));
            write_row(f, Request::under(call, order.number()), numbers)?;
        }
        for ((_, name), trips) in TRIPS.iter().zip(&self.trips) {
            write_row(f, name, trip_counts(&trips[0]))?;
            write_row(f, format!("{name}, big-endian"), trip_counts(&trips[1]))?;
        }
        Ok(())
    }
}

/// How often each answer of a round trip came, with its number.
fn trip_counts(trips: &BTreeMap<(u64, u64), u64>) -> impl Iterator<Item = String> + '_ {
    trips.iter().map(|((answer, number), count)| match number {
        0 => format!("{answer}: {count}"),
        _ => format!("{answer} by {number}: {count}"),
    })
}

/// A row of counts, if there are any.
fn write_row(f: &mut fmt::Formatter, name: impl fmt::Display, counts: impl Iterator<Item = String>) -> fmt::Result {
    let counts: Vec<String> = counts.collect();
    match counts.is_empty() {
        true => Ok(()),
        false => writeln!(f, "  {name:<24} {}", counts.join(", ")),
    }
}

/// What is compared.
#[derive(Clone, Copy, PartialEq)]
pub enum Scope {
    All,
    Only(Call),
    /// Of our library, against its four steps, with these exports.
    RoundTrips(Call),
    /// Strict export, the present one and the strict round trip, on field sheets that are rich in what it refuses.
    Strict,
}

impl Scope {
    fn has(self, call: Call) -> bool {
        match self {
            Scope::All => true,
            Scope::Only(only) => only == call,
            Scope::RoundTrips(_) => false,
            Scope::Strict => matches!(call, Call::Export | Call::StrictExport),
        }
    }

    fn has_round_trips(self, export: Call) -> bool {
        match self {
            Scope::All => true,
            Scope::Only(_) => false,
            Scope::RoundTrips(of) => of == export,
            Scope::Strict => export == Call::StrictExport,
        }
    }

    /// The next sheet to compare on.
    fn sheet(self, generator: &mut Generator) -> Sheet {
        let input = match self {
            Scope::Strict => return generator.strict_sheet(),
            Scope::All => return generator.sheet(),
            Scope::RoundTrips(_) => Input::FieldSheet,
            Scope::Only(call) => call.input(),
        };
        match input {
            Input::SchemaSheet => generator.sheet_of(Kind::Schema),
            Input::FieldSheet => generator.sheet_of(Kind::Field),
            Input::Place => generator.sheet(),
        }
    }
}

/// What is held against what, and over which calls.
struct Comparison<'a> {
    rust: &'a Rust,
    model: Model,
    scope: Scope,
    counts: Counts,
    /// How many measures had their lines found by the Rust.
    visits: u64,
}

/// Compares `sheets` sheets; the first difference ends it, told with its smallest input.
pub fn compare(rust: &Rust, sheets: u64, seed: u64, scope: Scope, out: &mut dyn Write) -> Result<(), Failure> {
    let mut comparison = Comparison { rust, model: Model::new(), scope, counts: Counts::default(), visits: 0 };
    compare_utf8(&comparison.model).map_err(Failure::Found)?;
    compare_kind_names(rust, &comparison.model).map_err(Failure::Found)?;
    let mut generator = Generator::new(seed);
    for done in 0..sheets {
        let sheet = scope.sheet(&mut generator);
        let compared = comparison.compare_sheet(&mut generator.random, &sheet);
        compared.map_err(|difference| Failure::Found(format!("sheet {done}: {difference}")))?;
    }
    comparison.compare_long_answers(&mut generator.random).map_err(Failure::Found)?;
    comparison.compare_conversions().map_err(Failure::Found)?;
    let counts = comparison.counts;
    writeln!(out, "numbers by call:")?;
    write!(out, "{counts}")?;
    if comparison.visits > 0 {
        writeln!(out, "{} measures had as many lines as the Rust visits", comparison.visits)?;
    }
    writeln!(out, "{sheets} sheets from seed {seed}, {} answers, no difference", counts.total())?;
    Ok(())
}

impl Comparison<'_> {
    /// What is not in the Rust can only be our library held against the plain reading.
    fn wants(&self, request: Request) -> bool {
        let can_be = request.is_partly_in_rust() || library::has(request);
        can_be && self.scope.has(request.call)
    }

    fn wants_round_trips(&self, export: Call, order: Order) -> bool {
        library::has_round_trip(export, order) && self.scope.has_round_trips(export)
    }

    fn compare_sheet(&mut self, random: &mut Random, sheet: &Sheet) -> Result<(), String> {
        for mut request in requests(random, sheet.kind) {
            if !self.wants(request) {
                continue;
            }
            if request.is_big() {
                request.argument = any_number(random, Order::Big);
            }
            let answered = answer(self.rust, &self.model, request, &sheet.bytes);
            let case = Case { request, sheet: &sheet.bytes, room: room(random, &answered) };
            self.compare_case(&case, &answered)?;
            if random.chance(1, 8) {
                self.compare_visits(&case, &answered)?;
            }
            // What import gives is a field sheet, and goes on to the calls that read one.
            if let (Call::Import, Ok(Answer::Sheet(field)), true) = (request.call, answered, random.chance(1, 4)) {
                self.compare_sheet(random, &Sheet { kind: Kind::Field, bytes: field })?;
            }
        }
        for (export, order) in TRIPS.iter().flat_map(|(export, _)| ORDERS.map(|order| (*export, order))) {
            if sheet.kind == Kind::Field && self.wants_round_trips(export, order) {
                self.compare_round_trip(random, &sheet.bytes, export, order)?;
            }
        }
        Ok(())
    }

    /// The lines of a measure against those that the Rust visits, of sheets that are answered and not long.
    fn compare_visits(&mut self, case: &Case, answered: &Answered) -> Result<(), String> {
        let (Some(conversion), Ok(Answer::Values(_, lines))) = (case.request.measured(), answered) else {
            return Ok(());
        };
        if !conversion.is_in_rust() {
            return Ok(());
        }
        let converted = self.rust.answer(conversion, case.sheet);
        match visits::by_faults(self.rust, conversion.call, case.sheet, &converted)? {
            None => Ok(()),
            Some(visited) if visited == *lines => {
                self.visits += 1;
                Ok(())
            }
            Some(visited) => {
                let (call, sheet) = (case.request.call.name(), case.sheet.escape_ascii());
                Err(format!("{call} has {lines} lines, but the Rust visits {visited} of \"{sheet}\""))
            }
        }
    }

    /// Half of them have room in all four buffers.
    fn compare_round_trip(&mut self, random: &mut Random, sheet: &[u8], export: Call, order: Order) -> Result<(), String> {
        let export = Request::new(export, any_number(random, order));
        let steps = trip::steps(self.rust, &self.model, sheet, export);
        let any = random.below(8);
        let rooms = [0, 1, 2, 3].map(|step| match steps.get(step) {
            Some(Ok(Answer::Sheet(sheet))) if step != any => sheet.len() + random.below(50),
            Some(answered) => room(random, answered),
            None => random.below(50),
        });
        let trip = trip::compared(self.rust, &self.model, sheet, &rooms.map(lent), export)?;
        self.counts.add_trip(export.call, order, &trip);
        match export.call == Call::StrictExport && !trip.is_strict() {
            true => Err(format!("{trip} is the strict round trip of \"{}\"", sheet.escape_ascii())),
            false => Ok(()),
        }
    }

    /// Answers far longer than generated sheets have, each with some buffers.
    fn compare_long_answers(&mut self, random: &mut Random) -> Result<(), String> {
        for sheet in limits::long_answers() {
            for _ in 0..4 {
                self.compare_sheet(random, &sheet)?;
            }
        }
        Ok(())
    }

    /// All places of both enumerations, and some past them.
    fn compare_conversions(&mut self) -> Result<(), String> {
        for call in [Call::FromIntegerType, Call::FromPrimitiveType] {
            if !self.wants(Request::new(call, 0)) {
                continue;
            }
            for place in (0..40).chain([1 << 32, u64::MAX]) {
                let request = Request::new(call, place);
                let answered = self.rust.answer(request, b"");
                for room in 0..100 {
                    self.compare_case(&Case { request, sheet: b"", room }, &answered)?;
                }
            }
        }
        Ok(())
    }

    fn compare_case(&mut self, case: &Case, answered: &Answered) -> Result<(), String> {
        let Case { request: Request { call, .. }, sheet, .. } = *case;
        if call.never_lengthens() && matches!(answered, Ok(Answer::Sheet(answer)) if answer.len() > sheet.len()) {
            return Err(format!("{} is longer than its sheet on \"{}\"", call.name(), sheet.escape_ascii()));
        }
        let outcome = Outcome::of(answered, case.lent());
        self.counts.add(case.request, outcome.number);
        for (other, name) in OTHERS {
            if other.outcome(&self.model, case).is_some_and(|others| others != outcome) {
                return Err(difference(self.rust, &self.model, other, name, case));
            }
        }
        Ok(())
    }
}

/// The class table of the stand-in against the plain reading's ranges and the standard library, over all texts of two bytes
/// and all of four whose last two are at the ends of the classes.
fn compare_utf8(model: &Model) -> Result<(), String> {
    const ENDS: [u8; 12] = [0x00, 0x7f, 0x80, 0x8f, 0x90, 0x9f, 0xa0, 0xbf, 0xc0, 0xc2, 0xf4, 0xff];
    for first in 0..=255u8 {
        for second in 0..=255u8 {
            for (third, fourth) in ENDS.iter().flat_map(|third| ENDS.iter().map(move |fourth| (*third, *fourth))) {
                let text = [first, second, third, fourth];
                for len in 1..=4 {
                    let text = &text[..len];
                    let is_utf8 = std::str::from_utf8(text).is_ok();
                    if model.is_utf8(text) != is_utf8 || simdutf8::basic::from_utf8(text).is_ok() != is_utf8 {
                        return Err(format!("UTF-8 differs on \"{}\"", text.escape_ascii()));
                    }
                }
            }
        }
    }
    Ok(())
}

/// The kinds' names on a page against the Rust's own.
fn compare_kind_names(rust: &Rust, model: &Model) -> Result<(), String> {
    for kind in 0..=41 {
        let (text, below) = match kind {
            27..=29 | 31 => ("~", "0 0 0 ~ ~ - 0 ~ 0\n"),
            32 => ("~", "0 0 0 ~ ~ ~ ~ ~ 0\n"),
            37 => ("-", "0 0 0 ~ ~ ~ ~ ~ 0\n"),
            _ => ("~", ""),
        };
        let children = below.lines().count();
        let heading = "kind p q text more name nullable pairs children";
        let sheet = format!("{heading}\n{kind} 0 0 {text} ~ - 0 ~ {children}\n{below}");
        let expected = rust.kind_name(sheet.as_bytes()).map(|name| format!("  1 {name:<16} n "));
        let page = model.answer(Request::new(Call::Page, 0), sheet.as_bytes());
        match (page, expected) {
            (Ok(Answer::Sheet(page)), Ok(expected)) if page.starts_with(expected.as_bytes()) => {}
            (page, expected) => return Err(format!("kind {kind}: {expected:?} by the Rust, but the page is {page:?}")),
        }
    }
    Ok(())
}

/// The answer that the others are held against: the Rust's, or the plain reading's for what the Rust has not. Of a measure it is the
/// length of the conversion's answer, and the lines of the plain reading; of strict export the answer of export, or the first cause.
pub fn answer(rust: &Rust, model: &Model, request: Request, sheet: &[u8]) -> Answered {
    let answered = match request.rests_on() {
        None if request.is_in_rust() => return rust.answer(request, sheet),
        None => return model.answer(request, sheet),
        Some(conversion) => answer(rust, model, conversion, sheet),
    };
    match (request.measured(), answered) {
        (None, answered) => strictly(answered, sheet),
        (Some(conversion), Ok(Answer::Sheet(written))) => {
            Ok(Answer::Values(written.len() as u64, model.visited(conversion.call, sheet)?))
        }
        (_, answered) => answered,
    }
}

/// What export answers, but that a cause comes before all that is not the sheet's form.
fn strictly(exported: Answered, sheet: &[u8]) -> Answered {
    match (&exported, causes::first(sheet)) {
        (Err(HEADING | LINE | LEVELS), _) | (_, None) => exported,
        (_, Some(cause)) => Err(cause),
    }
}

/// Those that are held against the Rust.
#[derive(Clone, Copy)]
pub enum Other {
    PlainReading,
    /// Where one is linked.
    Library,
    /// The same for little-endian metadata, by the function that takes the order.
    LibraryWithOrder,
}

pub const OTHERS: [(Other, &str); 3] = [
    (Other::PlainReading, "the plain reading"),
    (Other::Library, "the library"),
    (Other::LibraryWithOrder, "the library asked with order 0"),
];

impl Other {
    /// None where it does not have the call.
    pub fn outcome(self, model: &Model, case: &Case) -> Option<Outcome> {
        match self {
            Other::PlainReading => Some(model.outcome(case.request, case.sheet, case.lent())),
            Other::Library => library::outcome(case.request, case.sheet, &case.lent()),
            Other::LibraryWithOrder => library::outcome_with_order(case.request, case.sheet, &case.lent()),
        }
    }
}

/// Both answers on the smallest input that is found to differ.
fn difference(rust: &Rust, model: &Model, other: Other, name: &str, case: &Case) -> String {
    let both = |sheet: &[u8]| {
        let case = Case { sheet, ..*case };
        (Outcome::of(&answer(rust, model, case.request, sheet), case.lent()), other.outcome(model, &case))
    };
    let sheet = smallest(case.sheet.to_vec(), |sheet| {
        let (outcome, others) = both(sheet);
        others != Some(outcome)
    });
    let (outcome, others) = both(&sheet);
    let Request { call, argument } = case.request;
    let (call, input, room) = (call.name(), sheet.escape_ascii(), case.room);
    let others = others.unwrap_or_default();
    format!("{call} {argument} with a buffer of {room} bytes on \"{input}\": {outcome}, but {name} {others}")
}

/// Leaves out parts, from half of the sheet down to single bytes, as long as the rest still differs.
pub fn smallest(mut sheet: Vec<u8>, differs: impl Fn(&[u8]) -> bool) -> Vec<u8> {
    let mut part = sheet.len();
    while part > 0 {
        let mut at = 0;
        while at < sheet.len() {
            let end = (at + part).min(sheet.len());
            let rest = [&sheet[..at], &sheet[end..]].concat();
            if differs(&rest) {
                sheet = rest;
            } else {
                at = end;
            }
        }
        part /= 2;
    }
    sheet
}
