//! Our own calls, from the static library that `differential/build --with LIBRARY` links; without it there are none.
//!
//! `host/rust/src/raw.rs` declares the library's functions, and this is the one place that asks them. `differential/build`
//! turns a feature on for each that the library has; a call whose feature is off is passed over by all commands. The import and the
//! export by hand (`by_hand.rs`) are asked in the same way.
//!
//! Import, export and the round trip have two functions each: one without the order of metadata blocks, which is asked where
//! that is little-endian, and one with it (document 02, #104), which is asked where it is big-endian. `outcome_with_order` and
//! `round_trip_with_order` ask the second for little-endian too, so that it can be compared there. A measure, strict export and the
//! strict round trip have one, with it.

use std::ptr;

use crate::answer::{Answer, Answered, Outcome};
use crate::call::{Call, Order, Request};
use crate::juzontefa::{self, ToMeasure, ToSheet};
use crate::trip::Trip;

type RoundTrip = unsafe extern "C" fn(
    *const u8,
    usize,
    *mut u8,
    usize,
    *mut u8,
    usize,
    *mut u8,
    usize,
    *mut u8,
    usize,
) -> juzontefa::Trip;

type RoundTripWithOrder = unsafe extern "C" fn(
    *const u8,
    usize,
    u64,
    *mut u8,
    usize,
    *mut u8,
    usize,
    *mut u8,
    usize,
    *mut u8,
    usize,
) -> juzontefa::Trip;

/// The library's function for a call, by what it takes and answers.
// A library need not have all of them.
#[allow(dead_code)]
enum Function {
    ToSheet(ToSheet),
    /// With an index, or with an order.
    WithNumber(unsafe extern "C" fn(*const u8, usize, u64, *mut u8, usize) -> juzontefa::Answer),
    Conversion(unsafe extern "C" fn(u64, *mut u8, usize) -> juzontefa::Answer),
    ToPlaces(unsafe extern "C" fn(*const u8, usize) -> juzontefa::Places),
    ToYesNo(unsafe extern "C" fn(*const u8, usize) -> juzontefa::YesNo),
    /// With an order.
    ToMeasure(ToMeasure),
}

/// The library's round trip.
// A library need not have both.
#[allow(dead_code)]
enum TripFunction {
    Little(RoundTrip),
    WithOrder(RoundTripWithOrder),
}

// A function's name stands only where its feature is on: else the library would be asked for it.
macro_rules! has {
    ($feature:literal, $form:expr, $name:ident) => {{
        #[cfg(feature = $feature)]
        let function = Some($form(juzontefa::$name));
        #[cfg(not(feature = $feature))]
        let function = None;
        function
    }};
}

/// The function for a request, if the library has it.
fn function(request: Request) -> Option<Function> {
    match request.call {
        Call::MeasureImport => has!("measure_import", Function::ToMeasure, juzontefa_measure_import),
        Call::MeasureExport => has!("measure_export", Function::ToMeasure, juzontefa_measure_export),
        Call::StrictExport => has!("strict_export", Function::WithNumber, juzontefa_strict_export),
        call if request.is_big() => function_with_order(call),
        Call::Import => has!("import", Function::ToSheet, juzontefa_import),
        Call::Export => has!("export", Function::ToSheet, juzontefa_export),
        Call::Plain => has!("plain_form", Function::ToSheet, juzontefa_plain_form),
        Call::ToPhysicalType => has!("to_physical_type", Function::ToPlaces, juzontefa_to_physical_type),
        Call::UnderlyingPhysicalType => {
            has!("underlying_physical_type", Function::ToSheet, juzontefa_underlying_physical_type)
        }
        Call::ToStorage => has!("to_storage", Function::ToSheet, juzontefa_to_storage),
        Call::ToStorageRecursive => has!("to_storage_recursive", Function::ToSheet, juzontefa_to_storage_recursive),
        Call::InnerDtype => has!("inner_dtype", Function::ToSheet, juzontefa_inner_dtype),
        Call::GetChild => has!("get_child", Function::WithNumber, juzontefa_get_child),
        Call::IsNested => has!("is_nested", Function::ToYesNo, juzontefa_is_nested),
        Call::ContainsDictionary => has!("contains_dictionary", Function::ToYesNo, juzontefa_contains_dictionary),
        Call::FromIntegerType => has!("from_integer_type", Function::Conversion, juzontefa_from_integer_type),
        Call::FromPrimitiveType => has!("from_primitive_type", Function::Conversion, juzontefa_from_primitive_type),
        Call::Page => has!("page", Function::ToSheet, juzontefa_page),
    }
}

/// The function that takes the order, of the calls that have one.
fn function_with_order(call: Call) -> Option<Function> {
    match call {
        Call::Import => has!("import_with_order", Function::WithNumber, juzontefa_import_with_order),
        Call::Export => has!("export_with_order", Function::WithNumber, juzontefa_export_with_order),
        _ => None,
    }
}

/// The round trip with this export, under its order.
fn trip_function(export: Request) -> Option<TripFunction> {
    match (export.call, export.order()) {
        (Call::StrictExport, _) => has!("strict_round_trip", TripFunction::WithOrder, juzontefa_strict_round_trip),
        (_, Order::Little) => has!("round_trip", TripFunction::Little, juzontefa_round_trip),
        (_, Order::Big) => trip_function_with_order(),
    }
}

fn trip_function_with_order() -> Option<TripFunction> {
    has!("round_trip_with_order", TripFunction::WithOrder, juzontefa_round_trip_with_order)
}

/// Whether a library is linked that has the call, under its order.
pub fn has(request: Request) -> bool {
    function(request).is_some()
}

/// Whether it has the round trip with this export, under the order.
pub fn has_round_trip(export: Call, order: Order) -> bool {
    trip_function(Request::under(export, order.number())).is_some()
}

/// Whether demand 3 can be run on the library.
pub fn has_demand3(order: Order) -> bool {
    [Call::Import, Call::Export, Call::Plain].into_iter().all(|call| has(Request::under(call, order.number())))
}

/// The call's outcome; none where `has` says no. Ends the program if the library changes its input or writes outside the
/// lent buffer.
pub fn outcome(request: Request, sheet: &[u8], lent: &[u8]) -> Option<Outcome> {
    Some(outcome_of(function(request)?, request.argument, sheet, lent))
}

/// The outcome of the little-endian call by the function that takes the order; none for all other requests.
pub fn outcome_with_order(request: Request, sheet: &[u8], lent: &[u8]) -> Option<Outcome> {
    match request.order() {
        Order::Little => Some(outcome_of(function_with_order(request.call)?, request.argument, sheet, lent)),
        Order::Big => None,
    }
}

fn outcome_of(function: Function, argument: u64, sheet: &[u8], lent: &[u8]) -> Outcome {
    let input = sheet.to_vec();
    let mut memory = Fenced::new(lent);
    let (number, first, second) = ask_function(function, argument, &input, memory.buffer());
    assert!(input == sheet, "the call changed its input");
    Outcome { number: u8::try_from(number).unwrap_or(u8::MAX), first, second, buffer: memory.end() }
}

/// The outcome of a function that takes a sheet and a buffer; ends the program as `outcome` does.
pub fn outcome_to_sheet(function: ToSheet, sheet: &[u8], lent: &[u8]) -> Outcome {
    outcome_of(Function::ToSheet(function), 0, sheet, lent)
}

/// What such a function answers: the number and the length.
pub fn ask_to_sheet(function: ToSheet, sheet: &[u8], out: &mut [u8]) -> (u64, u64) {
    let (number, length, _) = ask_function(Function::ToSheet(function), 0, sheet, out);
    (number, length)
}

/// What the call answers with a buffer that holds any answer. For calls that `has` says yes to.
pub fn answer(request: Request, sheet: &[u8]) -> Answered {
    // No answer is eight times as long as its sheet.
    let lent = vec![0xa5; 8 * sheet.len() + 256];
    match outcome(request, sheet, &lent) {
        Some(Outcome { number: 0, first, mut buffer, .. }) => {
            assert!(first <= buffer.len() as u64, "the library answers a length past the buffer");
            buffer.truncate(first as usize);
            Ok(Answer::Sheet(buffer))
        }
        Some(refused) => Err(refused.number),
        None => unreachable!("the library has no {request}"),
    }
}

/// The number, the length or first value, and the second value. For calls that `has` says yes to.
pub fn ask(request: Request, sheet: &[u8], out: &mut [u8]) -> (u64, u64, u64) {
    match function(request) {
        Some(function) => ask_function(function, request.argument, sheet, out),
        None => unreachable!("the library has no {request}"),
    }
}

fn ask_function(function: Function, argument: u64, sheet: &[u8], out: &mut [u8]) -> (u64, u64, u64) {
    let (from, len, to, room) = (start(sheet), sheet.len(), start_mut(out), out.len());
    let of_sheet = |told: juzontefa::Answer| (told.number, told.length, 0);
    let of_yes_no = |told: juzontefa::YesNo| (told.number, told.answer, 0);
    // SAFETY: both slices are live, and the functions keep to their lengths.
    unsafe {
        match function {
            Function::ToSheet(call) => of_sheet(call(from, len, to, room)),
            Function::WithNumber(call) => of_sheet(call(from, len, argument, to, room)),
            Function::Conversion(call) => of_sheet(call(argument, to, room)),
            Function::ToPlaces(call) => {
                let juzontefa::Places { number, place, inner } = call(from, len);
                (number, place, inner)
            }
            Function::ToYesNo(call) => of_yes_no(call(from, len)),
            Function::ToMeasure(call) => {
                let juzontefa::Measure { number, length, lines } = call(from, len, argument);
                (number, length, lines)
            }
        }
    }
}

/// The round trip of a sheet with this export, under its order; none where the library has no such call. Ends the program as
/// `outcome` does.
pub fn round_trip(sheet: &[u8], lent: &[Vec<u8>; 4], export: Request) -> Option<Trip> {
    Some(trip_of(trip_function(export)?, sheet, lent, export.argument))
}

/// The present little-endian round trip by the function that takes the order; none for the others.
pub fn round_trip_with_order(sheet: &[u8], lent: &[Vec<u8>; 4], export: Request) -> Option<Trip> {
    match (export.call, export.order()) {
        (Call::Export, Order::Little) => Some(trip_of(trip_function_with_order()?, sheet, lent, export.argument)),
        _ => None,
    }
}

fn trip_of(function: TripFunction, sheet: &[u8], lent: &[Vec<u8>; 4], order: u64) -> Trip {
    let input = sheet.to_vec();
    let mut memory = lent.each_ref().map(|lent| Fenced::new(lent));
    let told = {
        let [exported, imported, plain, again] = memory.each_mut().map(|memory| memory.buffer());
        let (from, to) = (start(&input), start_mut(exported));
        let (second, third, fourth) = (start_mut(imported), start_mut(plain), start_mut(again));
        let (len, [a, b, c, d]) = (input.len(), [exported.len(), imported.len(), plain.len(), again.len()]);
        // SAFETY: all five slices are live and do not overlap, and the library keeps to their lengths.
        unsafe {
            match function {
                TripFunction::Little(call) => call(from, len, to, a, second, b, third, c, fourth, d),
                TripFunction::WithOrder(call) => call(from, len, order, to, a, second, b, third, c, fourth, d),
            }
        }
    };
    assert!(input == sheet, "the library changed its input");
    Trip { answer: told.answer, number: told.number, buffers: memory.map(Fenced::end) }
}

/// The header allows a null pointer for nothing, so that is what it gets.
fn start(bytes: &[u8]) -> *const u8 {
    if bytes.is_empty() {
        ptr::null()
    } else {
        bytes.as_ptr()
    }
}

fn start_mut(bytes: &mut [u8]) -> *mut u8 {
    if bytes.is_empty() {
        ptr::null_mut()
    } else {
        bytes.as_mut_ptr()
    }
}

/// A lent buffer with bytes on both sides, to see whether something is written there.
struct Fenced(Vec<u8>);

const FENCE: [u8; 64] = [0xa5; 64];

impl Fenced {
    fn new(lent: &[u8]) -> Fenced {
        Fenced([&FENCE, lent, &FENCE].concat())
    }

    fn buffer(&mut self) -> &mut [u8] {
        let end = self.0.len() - FENCE.len();
        &mut self.0[FENCE.len()..end]
    }

    /// What the buffer holds at the end.
    fn end(mut self) -> Vec<u8> {
        assert!(self.0.starts_with(&FENCE) && self.0.ends_with(&FENCE), "the call wrote outside the buffer");
        self.buffer().to_vec()
    }
}
