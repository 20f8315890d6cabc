//! The recorded answers put to every call, and every recorded field sheet taken out and back in both byte orders.

mod list;

use juzontefa::*;
use list::{records, Record};

/// How many records there are.
const RECORDS: usize = 5559;
/// What a lent buffer holds before a call.
const FILLER: u8 = 0xa5;

/// The refusal's number or 0, the length or first value, the second value.
type Numbers = [u64; 3];

fn of_sheet(answer: Result<usize, Refusal>) -> Numbers {
    answer.map_or_else(refused, |length| [0, length as u64, 0])
}

fn of_yes_no(answer: Result<bool, Refusal>) -> Numbers {
    answer.map_or_else(refused, |yes| [0, yes as u64, 0])
}

fn of_places(answer: Result<Places, Refusal>) -> Numbers {
    answer.map_or_else(refused, |places| [0, places.place, places.inner])
}

fn of_measure(answer: Result<Measure, Refusal>) -> Numbers {
    answer.map_or_else(refused, |measure| [0, measure.length as u64, measure.lines as u64])
}

fn refused(refusal: Refusal) -> Numbers {
    [refusal.number(), 0, 0]
}

/// The order that a record of import, an export or a measure names.
fn order_of(argument: u64) -> ByteOrder {
    if argument == 0 {
        ByteOrder::LittleEndian
    } else {
        ByteOrder::BigEndian
    }
}

/// What the call of a code answers; `out` is lent to those that write a sheet or a page.
fn ask(record: &Record, out: &mut [u8]) -> Numbers {
    let (sheet, argument) = (&record.input[..], record.argument);
    match record.call {
        0 => of_sheet(import_with_order(sheet, order_of(argument), out)),
        1 => of_sheet(export_with_order(sheet, order_of(argument), out)),
        2 => of_sheet(plain_form(sheet, out)),
        3 => of_places(to_physical_type(sheet)),
        4 => of_sheet(underlying_physical_type(sheet, out)),
        5 => of_sheet(to_storage(sheet, out)),
        6 => of_sheet(to_storage_recursive(sheet, out)),
        7 => of_sheet(inner_dtype(sheet, out)),
        8 => of_sheet(get_child(sheet, argument, out)),
        9 => of_yes_no(is_nested(sheet)),
        10 => of_yes_no(contains_dictionary(sheet)),
        11 => of_sheet(from_integer_type(argument, out)),
        12 => of_sheet(from_primitive_type(argument, out)),
        13 => of_sheet(page(sheet, out)),
        14 => of_measure(measure_import(sheet, order_of(argument))),
        15 => of_measure(measure_export(sheet, order_of(argument))),
        16 => of_sheet(strict_export(sheet, order_of(argument), out)),
        code => panic!("no call has the code {code}"),
    }
}

/// A buffer that is long enough, whatever the sheet is; none for the calls that write nothing.
fn ample(record: &Record) -> Option<usize> {
    let n = record.input.len();
    match record.call {
        0 => Some(import_room(n)),
        1 | 16 => Some(export_room(n)),
        2 => Some(plain_form_room(n)),
        4..=8 => Some(mapping_room(n)),
        11 | 12 => Some(CONVERTED_ROOM),
        13 => Some(page_room(n)),
        _ => None,
    }
}

/// Numbers, every byte of the buffer and the input are as recorded.
fn is_right(record: &Record) -> bool {
    let writes = ample(record).is_some();
    let mut out = vec![FILLER; if writes { record.room } else { 0 }];
    let input = record.input.clone();
    let told = ask(record, &mut out);
    let held = match record.number {
        0 => out.starts_with(&record.output) && out[record.output.len()..].iter().all(|byte| *byte == FILLER),
        _ => out.iter().all(|byte| *byte == 0),
    };
    told == [record.number, record.first, record.second] && held && record.input == input
}

#[test]
fn all_records() {
    let records = records();
    let wrong: Vec<usize> = (0..records.len()).filter(|place| !is_right(&records[*place])).collect();
    assert!(wrong.is_empty(), "these records differ: {wrong:?}");
    assert_eq!(records.len(), RECORDS);
    println!("recorded answers: {} judged, {} wrong", records.len(), wrong.len());
}

/// Import and export without an order are those with the little-endian one, on the sheets of all their records.
#[test]
fn no_order_is_little_endian() {
    let mut tried = 0;
    for record in records().iter().filter(|record| record.call <= 1) {
        let (mut with, mut without) = (vec![FILLER; record.room], vec![FILLER; record.room]);
        let numbers = match record.call {
            0 => {
                (import_with_order(&record.input, ByteOrder::LittleEndian, &mut with), import(&record.input, &mut without))
            }
            _ => {
                (export_with_order(&record.input, ByteOrder::LittleEndian, &mut with), export(&record.input, &mut without))
            }
        };
        assert_eq!(numbers.0, numbers.1);
        assert!(with == without, "the buffers differ: {}", record.input.escape_ascii());
        tried += 1;
    }
    println!("without an order: {tried} tried");
    assert!(tried > 0);
}

/// Every recorded sheet, put to both measures under both orders: the length that the conversion writes, or its refusal.
#[test]
fn measures_are_of_the_conversions() {
    let mut sheets: Vec<Vec<u8>> = records().into_iter().map(|record| record.input).collect();
    sheets.sort();
    sheets.dedup();
    let (mut tried, mut answered) = (0, 0);
    let length = |measure: Measure| measure.length;
    for (sheet, order) in sheets.iter().flat_map(|sheet| [0, 1].map(|order| (sheet, order_of(order)))) {
        let imported = import_with_order(sheet, order, &mut vec![FILLER; import_room(sheet.len())]);
        let exported = export_with_order(sheet, order, &mut vec![FILLER; export_room(sheet.len())]);
        assert_eq!(measure_import(sheet, order).map(length), imported, "{}", sheet.escape_ascii());
        assert_eq!(measure_export(sheet, order).map(length), exported, "{}", sheet.escape_ascii());
        tried += 2;
        answered += imported.is_ok() as usize + exported.is_ok() as usize;
    }
    println!("measures: {tried} tried, {answered} answered");
    assert!(answered > 0);
}

/// Every recorded sheet, put to both exports under both orders: strict export is the present one, or its own refusal after the form.
#[test]
fn strict_export_is_export_or_refused() {
    let mut sheets: Vec<Vec<u8>> = records().into_iter().map(|record| record.input).collect();
    sheets.sort();
    sheets.dedup();
    let (mut answered, mut refused) = (0, 0);
    for (sheet, order) in sheets.iter().flat_map(|sheet| [0, 1].map(|order| (sheet, order_of(order)))) {
        let (mut out, mut strict) = (vec![FILLER; export_room(sheet.len())], vec![FILLER; export_room(sheet.len())]);
        let present = export_with_order(sheet, order, &mut out);
        match strict_export(sheet, order, &mut strict) {
            Err(Refusal::ReservedKey | Refusal::WideIndex) => {
                let form = [Refusal::NotSheet, Refusal::BadLines, Refusal::TooDeep];
                assert!(present.map_or_else(|refusal| !form.contains(&refusal), |_| true), "{}", sheet.escape_ascii());
                assert!(strict.iter().all(|byte| *byte == 0));
                refused += 1;
            }
            answer => {
                assert_eq!((answer, strict == out), (present, true), "{}", sheet.escape_ascii());
                answered += answer.is_ok() as usize;
            }
        }
    }
    println!("strict export: {answered} answered, {refused} refused by itself");
    assert!(answered > 0 && refused > 0);
}

/// With the room that the crate says is enough no call is refused for want of it; a record that says 16 gets an answer.
#[test]
fn rooms_are_enough() {
    let (mut tried, mut answered) = (0, 0);
    for record in records() {
        let Some(room) = ample(&record) else { continue };
        let told = ask(&record, &mut vec![FILLER; room]);
        match record.number {
            16 => assert_eq!(told[0], 0),
            number => assert_eq!(told[0], number),
        }
        tried += 1;
        answered += (told[0] == 0) as usize;
    }
    println!("rooms: {tried} tried, {answered} answered");
    assert!(answered > 0);
}

/// What exports in a round trip.
type Export = fn(&[u8], ByteOrder, &mut [u8]) -> Result<usize, Refusal>;

/// The round trip by the single calls.
fn steps(sheet: &[u8], export: Export, order: ByteOrder, buffers: &mut [Vec<u8>; 4]) -> Trip {
    let [exported, imported, plain, again] = buffers;
    let first = match export(sheet, order, exported) {
        Ok(length) => &exported[..length],
        Err(refusal) => return Trip::ExportRefused(refusal),
    };
    let back = match import_with_order(first, order, imported) {
        Ok(length) => &imported[..length],
        Err(refusal) => return Trip::ImportRefused(refusal),
    };
    let form = match plain_form(sheet, plain) {
        Ok(length) => &plain[..length],
        Err(refusal) => return Trip::PlainRefused(refusal),
    };
    let second = match export(form, order, again) {
        Ok(length) => &again[..length],
        Err(refusal) => return Trip::AgainRefused(refusal),
    };
    match (back == form, second == first) {
        (true, true) => Trip::AllSame,
        (false, _) => Trip::ImportDiffers,
        (true, false) => Trip::AgainDiffers,
    }
}

/// A round trip: without an order, with one, or with strict exports.
#[derive(Clone, Copy)]
enum Way {
    Little,
    With(ByteOrder),
    Strict(ByteOrder),
}

/// The trip by the call.
fn at_once(sheet: &[u8], way: Way, buffers: &mut [Vec<u8>; 4]) -> Trip {
    let [exported, imported, plain, again] = buffers;
    match way {
        Way::Little => round_trip(sheet, exported, imported, plain, again),
        Way::With(order) => round_trip_with_order(sheet, order, exported, imported, plain, again),
        Way::Strict(order) => strict_round_trip(sheet, order, exported, imported, plain, again),
    }
}

/// The trip is its steps, and so are its buffers, or they are zeros.
fn trip_is_its_steps(sheet: &[u8], way: Way) -> Trip {
    let n = sheet.len();
    let rooms = [export_room(n), import_room(export_room(n)), plain_form_room(n), export_room(n)];
    let (mut held, mut expected) = (rooms.map(|room| vec![FILLER; room]), rooms.map(|room| vec![FILLER; room]));
    let trip = at_once(sheet, way, &mut held);
    let (export, order): (Export, ByteOrder) = match way {
        Way::Little => (export_with_order, ByteOrder::LittleEndian),
        Way::With(order) => (export_with_order, order),
        Way::Strict(order) => (strict_export, order),
    };
    assert_eq!(trip, steps(sheet, export, order, &mut expected));
    if !matches!(trip, Trip::AllSame | Trip::ImportDiffers | Trip::AgainDiffers) {
        expected = rooms.map(|room| vec![0; room]);
    }
    assert!(held == expected, "the buffers of a trip are not its steps': {}", sheet.escape_ascii());
    trip
}

#[test]
fn trips_are_their_steps() {
    let reads_field = |record: &Record| matches!(record.call, 1..=10 | 13 | 15 | 16);
    let mut sheets: Vec<Vec<u8>> = records().into_iter().filter(reads_field).map(|record| record.input).collect();
    sheets.sort();
    sheets.dedup();
    let (mut same, mut differ, mut refused) = (0, 0, 0);
    let orders = [ByteOrder::LittleEndian, ByteOrder::BigEndian];
    for sheet in &sheets {
        let ways = [Way::Little, Way::With(orders[0]), Way::With(orders[1])];
        let trips = ways.map(|way| trip_is_its_steps(sheet, way));
        assert_eq!(trips, [trips[0]; 3]);
        let strict = orders.map(|order| trip_is_its_steps(sheet, Way::Strict(order)));
        let own =
            Trip::ExportRefused(Refusal::ReservedKey) == strict[0] || Trip::ExportRefused(Refusal::WideIndex) == strict[0];
        assert_eq!(strict, [if own { strict[0] } else { trips[0] }; 2]);
        match trips[0] {
            Trip::AllSame => same += 1,
            Trip::ImportDiffers | Trip::AgainDiffers => differ += 1,
            _ => refused += 1,
        }
    }
    println!("round trips: {} tried, {same} the same, {differ} differ, {refused} refused", sheets.len());
    assert!(same > 0 && differ > 0 && refused > 0);
}
