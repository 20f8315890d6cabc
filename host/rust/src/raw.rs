//! The calls of the library over raw pointers, as `include/juzontefa.h` declares them for C; what a host must know of them stands
//! there. The crate's own functions are these over slices. `host/host.rs` and the driver in `differential/` take this file as a
//! module of theirs.

// A host need not use all of them: one that is not called is not asked of the library.
#![allow(dead_code)]

/// Of a call that writes a sheet or a page.
#[repr(C)]
pub struct Answer {
    pub number: u64,
    pub length: u64,
}

/// Of a measure: the length that the conversion would write, and how many lines it would visit.
#[repr(C)]
#[derive(Debug, PartialEq)]
pub struct Measure {
    pub number: u64,
    pub length: u64,
    pub lines: u64,
}

/// Of `juzontefa_to_physical_type`: the place in `PhysicalType` and that of its primitive or index type.
#[repr(C)]
pub struct Places {
    pub number: u64,
    pub place: u64,
    pub inner: u64,
}

/// 1 for yes, 0 for no.
#[repr(C)]
pub struct YesNo {
    pub number: u64,
    pub answer: u64,
}

/// Of a round trip; the answers are those of `enum juzontefa_trip_answer`.
#[repr(C)]
#[derive(PartialEq)]
pub struct Trip {
    pub answer: u64,
    pub number: u64,
}

/// A sheet, and a buffer for a sheet or a page.
pub type ToSheet = unsafe extern "C" fn(*const u8, usize, *mut u8, usize) -> Answer;

/// The same with a number: a byte order, or the index of a child.
pub type ToSheetWith = unsafe extern "C" fn(*const u8, usize, u64, *mut u8, usize) -> Answer;

/// A sheet and a byte order, and nothing to write into.
pub type ToMeasure = unsafe extern "C" fn(*const u8, usize, u64) -> Measure;

/// The calls that take a field out and back under an order: the sheet, the order, then the four buffers.
pub type OrderedTrip =
    unsafe extern "C" fn(*const u8, usize, u64, *mut u8, usize, *mut u8, usize, *mut u8, usize, *mut u8, usize) -> Trip;

extern "C" {
    pub fn juzontefa_import(sheet: *const u8, sheet_len: usize, out: *mut u8, out_len: usize) -> Answer;
    pub fn juzontefa_export(sheet: *const u8, sheet_len: usize, out: *mut u8, out_len: usize) -> Answer;
    pub fn juzontefa_import_with_order(
        sheet: *const u8,
        sheet_len: usize,
        big: u64,
        out: *mut u8,
        out_len: usize,
    ) -> Answer;
    pub fn juzontefa_export_with_order(
        sheet: *const u8,
        sheet_len: usize,
        big: u64,
        out: *mut u8,
        out_len: usize,
    ) -> Answer;
    pub fn juzontefa_strict_export(sheet: *const u8, sheet_len: usize, big: u64, out: *mut u8, out_len: usize) -> Answer;
    pub fn juzontefa_measure_import(sheet: *const u8, sheet_len: usize, big: u64) -> Measure;
    pub fn juzontefa_measure_export(sheet: *const u8, sheet_len: usize, big: u64) -> Measure;
    pub fn juzontefa_plain_form(sheet: *const u8, sheet_len: usize, out: *mut u8, out_len: usize) -> Answer;
    pub fn juzontefa_page(sheet: *const u8, sheet_len: usize, out: *mut u8, out_len: usize) -> Answer;
    pub fn juzontefa_underlying_physical_type(sheet: *const u8, sheet_len: usize, out: *mut u8, out_len: usize) -> Answer;
    pub fn juzontefa_to_storage(sheet: *const u8, sheet_len: usize, out: *mut u8, out_len: usize) -> Answer;
    pub fn juzontefa_to_storage_recursive(sheet: *const u8, sheet_len: usize, out: *mut u8, out_len: usize) -> Answer;
    pub fn juzontefa_inner_dtype(sheet: *const u8, sheet_len: usize, out: *mut u8, out_len: usize) -> Answer;
    pub fn juzontefa_get_child(sheet: *const u8, sheet_len: usize, index: u64, out: *mut u8, out_len: usize) -> Answer;
    pub fn juzontefa_from_integer_type(place: u64, out: *mut u8, out_len: usize) -> Answer;
    pub fn juzontefa_from_primitive_type(place: u64, out: *mut u8, out_len: usize) -> Answer;
    pub fn juzontefa_to_physical_type(sheet: *const u8, sheet_len: usize) -> Places;
    pub fn juzontefa_is_nested(sheet: *const u8, sheet_len: usize) -> YesNo;
    pub fn juzontefa_contains_dictionary(sheet: *const u8, sheet_len: usize) -> YesNo;
    pub fn juzontefa_round_trip(
        sheet: *const u8,
        sheet_len: usize,
        exported: *mut u8,
        exported_len: usize,
        imported: *mut u8,
        imported_len: usize,
        plain: *mut u8,
        plain_len: usize,
        again: *mut u8,
        again_len: usize,
    ) -> Trip;
    pub fn juzontefa_round_trip_with_order(
        sheet: *const u8,
        sheet_len: usize,
        big: u64,
        exported: *mut u8,
        exported_len: usize,
        imported: *mut u8,
        imported_len: usize,
        plain: *mut u8,
        plain_len: usize,
        again: *mut u8,
        again_len: usize,
    ) -> Trip;
    pub fn juzontefa_strict_round_trip(
        sheet: *const u8,
        sheet_len: usize,
        big: u64,
        exported: *mut u8,
        exported_len: usize,
        imported: *mut u8,
        imported_len: usize,
        plain: *mut u8,
        plain_len: usize,
        again: *mut u8,
        again_len: usize,
    ) -> Trip;
}
