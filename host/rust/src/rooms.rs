//! How long a buffer must be so that `Refusal::NoRoom` cannot come.
//!
//! That no answer is longer is proved of the definitions that the calls are proved to have (crate `rooms` of the repository); here
//! stand the numbers alone. All are of the length of the sheet that is handed in. A sheet of more than 65,535 bytes is refused
//! whatever the buffer is, so a longer one needs no more room.

/// The most bytes that a sheet may have.
pub const LONGEST_SHEET: usize = 65_535;

/// Bytes of stack to have left on the thread that calls: `JUZONTEFA_STACK` of `include/juzontefa.h`, measured and not proved.
pub const STACK: usize = 81_920;

/// The bytes of the longest answer of a conversion.
///
/// ```
/// let mut out = [0; juzontefa::CONVERTED_ROOM];
/// assert_eq!(juzontefa::from_primitive_type(5, &mut out), Ok(69));
/// ```
pub const CONVERTED_ROOM: usize = 69;

/// The part `over / under` of a sheet's length, rounded down.
const fn part(sheet_len: usize, over: usize, under: usize) -> usize {
    let n = if sheet_len > LONGEST_SHEET { LONGEST_SHEET } else { sheet_len };
    n * over / under
}

/// A buffer that is long enough for the import of a schema sheet of so many bytes.
///
/// ```
/// assert_eq!(juzontefa::import_room(89), 130);
/// assert_eq!(juzontefa::import_room(usize::MAX), 95_781);
/// ```
pub const fn import_room(sheet_len: usize) -> usize {
    part(sheet_len, 19, 13)
}

/// A buffer that is long enough for the export of a field sheet of so many bytes, strict or not. What is longer than 65,535 bytes import
/// refuses.
///
/// ```
/// assert_eq!(juzontefa::export_room(100), 481);
/// assert_eq!(juzontefa::export_room(usize::MAX), 315_276);
/// ```
pub const fn export_room(sheet_len: usize) -> usize {
    part(sheet_len, 178, 37)
}

/// A buffer that is long enough for the plain form of a field sheet of so many bytes.
///
/// ```
/// assert_eq!(juzontefa::plain_form_room(100), 127);
/// assert_eq!(juzontefa::plain_form_room(usize::MAX), 83_739);
/// ```
pub const fn plain_form_room(sheet_len: usize) -> usize {
    part(sheet_len, 23, 18)
}

/// A buffer that is long enough for the page of a field sheet of so many bytes: a line of the sheet has 18 bytes or more, and one of
/// the page 73.
///
/// ```
/// assert_eq!(juzontefa::page_room(100), 405);
/// assert_eq!(juzontefa::page_room(usize::MAX), 265_780);
/// ```
pub const fn page_room(sheet_len: usize) -> usize {
    part(sheet_len, 73, 18)
}

/// A buffer that is long enough for what `to_storage`, `to_storage_recursive`, `underlying_physical_type`, `inner_dtype` and
/// `get_child` answer to a field sheet of so many bytes: an answer of theirs is never longer than its sheet.
///
/// ```
/// assert_eq!(juzontefa::mapping_room(100), 100);
/// assert_eq!(juzontefa::mapping_room(usize::MAX), 65_535);
/// ```
pub const fn mapping_room(sheet_len: usize) -> usize {
    part(sheet_len, 1, 1)
}
