//! Schemas over the Arrow C data interface as sheets of bytes: the calls of the library `libjuzontefa.a` as safe functions.
//!
//! Each takes any bytes and gives an answer or a [`Refusal`]. A call that answers a sheet, or a page of one, writes it to the start of
//! the buffer that is lent and gives its length; the bytes past it keep what they held. On refusal the whole buffer is zeros. The sheet that is
//! handed in is never changed. Nothing is allocated, and nothing is kept between calls.
//!
//! A schema sheet goes to [`import`] and [`measure_import`]; all other calls read a field sheet, but for the two conversions, which take a
//! place in an enumeration. Metadata is little-endian in the sheets, but for the calls that are told its [`ByteOrder`]. What the sheets are
//! is said in `crates/sheets/specs` of the repository; README.md has examples.
//!
//! ```
//! use juzontefa::{import, import_room, Refusal};
//!
//! const SHEET: &[u8] = b"format name flags metadata children dictionary\n\
//!     2b6c 7065616b 2 ~ 1 0\n\
//!     67 6974656d 0 ~ 0 0\n";
//! let mut out = [0; import_room(SHEET.len())];
//! let length = import(SHEET, &mut out)?;
//! assert_eq!(&out[..length], b"kind p q text more name nullable pairs children\n\
//!     27 0 0 ~ ~ 7065616b 1 ~ 1\n\
//!     14 0 0 ~ ~ 6974656d 0 ~ 0\n");
//!
//! assert_eq!(import(b"", &mut out), Err(Refusal::NotSheet));
//! # Ok::<(), Refusal>(())
//! ```
//!
//! # The library that is linked
//!
//! The build takes `libjuzontefa.a` from the folder that the variable `JUZONTEFA_LIB` names, or else from `target/staticlib` of the
//! repository. Of that library it is proved that a call's number is 0 to 16, of a measure never 16 and of strict export 0 to 18, that a
//! length is within the buffer, that yes or no is 1 or 0, and that a round trip's answer is 0 to 6, of a strict one 0 to 4. A linker cannot see this, so each is tested here when a call comes back: where it
//! does not hold, another archive stands under the name, and the function panics. It is the one panic of this crate.

#![no_std]
#![warn(missing_docs)]

mod order;
#[allow(missing_docs)]
pub mod raw;
mod refusal;
mod rooms;
mod told;

pub use order::ByteOrder;
pub use refusal::{Party, Refusal};
pub use rooms::{export_room, import_room, mapping_room, page_room, plain_form_room, CONVERTED_ROOM, LONGEST_SHEET, STACK};
use told::{length_of, measure_of, refused, strict_length_of, strict_trip_of, trip_of, yes_or_no};

/// What a conversion would write and visit.
///
/// ```
/// use juzontefa::{measure_export, ByteOrder, Measure};
///
/// // an extension over a dictionary, whose values are not visited
/// let sheet = b"kind p q text more name nullable pairs children\n\
///     37 0 0 78 ~ - 0 ~ 1\n32 2 0 ~ ~ ~ ~ ~ 1\n0 0 0 ~ ~ ~ ~ ~ 0\n";
/// assert_eq!(measure_export(sheet, ByteOrder::LittleEndian), Ok(Measure { length: 125, lines: 2 }));
/// ```
#[derive(Debug, Clone, Copy, PartialEq, Eq, Hash)]
pub struct Measure {
    /// The bytes of the answer: the least buffer that is not refused with [`Refusal::NoRoom`].
    pub length: usize,
    /// The lines of the sheet handed in that the conversion visits; not those that it writes.
    pub lines: usize,
}

/// A physical type by two places, each from 0 in the order in which the Rust declares it.
///
/// ```
/// let sheet = b"kind p q text more name nullable pairs children\n32 2 0 ~ ~ 70 0 ~ 1\n25 0 0 ~ ~ ~ ~ ~ 0\n";
/// let places = juzontefa::to_physical_type(sheet)?;
/// assert_eq!((places.place, places.inner), (14, 2)); // Dictionary, its index Int32
/// # Ok::<(), juzontefa::Refusal>(())
/// ```
#[derive(Debug, Clone, Copy, PartialEq, Eq, Hash)]
pub struct Places {
    /// In `PhysicalType`, 0 to 16: Null, Boolean, Primitive, Binary, FixedSizeBinary, LargeBinary, Utf8, LargeUtf8, List,
    /// FixedSizeList, LargeList, Struct, Union, Map, Dictionary, BinaryView, Utf8View.
    pub place: u64,
    /// Of Primitive the place in `PrimitiveType` ([`from_primitive_type`] lists them), of Dictionary that in `IntegerType`
    /// ([`from_integer_type`]), else 0.
    pub inner: u64,
}

/// What came of a round trip.
///
/// ```
/// use juzontefa::{round_trip, Refusal, Trip};
///
/// // a name with byte 00 in it
/// let sheet = b"kind p q text more name nullable pairs children\n4 0 0 ~ ~ 00 1 ~ 0\n";
/// let trip = round_trip(sheet, &mut [], &mut [], &mut [], &mut []);
/// assert_eq!(trip, Trip::ExportRefused(Refusal::ZeroByte));
/// ```
#[derive(Debug, Clone, Copy, PartialEq, Eq, Hash)]
pub enum Trip {
    /// What was imported is the plain form, and the second export is the first.
    AllSame,
    /// The export of the sheet is refused.
    ExportRefused(Refusal),
    /// The import of that export is refused.
    ImportRefused(Refusal),
    /// The plain form of the sheet is refused.
    PlainRefused(Refusal),
    /// The export of the plain form is refused.
    AgainRefused(Refusal),
    /// What was imported is not the plain form. It comes only where a line has a reserved key or a dictionary index of 128 bits, and
    /// never from [`strict_round_trip`].
    ImportDiffers,
    /// It is, but the second export is not the first. That it never comes is proved.
    AgainDiffers,
}

fn to_sheet(call: raw::ToSheet, sheet: &[u8], out: &mut [u8]) -> Result<usize, Refusal> {
    // SAFETY: both slices are live and do not overlap. The library reads within `sheet` and writes within `out`; that the pointer
    // of an empty slice points to nothing is no matter to it.
    let told = unsafe { call(sheet.as_ptr(), sheet.len(), out.as_mut_ptr(), out.len()) };
    length_of(told, out.len())
}

/// The same of a call that takes a number besides.
fn to_sheet_with(call: raw::ToSheetWith, sheet: &[u8], number: u64, out: &mut [u8]) -> Result<usize, Refusal> {
    // SAFETY: as in `to_sheet`.
    let told = unsafe { call(sheet.as_ptr(), sheet.len(), number, out.as_mut_ptr(), out.len()) };
    length_of(told, out.len())
}

fn measured(call: raw::ToMeasure, sheet: &[u8], order: ByteOrder) -> Result<Measure, Refusal> {
    // SAFETY: the slice is live, and the library reads within it.
    measure_of(unsafe { call(sheet.as_ptr(), sheet.len(), order.big()) })
}

/// The field sheet of a schema sheet whose metadata is little-endian. Ordered, nullable and sorted are the flags' bits 1, 2 and 4, of
/// negative flags too; all other bits are free for the producer, and dropped. A buffer of [`import_room`] is long enough.
///
/// ```
/// use juzontefa::{import, Refusal};
///
/// let mut out = [7; 80];
/// let sheet = b"format name flags metadata children dictionary\n773a2b3136 - 0 ~ 0 0\n"; // the format w:+16
/// let length = import(sheet, &mut out)?;
/// assert_eq!(&out[..length], b"kind p q text more name nullable pairs children\n23 16 0 ~ ~ - 0 ~ 0\n");
/// assert!(out[length..].iter().all(|byte| *byte == 7));
///
/// let sheet = b"format name flags metadata children dictionary\n67 - -3 ~ 0 0\n"; // private flags, and nullable's bit is not set
/// let length = import(sheet, &mut out)?;
/// assert_eq!(&out[..length], b"kind p q text more name nullable pairs children\n14 0 0 ~ ~ - 0 ~ 0\n");
///
/// let sheet = b"format name flags metadata children dictionary\n~ - 0 ~ 0 0\n";
/// assert_eq!(import(sheet, &mut out), Err(Refusal::NullFormat));
/// assert_eq!(out, [0; 80]);
/// # Ok::<(), Refusal>(())
/// ```
pub fn import(sheet: &[u8], out: &mut [u8]) -> Result<usize, Refusal> {
    to_sheet(raw::juzontefa_import, sheet, out)
}

/// [`import`] of a schema sheet whose metadata has this order; with [`ByteOrder::LittleEndian`] it is `import` itself. A buffer of
/// [`import_room`] is long enough.
///
/// ```
/// use juzontefa::{import_room, import_with_order, ByteOrder};
///
/// // no pairs: a count of 0 or less is none
/// const SHEET: &[u8] = b"format name flags metadata children dictionary\n6e - 0 80000000 0 0\n";
/// let mut out = [0; import_room(SHEET.len())];
/// let length = import_with_order(SHEET, ByteOrder::BigEndian, &mut out)?;
/// assert_eq!(&out[..length], b"kind p q text more name nullable pairs children\n0 0 0 ~ ~ - 0 ~ 0\n");
/// # Ok::<(), juzontefa::Refusal>(())
/// ```
pub fn import_with_order(sheet: &[u8], order: ByteOrder, out: &mut [u8]) -> Result<usize, Refusal> {
    to_sheet_with(raw::juzontefa_import_with_order, sheet, order.big(), out)
}

/// The schema sheet of a field sheet, with little-endian metadata. A buffer of [`export_room`] is long enough.
///
/// ```
/// use juzontefa::{export, export_room};
///
/// const SHEET: &[u8] = b"kind p q text more name nullable pairs children\n23 16 0 ~ ~ - 0 ~ 0\n";
/// let mut out = [0; export_room(SHEET.len())];
/// let length = export(SHEET, &mut out)?;
/// assert_eq!(&out[..length], b"format name flags metadata children dictionary\n773a3136 - 0 ~ 0 0\n"); // w:16
/// # Ok::<(), juzontefa::Refusal>(())
/// ```
pub fn export(sheet: &[u8], out: &mut [u8]) -> Result<usize, Refusal> {
    to_sheet(raw::juzontefa_export, sheet, out)
}

/// [`export`] with metadata in this order; with [`ByteOrder::LittleEndian`] it is `export` itself. A field gets the same refusal or
/// length under both. A buffer of [`export_room`] is long enough.
///
/// ```
/// use juzontefa::{export_room, export_with_order, ByteOrder};
///
/// const SHEET: &[u8] = b"kind p q text more name nullable pairs children\n0 0 0 ~ ~ - 0 6d=31 0\n";
/// let mut out = [0; export_room(SHEET.len())];
/// let length = export_with_order(SHEET, ByteOrder::BigEndian, &mut out)?;
/// let expected = b"format name flags metadata children dictionary\n6e - 0 00000001000000016d0000000131 0 0\n";
/// assert_eq!(&out[..length], expected);
/// # Ok::<(), juzontefa::Refusal>(())
/// ```
pub fn export_with_order(sheet: &[u8], order: ByteOrder, out: &mut [u8]) -> Result<usize, Refusal> {
    to_sheet_with(raw::juzontefa_export_with_order, sheet, order.big(), out)
}

/// An export that is sure to return: what it writes imports, under the same order, to the field's plain form, so that only lengths are
/// left to the caller: a sheet of over 65,535 bytes cannot be handed in.
///
/// After the sheet's form and before all else every line is tested, in the sheet's order, also where [`export`] would not visit it. It is
/// refused with [`Refusal::ReservedKey`] if one of its keys is `ARROW:extension:name` or `ARROW:extension:metadata`, then with
/// [`Refusal::WideIndex`] if it is a dictionary with an index of 128 bits; the first line with either decides. Where neither is found,
/// the answer is that of [`export_with_order`]. A buffer of [`export_room`] is long enough.
///
/// ```
/// use juzontefa::{export_room, import_room, import_with_order, strict_export, ByteOrder, Refusal};
///
/// const SHEET: &[u8] = b"kind p q text more name nullable pairs children\n27 0 0 ~ ~ 70 1 ~ 1\n14 0 0 ~ ~ 69 0 6d=31 0\n";
/// let mut schema = [0; export_room(SHEET.len())];
/// let length = strict_export(SHEET, ByteOrder::BigEndian, &mut schema)?;
/// let mut field = [0; import_room(export_room(SHEET.len()))];
/// let back = import_with_order(&schema[..length], ByteOrder::BigEndian, &mut field)?;
/// assert_eq!(&field[..back], SHEET); // it is its own plain form
///
/// // a dictionary with an index of 128 bits, whose format import does not take
/// let wide = b"kind p q text more name nullable pairs children\n32 9 0 ~ ~ 70 1 ~ 1\n25 0 0 ~ ~ ~ ~ ~ 0\n";
/// assert_eq!(strict_export(wide, ByteOrder::BigEndian, &mut schema), Err(Refusal::WideIndex));
/// # Ok::<(), Refusal>(())
/// ```
pub fn strict_export(sheet: &[u8], order: ByteOrder, out: &mut [u8]) -> Result<usize, Refusal> {
    // SAFETY: as in `to_sheet`.
    let told =
        unsafe { raw::juzontefa_strict_export(sheet.as_ptr(), sheet.len(), order.big(), out.as_mut_ptr(), out.len()) };
    strict_length_of(told, out.len())
}

/// How much [`import_with_order`] would write, under the same order: nothing is written. The length is exact. The lines are those of the
/// schema sheet that import visits: the first; of a list or map the first child, of a struct or union every one; a dictionary's values.
/// Children that import ignores do not count, and an extension that metadata makes counts once. What import refuses is refused with the
/// same refusal; [`Refusal::NoRoom`] never comes.
///
/// ```
/// use juzontefa::{import, measure_import, ByteOrder, Measure, Refusal};
///
/// // the list's second child is ignored, so that its format does not matter
/// let sheet = b"format name flags metadata children dictionary\n2b6c - 0 ~ 2 0\n6e - 0 ~ 0 0\n78 - 0 ~ 0 0\n";
/// let Measure { length, lines } = measure_import(sheet, ByteOrder::LittleEndian)?;
/// assert_eq!((length, lines), (85, 2));
///
/// let mut out = vec![0; length];
/// assert_eq!(import(sheet, &mut out), Ok(length));
/// assert_eq!(import(sheet, &mut out[1..]), Err(Refusal::NoRoom));
/// # Ok::<(), Refusal>(())
/// ```
pub fn measure_import(sheet: &[u8], order: ByteOrder) -> Result<Measure, Refusal> {
    measured(raw::juzontefa_measure_import, sheet, order)
}

/// How much [`export_with_order`] would write: nothing is written. The length is exact, and the order makes no difference to it. The lines
/// are those of the field sheet that export visits: extensions and their inner lines too, but not the values of a dictionary directly under
/// an extension, or under several, with all below them. What export refuses is refused with the same refusal; [`Refusal::NoRoom`] never
/// comes.
///
/// ```
/// use juzontefa::{measure_export, ByteOrder, Measure, Refusal};
///
/// let sheet = b"kind p q text more name nullable pairs children\n37 0 0 78 ~ - 0 ~ 1\n0 0 0 ~ ~ ~ ~ ~ 0\n";
/// assert_eq!(measure_export(sheet, ByteOrder::BigEndian), Ok(Measure { length: 125, lines: 2 }));
///
/// let sheet = b"kind p q text more name nullable pairs children\n40 0 0 ~ ~ - 0 ~ 0\n"; // Unknown
/// assert_eq!(measure_export(sheet, ByteOrder::BigEndian), Err(Refusal::NoFormat));
/// ```
pub fn measure_export(sheet: &[u8], order: ByteOrder) -> Result<Measure, Refusal> {
    measured(raw::juzontefa_measure_export, sheet, order)
}

/// The plain form of a field sheet, a field sheet again: what import of its export gives, where the field can be exported and has no
/// reserved key and no dictionary index of 128 bits. A buffer of [`plain_form_room`] is long enough.
///
/// ```
/// use juzontefa::{plain_form, plain_form_room};
///
/// // a union without ids, over a timestamp with an empty timezone
/// const SHEET: &[u8] = b"kind p q text more name nullable pairs children\n41 0 0 ~ ~ 75 0 ~ 1\n15 0 0 - ~ 62 0 ~ 0\n";
/// let mut out = [0; plain_form_room(SHEET.len())];
/// let length = plain_form(SHEET, &mut out)?;
/// assert_eq!(&out[..length], b"kind p q text more name nullable pairs children\n41 0 0 0 ~ 75 0 ~ 1\n15 0 0 ~ ~ 62 0 ~ 0\n");
/// # Ok::<(), juzontefa::Refusal>(())
/// ```
pub fn plain_form(sheet: &[u8], out: &mut [u8]) -> Result<usize, Refusal> {
    to_sheet(raw::juzontefa_plain_form, sheet, out)
}

/// The page of a field sheet, for people to read: one line of 72 bytes and a byte 10 for each line of the sheet below its heading, in
/// the sheet's order. It has the level, right-justified in 3, the kind's name as the Rust's `ArrowDataType` spells it, left-justified in
/// 16, `y` for nullable, `n` for not or `.` for a bare line, and the name's first 24 bytes in hexadecimal, left-justified in 48, each
/// with a space before the next; at the end `+` if the name has more bytes than those, else a space. An empty name and a bare line show
/// 48 spaces. A field that cannot be exported has a page too. A buffer of [`page_room`] is long enough.
///
/// ```
/// use juzontefa::{page, page_room};
///
/// // a dictionary named peak, whose values are Utf8
/// const SHEET: &[u8] = b"kind p q text more name nullable pairs children\n32 5 1 ~ ~ 7065616b 1 ~ 1\n25 0 0 ~ ~ ~ ~ ~ 0\n";
/// let mut out = [0; page_room(SHEET.len())];
/// let length = page(SHEET, &mut out)?;
/// let spaces = " ".repeat(40);
/// assert_eq!(
///     String::from_utf8_lossy(&out[..length]),
///     format!("  1 Dictionary       y 7065616b{spaces} \n  2 Utf8             .         {spaces} \n")
/// );
/// # Ok::<(), juzontefa::Refusal>(())
/// ```
pub fn page(sheet: &[u8], out: &mut [u8]) -> Result<usize, Refusal> {
    to_sheet(raw::juzontefa_page, sheet, out)
}

/// The field with its type replaced by what it is kept as: dates, times, timestamps, durations and decimals become integers, in lists
/// and structs too; a dictionary becomes its index type, an extension what its inner type becomes. Refused with
/// [`Refusal::UndefinedMapping`] for an interval in MonthDayNano or MonthDayMillis, Decimal256, a map or a union. A buffer of
/// [`mapping_room`] is long enough.
///
/// ```
/// use juzontefa::{mapping_room, underlying_physical_type};
///
/// const SHEET: &[u8] = b"kind p q text more name nullable pairs children\n16 0 0 ~ ~ 64 0 ~ 0\n"; // Date32
/// let mut out = [0; mapping_room(SHEET.len())];
/// let length = underlying_physical_type(SHEET, &mut out)?;
/// assert_eq!(&out[..length], b"kind p q text more name nullable pairs children\n4 0 0 ~ ~ 64 0 ~ 0\n"); // Int32
/// # Ok::<(), juzontefa::Refusal>(())
/// ```
pub fn underlying_physical_type(sheet: &[u8], out: &mut [u8]) -> Result<usize, Refusal> {
    to_sheet(raw::juzontefa_underlying_physical_type, sheet, out)
}

/// The field with the type inside its outermost extensions; the field itself where it is none. A buffer of [`mapping_room`] is long
/// enough.
///
/// ```
/// use juzontefa::{mapping_room, to_storage};
///
/// const SHEET: &[u8] = b"kind p q text more name nullable pairs children\n37 0 0 78 ~ 64 0 ~ 1\n16 0 0 ~ ~ ~ ~ ~ 0\n";
/// let mut out = [0; mapping_room(SHEET.len())];
/// let length = to_storage(SHEET, &mut out)?;
/// assert_eq!(&out[..length], b"kind p q text more name nullable pairs children\n16 0 0 ~ ~ 64 0 ~ 0\n");
/// # Ok::<(), juzontefa::Refusal>(())
/// ```
pub fn to_storage(sheet: &[u8], out: &mut [u8]) -> Result<usize, Refusal> {
    to_sheet(raw::juzontefa_to_storage, sheet, out)
}

/// The field without extensions, in lists, structs and the values of dictionaries too. Refused with [`Refusal::UndefinedMapping`] for
/// a map or a union. A buffer of [`mapping_room`] is long enough.
///
/// ```
/// use juzontefa::{mapping_room, to_storage_recursive};
///
/// // a list of extensions over Date32
/// const SHEET: &[u8] = b"kind p q text more name nullable pairs children\n\
///     27 0 0 ~ ~ 6c 0 ~ 1\n37 0 0 78 ~ 69 0 ~ 1\n16 0 0 ~ ~ ~ ~ ~ 0\n";
/// let mut out = [0; mapping_room(SHEET.len())];
/// let length = to_storage_recursive(SHEET, &mut out)?;
/// assert_eq!(&out[..length], b"kind p q text more name nullable pairs children\n27 0 0 ~ ~ 6c 0 ~ 1\n16 0 0 ~ ~ 69 0 ~ 0\n");
/// # Ok::<(), juzontefa::Refusal>(())
/// ```
pub fn to_storage_recursive(sheet: &[u8], out: &mut [u8]) -> Result<usize, Refusal> {
    to_sheet(raw::juzontefa_to_storage_recursive, sheet, out)
}

/// The type of a list's items, as a sheet whose first line is bare: name, `nullable` and pairs are `~`. (No call reads such a sheet.)
/// Refused with [`Refusal::UndefinedMapping`] for other kinds, extensions among them. A buffer of [`mapping_room`] is long enough.
///
/// ```
/// use juzontefa::{inner_dtype, mapping_room};
///
/// const SHEET: &[u8] = b"kind p q text more name nullable pairs children\n27 0 0 ~ ~ 70 1 ~ 1\n14 0 0 ~ ~ 69 0 ~ 0\n";
/// let mut out = [0; mapping_room(SHEET.len())];
/// let length = inner_dtype(SHEET, &mut out)?;
/// assert_eq!(&out[..length], b"kind p q text more name nullable pairs children\n14 0 0 ~ ~ ~ ~ ~ 0\n");
/// # Ok::<(), juzontefa::Refusal>(())
/// ```
pub fn inner_dtype(sheet: &[u8], out: &mut [u8]) -> Result<usize, Refusal> {
    to_sheet(raw::juzontefa_inner_dtype, sheet, out)
}

/// The type of the child at a place, from 0, of a list, map, struct or union, looked for inside extensions; as a sheet whose first
/// line is bare. Refused with [`Refusal::UndefinedMapping`] if there is none, and for a dictionary. A buffer of [`mapping_room`] is
/// long enough.
///
/// ```
/// use juzontefa::{get_child, mapping_room, Refusal};
///
/// // a struct of a Float64 and a Boolean
/// const SHEET: &[u8] = b"kind p q text more name nullable pairs children\n\
///     30 0 0 ~ ~ 73 0 ~ 2\n14 0 0 ~ ~ 61 0 ~ 0\n1 0 0 ~ ~ 62 0 ~ 0\n";
/// let mut out = [0; mapping_room(SHEET.len())];
/// let length = get_child(SHEET, 1, &mut out)?;
/// assert_eq!(&out[..length], b"kind p q text more name nullable pairs children\n1 0 0 ~ ~ ~ ~ ~ 0\n");
/// assert_eq!(get_child(SHEET, 2, &mut out), Err(Refusal::UndefinedMapping));
/// # Ok::<(), Refusal>(())
/// ```
pub fn get_child(sheet: &[u8], index: u64, out: &mut [u8]) -> Result<usize, Refusal> {
    to_sheet_with(raw::juzontefa_get_child, sheet, index, out)
}

/// The type of a place in `IntegerType`, 0 to 9: Int8, Int16, Int32, Int64, Int128, UInt8, UInt16, UInt32, UInt64, UInt128; as a sheet
/// whose one line is bare. Refused with [`Refusal::UndefinedMapping`] for another place. A buffer of [`CONVERTED_ROOM`] is long enough.
///
/// ```
/// use juzontefa::{from_integer_type, CONVERTED_ROOM};
///
/// let mut out = [0; CONVERTED_ROOM];
/// let length = from_integer_type(9, &mut out)?; // UInt128
/// assert_eq!(&out[..length], b"kind p q text more name nullable pairs children\n11 0 0 ~ ~ ~ ~ ~ 0\n");
/// # Ok::<(), juzontefa::Refusal>(())
/// ```
pub fn from_integer_type(place: u64, out: &mut [u8]) -> Result<usize, Refusal> {
    // SAFETY: the slice is live, and the library writes within it.
    let told = unsafe { raw::juzontefa_from_integer_type(place, out.as_mut_ptr(), out.len()) };
    length_of(told, out.len())
}

/// The type of a place in `PrimitiveType`, 0 to 16: Int8, Int16, Int32, Int64, Int128, Int256, UInt8, UInt16, UInt32, UInt64, UInt128,
/// Float16, Float32, Float64, DaysMs, MonthDayNano, MonthDayMillis; as a sheet whose one line is bare. Refused with
/// [`Refusal::UndefinedMapping`] for another place. A buffer of [`CONVERTED_ROOM`] is long enough.
///
/// ```
/// use juzontefa::{from_primitive_type, CONVERTED_ROOM};
///
/// let mut out = [0; CONVERTED_ROOM];
/// let length = from_primitive_type(5, &mut out)?; // Int256
/// assert_eq!(&out[..length], b"kind p q text more name nullable pairs children\n36 32 32 ~ ~ ~ ~ ~ 0\n");
/// # Ok::<(), juzontefa::Refusal>(())
/// ```
pub fn from_primitive_type(place: u64, out: &mut [u8]) -> Result<usize, Refusal> {
    // SAFETY: as in `from_integer_type`.
    let told = unsafe { raw::juzontefa_from_primitive_type(place, out.as_mut_ptr(), out.len()) };
    length_of(told, out.len())
}

/// The physical type of a field. Refused with [`Refusal::UndefinedMapping`] for Unknown, also inside extensions.
///
/// ```
/// use juzontefa::{to_physical_type, Places};
///
/// let sheet = b"kind p q text more name nullable pairs children\n27 0 0 ~ ~ 70 1 ~ 1\n14 0 0 ~ ~ 69 0 ~ 0\n";
/// assert_eq!(to_physical_type(sheet), Ok(Places { place: 8, inner: 0 })); // List
/// ```
pub fn to_physical_type(sheet: &[u8]) -> Result<Places, Refusal> {
    // SAFETY: the slice is live, and the library reads within it.
    let told = unsafe { raw::juzontefa_to_physical_type(sheet.as_ptr(), sheet.len()) };
    refused(told.number)?;
    Ok(Places { place: told.place, inner: told.inner })
}

/// Whether a field's type is a list, struct, union, map, dictionary or extension.
///
/// ```
/// let sheet = b"kind p q text more name nullable pairs children\n27 0 0 ~ ~ 70 1 ~ 1\n14 0 0 ~ ~ 69 0 ~ 0\n";
/// assert_eq!(juzontefa::is_nested(sheet), Ok(true));
/// ```
pub fn is_nested(sheet: &[u8]) -> Result<bool, Refusal> {
    // SAFETY: as in `to_physical_type`.
    yes_or_no(unsafe { raw::juzontefa_is_nested(sheet.as_ptr(), sheet.len()) })
}

/// Whether a dictionary is in a field's type, at any depth.
///
/// ```
/// let sheet = b"kind p q text more name nullable pairs children\n27 0 0 ~ ~ 70 1 ~ 1\n14 0 0 ~ ~ 69 0 ~ 0\n";
/// assert_eq!(juzontefa::contains_dictionary(sheet), Ok(false));
/// ```
pub fn contains_dictionary(sheet: &[u8]) -> Result<bool, Refusal> {
    // SAFETY: as in `to_physical_type`.
    yes_or_no(unsafe { raw::juzontefa_contains_dictionary(sheet.as_ptr(), sheet.len()) })
}

/// A field sheet taken out and back: its export is written into `exported`, the import of that into `imported`, the sheet's plain form
/// into `plain`, the export of the plain form into `again`; then they are compared. The first step that is refused ends it.
///
/// Where a step is refused, all four buffers are zeros. Else each holds its sheet, and the bytes past it keep what they held. The
/// lengths are not told; no sheet has a byte 00, so that in a buffer that held zeros the sheet ends at the first, or with the buffer.
///
/// With `n` the sheet's length, [`export_room`]`(n)` is long enough for `exported` and for `again`, [`plain_form_room`]`(n)` for
/// `plain`, and for `imported` [`import_room`] of `export_room(n)`.
///
/// ```
/// use juzontefa::{round_trip, Trip};
///
/// let sheet = b"kind p q text more name nullable pairs children\n41 0 0 ~ ~ 75 0 ~ 1\n15 0 0 - ~ 62 0 ~ 0\n";
/// let (mut exported, mut imported, mut plain, mut again) = ([0; 128], [0; 128], [0; 128], [0; 128]);
/// assert_eq!(round_trip(sheet, &mut exported, &mut imported, &mut plain, &mut again), Trip::AllSame);
/// assert!(exported.starts_with(b"format name flags metadata children dictionary\n2b75643a30 75 0 ~ 1 0\n7473733a 62 0 ~ 0 0\n\0"));
/// assert_eq!(imported, plain);
/// assert_eq!(again, exported);
/// ```
pub fn round_trip(sheet: &[u8], exported: &mut [u8], imported: &mut [u8], plain: &mut [u8], again: &mut [u8]) -> Trip {
    // SAFETY: all five slices are live and do not overlap. The library reads within `sheet` and writes within the other four.
    trip_of(unsafe {
        raw::juzontefa_round_trip(
            sheet.as_ptr(),
            sheet.len(),
            exported.as_mut_ptr(),
            exported.len(),
            imported.as_mut_ptr(),
            imported.len(),
            plain.as_mut_ptr(),
            plain.len(),
            again.as_mut_ptr(),
            again.len(),
        )
    })
}

/// [`round_trip`] with both exports and the import in this order; with [`ByteOrder::LittleEndian`] it is `round_trip` itself. The
/// buffers and their rooms are the same.
///
/// ```
/// use juzontefa::{round_trip_with_order, ByteOrder, Trip};
///
/// let sheet = b"kind p q text more name nullable pairs children\n0 0 0 ~ ~ - 0 6d=31 0\n";
/// let (mut exported, mut imported, mut plain, mut again) = ([0; 128], [0; 128], [0; 128], [0; 128]);
/// let trip = round_trip_with_order(sheet, ByteOrder::BigEndian, &mut exported, &mut imported, &mut plain, &mut again);
/// assert_eq!(trip, Trip::AllSame);
/// assert!(exported.starts_with(b"format name flags metadata children dictionary\n6e - 0 00000001000000016d0000000131 0 0\n\0"));
/// assert!(imported.starts_with(sheet) && imported == plain && again == exported);
/// ```
pub fn round_trip_with_order(
    sheet: &[u8],
    order: ByteOrder,
    exported: &mut [u8],
    imported: &mut [u8],
    plain: &mut [u8],
    again: &mut [u8],
) -> Trip {
    trip_of(ordered_trip(raw::juzontefa_round_trip_with_order, sheet, order, [exported, imported, plain, again]))
}

/// [`round_trip_with_order`] with both exports strict: a field with a reserved key or a dictionary index of 128 bits is refused at its
/// export, and nothing ever differs. Once its export is answered, only a sheet that is too long to be handed in or for its buffer is
/// refused. The buffers and their rooms are the same.
///
/// ```
/// use juzontefa::{strict_round_trip, ByteOrder, Refusal, Trip};
///
/// // ARROW:extension:name among the pairs: after `export` it would come back as an extension
/// let sheet = b"kind p q text more name nullable pairs children\n4 0 0 ~ ~ 70 1 4152524f573a657874656e73696f6e3a6e616d65=78 0\n";
/// let (mut exported, mut imported, mut plain, mut again) = ([7; 128], [7; 128], [7; 128], [7; 128]);
/// let trip = strict_round_trip(sheet, ByteOrder::LittleEndian, &mut exported, &mut imported, &mut plain, &mut again);
/// assert_eq!(trip, Trip::ExportRefused(Refusal::ReservedKey));
/// assert_eq!([exported, imported, plain, again], [[0; 128]; 4]);
/// ```
pub fn strict_round_trip(
    sheet: &[u8],
    order: ByteOrder,
    exported: &mut [u8],
    imported: &mut [u8],
    plain: &mut [u8],
    again: &mut [u8],
) -> Trip {
    strict_trip_of(ordered_trip(raw::juzontefa_strict_round_trip, sheet, order, [exported, imported, plain, again]))
}

/// One of the two calls that take a field out and back under an order.
fn ordered_trip(call: raw::OrderedTrip, sheet: &[u8], order: ByteOrder, lent: [&mut [u8]; 4]) -> raw::Trip {
    let [exported, imported, plain, again] = lent;
    // SAFETY: as in `round_trip`.
    unsafe {
        call(
            sheet.as_ptr(),
            sheet.len(),
            order.big(),
            exported.as_mut_ptr(),
            exported.len(),
            imported.as_mut_ptr(),
            imported.len(),
            plain.as_mut_ptr(),
            plain.len(),
            again.as_mut_ptr(),
            again.len(),
        )
    }
}
