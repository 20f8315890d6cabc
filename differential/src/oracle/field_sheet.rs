//! Field sheets as `Field` values of the Rust and back.

use std::sync::Arc;

use polars_arrow::datatypes::{
    ArrowDataType, ExtensionType, Field, IntegerType, IntervalUnit, Metadata, TimeUnit, UnionMode, UnionType,
};
use polars_utils::pl_str::PlSmallStr;
use simdutf8::basic::from_utf8;

use super::cursor::Cursor;
use super::kinds::{columns_of, Columns};
use super::tree::{self, Branch};
use super::write::{put_decimal, put_hex, put_signed, put_text};
use crate::refusal::{Number, LINE};

pub const HEADING: &[u8] = b"kind p q text more name nullable pairs children\n";

/// What a line says of its type; the subtrees below it are put in later.
enum Head {
    Leaf(ArrowDataType),
    List,
    FixedSizeList(usize),
    LargeList,
    Struct,
    Map(bool),
    Dictionary(IntegerType, bool),
    Extension(PlSmallStr, Option<PlSmallStr>),
    Union(UnionMode, Option<Vec<i32>>),
}

/// What a line that is not bare says of its field.
struct Own {
    name: PlSmallStr,
    is_nullable: bool,
    metadata: Option<Arc<Metadata>>,
}

struct FieldLine {
    head: Head,
    own: Option<Own>,
    children: u64,
}

/// A subtree: a bare line's type, or a field.
struct Entry {
    own: Option<Own>,
    dtype: ArrowDataType,
}

/// The field of a field sheet, or refusal 1, 2 or 3.
pub fn read(sheet: &[u8]) -> Result<Field, Number> {
    let mut cursor = Cursor::after_heading(sheet, HEADING)?;
    let mut lines = Vec::with_capacity(cursor.lines_left());
    let mut scratch = Vec::new();
    while !cursor.at_end() {
        lines.push(read_line(&mut cursor, &mut scratch)?);
    }
    let mut levels = Ok(());
    // A wrong shape (2) comes before the levels (3), and the shape also asks which lines are bare.
    let branch = |line: &FieldLine| Branch { below: line.children, is_extension: matches!(line.head, Head::Extension(..)) };
    if let Err(number) = tree::check(lines.iter().map(branch)) {
        if number == LINE {
            return Err(LINE);
        }
        levels = Err(number);
    }
    let field = assemble(lines)?;
    levels.map(|()| field)
}

fn read_line(cursor: &mut Cursor, scratch: &mut Vec<u8>) -> Result<FieldLine, Number> {
    let kind = cursor.number(41)?;
    cursor.expect(b' ')?;
    let p = cursor.number(u64::MAX)?;
    cursor.expect(b' ')?;
    let q = cursor.number(u64::MAX)?;
    cursor.expect(b' ')?;
    let head = match kind {
        41 => read_union(cursor, p, q)?,
        _ => {
            let text = read_text(cursor, scratch)?;
            cursor.expect(b' ')?;
            let more = read_text(cursor, scratch)?;
            head_of(kind, p, q, text, more)?
        }
    };
    cursor.expect(b' ')?;
    let own = read_own(cursor, scratch)?;
    cursor.expect(b' ')?;
    let children = cursor.number(u64::MAX)?;
    cursor.expect(b'\n')?;
    if !has_children(&head, children) {
        return Err(LINE);
    }
    Ok(FieldLine { head, own, children })
}

fn has_children(head: &Head, children: u64) -> bool {
    match head {
        Head::Leaf(_) => children == 0,
        Head::Struct | Head::Union(..) => true,
        _ => children == 1,
    }
}

fn head_of(kind: u64, p: u64, q: u64, text: Option<PlSmallStr>, more: Option<PlSmallStr>) -> Result<Head, Number> {
    match (kind, text, more) {
        (15, zone, None) if q == 0 => Ok(Head::Leaf(ArrowDataType::Timestamp(time_unit(p)?, zone))),
        (37, Some(name), metadata) if (p, q) == (0, 0) => Ok(Head::Extension(name, metadata)),
        (15 | 37, _, _) => Err(LINE),
        (_, None, None) => match kind {
            32 => Ok(Head::Dictionary(integer_type(p)?, boolean(q)?)),
            33..=36 => Ok(Head::Leaf(decimal(kind, p as usize, q as usize))),
            _ if q == 0 => one_number(kind, p),
            _ => Err(LINE),
        },
        _ => Err(LINE),
    }
}

/// The kinds that use `p` alone, or neither number.
fn one_number(kind: u64, p: u64) -> Result<Head, Number> {
    Ok(match (kind, p) {
        (18, _) => Head::Leaf(ArrowDataType::Time32(time_unit(p)?)),
        (19, _) => Head::Leaf(ArrowDataType::Time64(time_unit(p)?)),
        (20, _) => Head::Leaf(ArrowDataType::Duration(time_unit(p)?)),
        (21, _) => Head::Leaf(ArrowDataType::Interval(interval_unit(p)?)),
        (23, _) => Head::Leaf(ArrowDataType::FixedSizeBinary(p as usize)),
        (28, _) => Head::FixedSizeList(p as usize),
        (31, _) => Head::Map(boolean(p)?),
        (27, 0) => Head::List,
        (29, 0) => Head::LargeList,
        (30, 0) => Head::Struct,
        (_, 0) => Head::Leaf(plain_leaf(kind)?),
        _ => return Err(LINE),
    })
}

fn plain_leaf(kind: u64) -> Result<ArrowDataType, Number> {
    use ArrowDataType::*;
    const NUMBERS: [ArrowDataType; 15] = [
        Null, Boolean, Int8, Int16, Int32, Int64, Int128, UInt8, UInt16, UInt32, UInt64, UInt128, Float16, Float32, Float64,
    ];
    Ok(match kind {
        0..=14 => NUMBERS[kind as usize].clone(),
        16 => Date32,
        17 => Date64,
        22 => Binary,
        24 => LargeBinary,
        25 => Utf8,
        26 => LargeUtf8,
        38 => BinaryView,
        39 => Utf8View,
        40 => Unknown,
        _ => return Err(LINE),
    })
}

fn decimal(kind: u64, precision: usize, scale: usize) -> ArrowDataType {
    match kind {
        33 => ArrowDataType::Decimal(precision, scale),
        34 => ArrowDataType::Decimal32(precision, scale),
        35 => ArrowDataType::Decimal64(precision, scale),
        _ => ArrowDataType::Decimal256(precision, scale),
    }
}

fn time_unit(p: u64) -> Result<TimeUnit, Number> {
    Ok(match p {
        0 => TimeUnit::Second,
        1 => TimeUnit::Millisecond,
        2 => TimeUnit::Microsecond,
        3 => TimeUnit::Nanosecond,
        _ => return Err(LINE),
    })
}

fn interval_unit(p: u64) -> Result<IntervalUnit, Number> {
    Ok(match p {
        0 => IntervalUnit::YearMonth,
        1 => IntervalUnit::DayTime,
        2 => IntervalUnit::MonthDayNano,
        3 => IntervalUnit::MonthDayMillis,
        _ => return Err(LINE),
    })
}

/// By its place in `IntegerType`.
pub fn integer_type(place: u64) -> Result<IntegerType, Number> {
    use IntegerType::*;
    const PLACES: [IntegerType; 10] = [Int8, Int16, Int32, Int64, Int128, UInt8, UInt16, UInt32, UInt64, UInt128];
    usize::try_from(place).ok().and_then(|place| PLACES.get(place)).copied().ok_or(LINE)
}

fn boolean(value: u64) -> Result<bool, Number> {
    match value {
        0 => Ok(false),
        1 => Ok(true),
        _ => Err(LINE),
    }
}

fn read_text(cursor: &mut Cursor, scratch: &mut Vec<u8>) -> Result<Option<PlSmallStr>, Number> {
    scratch.clear();
    if !cursor.text(scratch)? {
        return Ok(None);
    }
    small_str(scratch).map(Some)
}

fn small_str(bytes: &[u8]) -> Result<PlSmallStr, Number> {
    from_utf8(bytes).map(PlSmallStr::from_str).map_err(|_| LINE)
}

fn read_union(cursor: &mut Cursor, p: u64, q: u64) -> Result<Head, Number> {
    if q != 0 {
        return Err(LINE);
    }
    let mode = UnionMode::sparse(boolean(p)?);
    let ids = read_ids(cursor)?;
    cursor.expect(b' ')?;
    cursor.expect(b'~')?;
    Ok(Head::Union(mode, ids))
}

fn read_ids(cursor: &mut Cursor) -> Result<Option<Vec<i32>>, Number> {
    if cursor.skip(b'~') {
        return Ok(None);
    }
    let mut ids = Vec::new();
    // `-` alone is the empty list, but a minus may also begin the first id.
    if cursor.skip(b'-') {
        if cursor.peek() == Some(b' ') {
            return Ok(Some(ids));
        }
        let value = cursor.number(i32::MAX as u64 + 1)?;
        if value == 0 {
            return Err(LINE);
        }
        ids.push((value as i64).wrapping_neg() as i32);
    } else {
        ids.push(cursor.signed(i32::MAX as u64)? as i32);
    }
    while cursor.skip(b',') {
        ids.push(cursor.signed(i32::MAX as u64)? as i32);
    }
    Ok(Some(ids))
}

/// The columns `name nullable pairs`, none of a bare line.
fn read_own(cursor: &mut Cursor, scratch: &mut Vec<u8>) -> Result<Option<Own>, Number> {
    let Some(name) = read_text(cursor, scratch)? else {
        cursor.expect(b' ')?;
        cursor.expect(b'~')?;
        cursor.expect(b' ')?;
        cursor.expect(b'~')?;
        return Ok(None);
    };
    cursor.expect(b' ')?;
    let is_nullable = boolean(cursor.number(1)?)?;
    cursor.expect(b' ')?;
    let metadata = read_pairs(cursor, scratch)?;
    Ok(Some(Own { name, is_nullable, metadata: metadata.map(Arc::new) }))
}

fn read_pairs(cursor: &mut Cursor, scratch: &mut Vec<u8>) -> Result<Option<Metadata>, Number> {
    if cursor.skip(b'~') {
        return Ok(None);
    }
    if cursor.skip(b'-') {
        return Ok(Some(Metadata::new()));
    }
    let mut pairs: Vec<(PlSmallStr, PlSmallStr)> = Vec::new();
    loop {
        let key = read_side(cursor, scratch)?;
        cursor.expect(b'=')?;
        let value = read_side(cursor, scratch)?;
        if pairs.last().is_some_and(|(last, _)| *last >= key) {
            return Err(LINE);
        }
        pairs.push((key, value));
        if !cursor.skip(b',') {
            return Ok(Some(pairs.into_iter().collect()));
        }
    }
}

fn read_side(cursor: &mut Cursor, scratch: &mut Vec<u8>) -> Result<PlSmallStr, Number> {
    scratch.clear();
    cursor.hex(scratch)?;
    small_str(scratch)
}

/// From the last line to the first, each line takes its subtrees; `tree::check` has counted them.
fn assemble(lines: Vec<FieldLine>) -> Result<Field, Number> {
    let mut entries: Vec<Entry> = Vec::new();
    for line in lines.into_iter().rev() {
        let rest = entries.len() - line.children as usize;
        let below = entries.split_off(rest);
        let dtype = dtype_of(line.head, below)?;
        entries.push(Entry { own: line.own, dtype });
    }
    entries.pop().map_or(Err(LINE), field_of)
}

fn field_of(entry: Entry) -> Result<Field, Number> {
    let Own { name, is_nullable, metadata } = entry.own.ok_or(LINE)?;
    Ok(Field { name, dtype: entry.dtype, is_nullable, metadata })
}

fn bare_of(mut below: Vec<Entry>) -> Result<ArrowDataType, Number> {
    match below.pop() {
        Some(Entry { own: None, dtype }) => Ok(dtype),
        _ => Err(LINE),
    }
}

fn one_of(mut below: Vec<Entry>) -> Result<Box<Field>, Number> {
    below.pop().map_or(Err(LINE), field_of).map(Box::new)
}

fn dtype_of(head: Head, below: Vec<Entry>) -> Result<ArrowDataType, Number> {
    // The first child was read last.
    let fields = |below: Vec<Entry>| below.into_iter().rev().map(field_of).collect::<Result<Vec<_>, _>>();
    Ok(match head {
        Head::Leaf(dtype) => dtype,
        Head::List => ArrowDataType::List(one_of(below)?),
        Head::FixedSizeList(size) => ArrowDataType::FixedSizeList(one_of(below)?, size),
        Head::LargeList => ArrowDataType::LargeList(one_of(below)?),
        Head::Map(is_sorted) => ArrowDataType::Map(one_of(below)?, is_sorted),
        Head::Struct => ArrowDataType::Struct(fields(below)?),
        Head::Union(mode, ids) => ArrowDataType::Union(Box::new(UnionType { fields: fields(below)?, ids, mode })),
        Head::Dictionary(index, is_ordered) => ArrowDataType::Dictionary(index, Box::new(bare_of(below)?), is_ordered),
        Head::Extension(name, metadata) => {
            ArrowDataType::Extension(Box::new(ExtensionType { name, inner: bare_of(below)?, metadata }))
        }
    })
}

pub fn write(field: &Field, out: &mut Vec<u8>) {
    out.extend_from_slice(HEADING);
    write_lines(&field.dtype, Some(field), out);
}

/// A sheet whose first line is bare.
pub fn write_bare(dtype: &ArrowDataType, out: &mut Vec<u8>) {
    out.extend_from_slice(HEADING);
    write_lines(dtype, None, out);
}

fn write_lines(dtype: &ArrowDataType, own: Option<&Field>, out: &mut Vec<u8>) {
    write_line(&columns_of(dtype), own, out);
    match dtype {
        ArrowDataType::List(field)
        | ArrowDataType::LargeList(field)
        | ArrowDataType::FixedSizeList(field, _)
        | ArrowDataType::Map(field, _) => write_lines(&field.dtype, Some(field), out),
        ArrowDataType::Struct(fields) => fields.iter().for_each(|field| write_lines(&field.dtype, Some(field), out)),
        ArrowDataType::Union(u) => u.fields.iter().for_each(|field| write_lines(&field.dtype, Some(field), out)),
        ArrowDataType::Dictionary(_, values, _) => write_lines(values, None, out),
        ArrowDataType::Extension(ext) => write_lines(&ext.inner, None, out),
        _ => {}
    }
}

fn write_line(columns: &Columns, own: Option<&Field>, out: &mut Vec<u8>) {
    for number in [columns.kind, columns.p, columns.q] {
        put_decimal(number, out);
        out.push(b' ');
    }
    match columns.ids {
        Some(ids) => put_joined(ids, out, |id, out| put_signed(*id as i64, out)),
        None => put_text(columns.text, out),
    }
    out.push(b' ');
    put_text(columns.more, out);
    out.push(b' ');
    match own {
        None => out.extend_from_slice(b"~ ~ ~"),
        Some(field) => write_own(field, out),
    }
    out.push(b' ');
    put_decimal(columns.children as u64, out);
    out.push(b'\n');
}

fn write_own(field: &Field, out: &mut Vec<u8>) {
    put_text(Some(field.name.as_bytes()), out);
    out.extend_from_slice(if field.is_nullable { b" 1 " } else { b" 0 " });
    match &field.metadata {
        None => out.push(b'~'),
        Some(pairs) => put_joined(pairs.iter(), out, |(key, value), out| {
            put_hex(key.as_bytes(), out);
            out.push(b'=');
            put_hex(value.as_bytes(), out);
        }),
    }
}

/// `-` for nothing, else the elements joined by commas.
fn put_joined<T>(elements: impl IntoIterator<Item = T>, out: &mut Vec<u8>, put: impl Fn(T, &mut Vec<u8>)) {
    let start = out.len();
    for (at, element) in elements.into_iter().enumerate() {
        if at > 0 {
            out.push(b',');
        }
        put(element, out);
    }
    if out.len() == start {
        out.push(b'-');
    }
}
