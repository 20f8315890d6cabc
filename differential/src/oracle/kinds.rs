//! The columns that tell a type, from the Rust's enumerations.

use polars_arrow::datatypes::{ArrowDataType, IntegerType, IntervalUnit, PhysicalType, PrimitiveType, TimeUnit};

#[derive(Default)]
pub struct Columns<'a> {
    pub kind: u64,
    pub p: u64,
    pub q: u64,
    pub text: Option<&'a [u8]>,
    /// A union's ids stand in the text's column.
    pub ids: Option<&'a [i32]>,
    pub more: Option<&'a [u8]>,
    pub children: usize,
}

/// A leaf without numbers and texts, by its place in `ArrowDataType`.
fn place(kind: u64) -> Columns<'static> {
    Columns { kind, ..Columns::default() }
}

fn numbers(kind: u64, p: u64, q: u64) -> Columns<'static> {
    Columns { kind, p, q, ..Columns::default() }
}

fn nested(kind: u64, p: u64, q: u64, children: usize) -> Columns<'static> {
    Columns { kind, p, q, children, ..Columns::default() }
}

pub fn columns_of(dtype: &ArrowDataType) -> Columns<'_> {
    use ArrowDataType::*;
    match dtype {
        Timestamp(unit, zone) => Columns {
            kind: 15,
            p: unit_place(*unit),
            text: zone.as_ref().map(|zone| zone.as_bytes()),
            ..Columns::default()
        },
        Time32(unit) => numbers(18, unit_place(*unit), 0),
        Time64(unit) => numbers(19, unit_place(*unit), 0),
        Duration(unit) => numbers(20, unit_place(*unit), 0),
        Interval(unit) => numbers(21, interval_place(*unit), 0),
        FixedSizeBinary(size) => numbers(23, *size as u64, 0),
        List(_) => nested(27, 0, 0, 1),
        FixedSizeList(_, size) => nested(28, *size as u64, 0, 1),
        LargeList(_) => nested(29, 0, 0, 1),
        Struct(fields) => nested(30, 0, 0, fields.len()),
        Map(_, is_sorted) => nested(31, *is_sorted as u64, 0, 1),
        Dictionary(index, _, is_ordered) => nested(32, integer_place(*index), *is_ordered as u64, 1),
        Decimal(precision, scale) => numbers(33, *precision as u64, *scale as u64),
        Decimal32(precision, scale) => numbers(34, *precision as u64, *scale as u64),
        Decimal64(precision, scale) => numbers(35, *precision as u64, *scale as u64),
        Decimal256(precision, scale) => numbers(36, *precision as u64, *scale as u64),
        Extension(ext) => Columns {
            text: Some(ext.name.as_bytes()),
            more: ext.metadata.as_ref().map(|metadata| metadata.as_bytes()),
            ..nested(37, 0, 0, 1)
        },
        Union(u) => Columns { ids: u.ids.as_deref(), ..nested(41, u.mode.is_sparse() as u64, 0, u.fields.len()) },
        leaf => place(leaf_place(leaf)),
    }
}

fn leaf_place(dtype: &ArrowDataType) -> u64 {
    use ArrowDataType::*;
    match dtype {
        Null => 0,
        Boolean => 1,
        Int8 => 2,
        Int16 => 3,
        Int32 => 4,
        Int64 => 5,
        Int128 => 6,
        UInt8 => 7,
        UInt16 => 8,
        UInt32 => 9,
        UInt64 => 10,
        UInt128 => 11,
        Float16 => 12,
        Float32 => 13,
        Float64 => 14,
        Date32 => 16,
        Date64 => 17,
        Binary => 22,
        LargeBinary => 24,
        Utf8 => 25,
        LargeUtf8 => 26,
        BinaryView => 38,
        Utf8View => 39,
        Unknown => 40,
        other => unreachable!("not a plain leaf: {other:?}"),
    }
}

fn unit_place(unit: TimeUnit) -> u64 {
    unit as u64
}

fn interval_place(unit: IntervalUnit) -> u64 {
    unit as u64
}

fn integer_place(index: IntegerType) -> u64 {
    index as u64
}

/// The place in `PhysicalType`, and that of the primitive or index type that it carries, 0 if there is none.
pub fn physical_places(physical: PhysicalType) -> (u64, u64) {
    match physical {
        PhysicalType::Null => (0, 0),
        PhysicalType::Boolean => (1, 0),
        PhysicalType::Primitive(primitive) => (2, primitive as u64),
        PhysicalType::Binary => (3, 0),
        PhysicalType::FixedSizeBinary => (4, 0),
        PhysicalType::LargeBinary => (5, 0),
        PhysicalType::Utf8 => (6, 0),
        PhysicalType::LargeUtf8 => (7, 0),
        PhysicalType::List => (8, 0),
        PhysicalType::FixedSizeList => (9, 0),
        PhysicalType::LargeList => (10, 0),
        PhysicalType::Struct => (11, 0),
        PhysicalType::Union => (12, 0),
        PhysicalType::Map => (13, 0),
        PhysicalType::Dictionary(index) => (14, integer_place(index)),
        PhysicalType::BinaryView => (15, 0),
        PhysicalType::Utf8View => (16, 0),
    }
}

/// By its place in `PrimitiveType`.
pub fn primitive_type(place: u64) -> Option<PrimitiveType> {
    use PrimitiveType::*;
    const PLACES: [PrimitiveType; 17] = [
        Int8,
        Int16,
        Int32,
        Int64,
        Int128,
        Int256,
        UInt8,
        UInt16,
        UInt32,
        UInt64,
        UInt128,
        Float16,
        Float32,
        Float64,
        DaysMs,
        MonthDayNano,
        MonthDayMillis,
    ];
    usize::try_from(place).ok().and_then(|place| PLACES.get(place)).copied()
}
