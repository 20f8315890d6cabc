//! Document 02, #102: nullable is the flags' bit of value 2. The Rust halves the flags toward zero, which is the same for flags
//! that are not negative; so there its answer is held to, and for negative flags the bit.

use polars_arrow::datatypes::{ArrowDataType, Field};
use polars_arrow::ffi::mmap::members_of;
use polars_arrow::ffi::ArrowSchema;

/// Sets nullable of every field in `field`, which the Rust has imported from `schema`, whose flags are negative.
pub fn by_bit(schema: &ArrowSchema, field: &mut Field) {
    let flags = members_of(schema).flags;
    if flags < 0 {
        field.is_nullable = flags & 2 != 0;
    }
    in_type(schema, &mut field.dtype);
}

/// The values of a dictionary are a type: their own flags say nothing of a field.
fn in_type(schema: &ArrowSchema, dtype: &mut ArrowDataType) {
    match dtype {
        ArrowDataType::Extension(extension) => in_type(schema, &mut extension.inner),
        ArrowDataType::Dictionary(_, values, _) => in_type(values_of(schema), values),
        ArrowDataType::List(item)
        | ArrowDataType::LargeList(item)
        | ArrowDataType::FixedSizeList(item, _)
        | ArrowDataType::Map(item, _) => by_bit(child(schema, 0), item),
        ArrowDataType::Struct(fields) => in_fields(schema, fields),
        ArrowDataType::Union(union) => in_fields(schema, &mut union.fields),
        _ => (),
    }
}

fn in_fields(schema: &ArrowSchema, fields: &mut [Field]) {
    for (place, field) in fields.iter_mut().enumerate() {
        by_bit(child(schema, place), field);
    }
}

fn child(schema: &ArrowSchema, place: usize) -> &ArrowSchema {
    // SAFETY: the Rust has imported this child of the producer's structs.
    unsafe { &**members_of(schema).children.add(place) }
}

fn values_of(schema: &ArrowSchema) -> &ArrowSchema {
    // SAFETY: a dictionary was imported from a schema that has one.
    unsafe { &*members_of(schema).dictionary }
}
