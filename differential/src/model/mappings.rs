//! The mappings of a field's type, and the conversions.

use super::field::*;
use super::wrong::Wrong;
use super::Model;
use crate::refusal::{Number, UNDEFINED};

/// Types without children but for Interval and Unknown: kind, place in `PhysicalType`, inner place, underlying kind.
const LEAVES: [(u8, u64, u64, u8); 29] = [
    (0, 0, 0, 0),
    (1, 1, 0, 1),
    (2, 2, 0, 2),
    (3, 2, 1, 3),
    (4, 2, 2, 4),
    (5, 2, 3, 5),
    (6, 2, 4, 6),
    (7, 2, 6, 7),
    (8, 2, 7, 8),
    (9, 2, 8, 9),
    (10, 2, 9, 10),
    (11, 2, 10, 11),
    (12, 2, 11, 12),
    (13, 2, 12, 13),
    (14, 2, 13, 14),
    (16, 2, 2, 4),
    (17, 2, 3, 5),
    (18, 2, 2, 4),
    (19, 2, 3, 5),
    (20, 2, 3, 5),
    (22, 3, 0, 22),
    (24, 5, 0, 24),
    (25, 6, 0, 25),
    (26, 7, 0, 26),
    (33, 2, 4, 6),
    (34, 2, 2, 4),
    (35, 2, 3, 5),
    (38, 15, 0, 38),
    (39, 16, 0, 39),
];

fn leaf_row(kind: u8) -> Result<(u64, u64, u8), Number> {
    let row = LEAVES.iter().find(|(k, ..)| *k == kind);
    row.map(|(_, place, inner, under)| (*place, *inner, *under)).ok_or(UNDEFINED)
}

impl Model {
    pub fn to_physical_type(&self, dtype: &DataType) -> Result<(u64, u64), Number> {
        match dtype {
            DataType::Leaf { kind: INTERVAL, p, .. } => Ok((2, if *p == 0 { 2 } else { 13 + p })),
            DataType::Leaf { kind: FIXED_SIZE_BINARY, .. } => Ok((4, 0)),
            DataType::Leaf { kind: DECIMAL_256, .. } => Ok((2, 5)),
            DataType::Leaf { kind: UNKNOWN, .. } if self.is(Wrong::UnknownPhysical) => Ok((0, 0)),
            DataType::Leaf { kind: kind @ 7..=11, .. } if self.is(Wrong::PhysicalByInteger) => Ok((2, *kind as u64 - 2)),
            DataType::Leaf { kind, .. } => leaf_row(*kind).map(|(place, inner, _)| (place, inner)),
            DataType::Timestamp { .. } => Ok((2, 3)),
            DataType::Nested { kind: LIST, .. } => Ok((8, 0)),
            DataType::Nested { kind: FIXED_SIZE_LIST, .. } => Ok((9, 0)),
            DataType::Nested { kind: LARGE_LIST, .. } => Ok((10, 0)),
            DataType::Nested { .. } => Ok((13, 0)),
            DataType::Struct(_) => Ok((11, 0)),
            DataType::Union { .. } => Ok((12, 0)),
            DataType::Dictionary { index, .. } => Ok((14, *index)),
            DataType::Extension { .. } if self.is(Wrong::PhysicalStopsAtExtension) => Err(UNDEFINED),
            DataType::Extension { inner, .. } => self.to_physical_type(inner),
        }
    }

    pub fn underlying_physical_type(&self, dtype: &DataType) -> Result<DataType, Number> {
        let change = |dtype: &DataType| self.underlying_physical_type(dtype);
        match dtype {
            DataType::Leaf { kind: INTERVAL, p: 0, .. } => Ok(DataType::leaf(4)),
            DataType::Leaf { kind: INTERVAL, p: 1, .. } if self.is(Wrong::DayTimeUnderlying) => Ok(DataType::leaf(4)),
            DataType::Leaf { kind: INTERVAL, p: 1, .. } => Ok(DataType::leaf(5)),
            DataType::Leaf { kind: UNKNOWN, .. } if self.is(Wrong::UnknownUnderlying) => Err(UNDEFINED),
            DataType::Leaf { kind: FIXED_SIZE_BINARY | UNKNOWN, .. } => Ok(dtype.clone()),
            DataType::Leaf { kind, .. } => Ok(DataType::leaf(leaf_row(*kind)?.2)),
            DataType::Timestamp { .. } => Ok(DataType::leaf(5)),
            DataType::Nested { kind: LIST | FIXED_SIZE_LIST | LARGE_LIST, .. } | DataType::Struct(_) => {
                below(dtype, change)
            }
            DataType::Nested { .. } | DataType::Union { .. } => Err(UNDEFINED),
            DataType::Dictionary { index, values, .. } => {
                if self.is(Wrong::UnderlyingValues) {
                    change(values)?;
                }
                Ok(DataType::integer(*index))
            }
            DataType::Extension { inner, .. } => change(inner),
        }
    }

    pub fn to_storage(&self, dtype: &DataType) -> DataType {
        match dtype {
            DataType::Extension { inner, .. } if self.is(Wrong::StorageOnce) => (**inner).clone(),
            DataType::Extension { inner, .. } => self.to_storage(inner),
            other => other.clone(),
        }
    }

    pub fn to_storage_recursive(&self, dtype: &DataType) -> Result<DataType, Number> {
        let change = |dtype: &DataType| self.to_storage_recursive(dtype);
        match dtype {
            DataType::Extension { inner, .. } => change(inner),
            DataType::Nested { kind: LIST | FIXED_SIZE_LIST | LARGE_LIST, .. } | DataType::Struct(_) => {
                below(dtype, change)
            }
            DataType::Union { .. } if self.is(Wrong::StorageUnion) => below(dtype, change),
            DataType::Nested { .. } | DataType::Union { .. } => Err(UNDEFINED),
            DataType::Dictionary { index, ordered, values } => {
                let values = if self.is(Wrong::StorageValues) { values.clone() } else { Box::new(change(values)?) };
                Ok(DataType::Dictionary { index: *index, ordered: *ordered, values })
            }
            leaf => Ok(leaf.clone()),
        }
    }

    pub fn inner_dtype(&self, dtype: &DataType) -> Result<DataType, Number> {
        match dtype {
            DataType::Nested { kind: MAP, .. } if !self.is(Wrong::InnerOfMap) => Err(UNDEFINED),
            DataType::Nested { field, .. } => Ok(field.dtype.clone()),
            DataType::Extension { inner, .. } if self.is(Wrong::InnerThroughExtension) => self.inner_dtype(inner),
            _ => Err(UNDEFINED),
        }
    }

    pub fn get_child(&self, dtype: &DataType, index: u64) -> Result<DataType, Number> {
        match dtype {
            DataType::Nested { field, .. } if index == 0 || self.is(Wrong::ChildIndexIgnored) => Ok(field.dtype.clone()),
            DataType::Struct(fields) | DataType::Union { fields, .. } => {
                let field = usize::try_from(index).ok().and_then(|index| fields.get(index));
                field.map(|field| field.dtype.clone()).ok_or(UNDEFINED)
            }
            DataType::Dictionary { values, .. } if index == 0 && self.is(Wrong::ChildOfDictionary) => {
                Ok((**values).clone())
            }
            DataType::Extension { inner, .. } if !self.is(Wrong::ChildNotThroughExtension) => self.get_child(inner, index),
            _ => Err(UNDEFINED),
        }
    }

    pub fn is_nested(&self, dtype: &DataType) -> bool {
        match dtype {
            DataType::Leaf { .. } | DataType::Timestamp { .. } => false,
            DataType::Extension { .. } => !self.is(Wrong::ExtensionNotNested),
            _ => true,
        }
    }

    pub fn contains_dictionary(&self, dtype: &DataType) -> bool {
        let any = |fields: &[Field]| fields.iter().any(|field| self.contains_dictionary(&field.dtype));
        match dtype {
            DataType::Leaf { .. } | DataType::Timestamp { .. } => false,
            DataType::Nested { field, .. } => self.contains_dictionary(&field.dtype),
            DataType::Struct(fields) => any(fields),
            DataType::Union { fields, .. } => any(fields) && !self.is(Wrong::DictionaryNotInUnion),
            DataType::Dictionary { .. } => true,
            DataType::Extension { inner, .. } => {
                self.contains_dictionary(inner) && !self.is(Wrong::DictionaryNotInExtension)
            }
        }
    }

    pub fn from_integer_type(&self, place: u64) -> Result<DataType, Number> {
        let places = if self.is(Wrong::PlaceTen) { 11 } else { 10 };
        if place < places {
            Ok(DataType::integer(place))
        } else {
            Err(UNDEFINED)
        }
    }

    pub fn from_primitive_type(&self, place: u64) -> Result<DataType, Number> {
        let size = if self.is(Wrong::Decimal256Zero) { 0 } else { 32 };
        match place {
            0..=4 => Ok(DataType::leaf(place as u8 + 2)),
            5 => Ok(DataType::Leaf { kind: DECIMAL_256, p: size, q: size }),
            6..=13 => Ok(DataType::leaf(place as u8 + 1)),
            14..=16 => Ok(DataType::Leaf { kind: INTERVAL, p: place - 13, q: 0 }),
            _ => Err(UNDEFINED),
        }
    }
}

/// The type with its fields' types changed, in order.
fn below(dtype: &DataType, change: impl Fn(&DataType) -> Result<DataType, Number>) -> Result<DataType, Number> {
    let field_of = |field: &Field| Ok(Field { own: field.own.clone(), dtype: change(&field.dtype)? });
    let fields_of = |fields: &[Field]| fields.iter().map(field_of).collect::<Result<Vec<_>, Number>>();
    Ok(match dtype {
        DataType::Nested { kind, p, field } => DataType::Nested { kind: *kind, p: *p, field: Box::new(field_of(field)?) },
        DataType::Struct(fields) => DataType::Struct(fields_of(fields)?),
        DataType::Union { mode, ids, fields } => {
            DataType::Union { mode: *mode, ids: ids.clone(), fields: fields_of(fields)? }
        }
        other => other.clone(),
    })
}
