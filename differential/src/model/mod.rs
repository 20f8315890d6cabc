//! A second, plain reading of document 01 that does not call the Rust: trees of enums over bytes, every rule written out
//! once, no thought of speed. It also answers plain form, and of document 02 the page, big-endian metadata, the measures and strict
//! export. Each wrong reading is a switch on it.

// The functions bear the Rust's names, `to_field` and the like, and all take the reading.
#![allow(clippy::wrong_self_convention)]

mod export;
mod field;
mod format;
mod import;
mod mappings;
mod measure;
mod metadata;
mod page;
mod plain;
mod schema;
mod strict;
mod text;
mod wrong;

use crate::answer::{Answer, Answered, Outcome};
use crate::call::{Call, Order, Request};
use crate::refusal::{BUFFER_SHORT, NULL_FORMAT};
use field::{write_bare, write_field, DataType, Field};
pub use wrong::{Wrong, WRONG_READINGS};

pub type Bytes = Vec<u8>;

#[derive(Clone, Copy)]
pub struct Model {
    wrong: Option<Wrong>,
}

impl Model {
    pub fn new() -> Model {
        Model { wrong: None }
    }

    /// The reading that is wrong in one point.
    pub fn wrongly(wrong: Wrong) -> Model {
        Model { wrong: Some(wrong) }
    }

    fn is(&self, wrong: Wrong) -> bool {
        self.wrong == Some(wrong)
    }

    pub fn answer(&self, request: Request, sheet: &[u8]) -> Answered {
        let argument = request.argument;
        if let Some(conversion) = request.measured() {
            return self.measure(conversion, sheet);
        }
        match request.call {
            Call::Import => self.import(sheet, request.order()),
            Call::StrictExport => self.strict_export(sheet, request.order()),
            Call::FromIntegerType => Ok(Answer::Sheet(write_bare(&self.from_integer_type(argument)?))),
            Call::FromPrimitiveType => Ok(Answer::Sheet(write_bare(&self.from_primitive_type(argument)?))),
            _ => self.of_field(request, &self.read_field(sheet)?),
        }
    }

    fn import(&self, sheet: &[u8], order: Order) -> Answered {
        let field = self.to_field(&self.read_schema(sheet)?, order)?;
        Ok(Answer::Sheet(write_field(&field)))
    }

    /// The order of the blocks below a line, which is the line's own.
    fn order_below(&self, order: Order) -> Order {
        match self.is(Wrong::OrderOfFirstLine) {
            true => Order::Little,
            false => order,
        }
    }

    /// The order of the blocks of a dictionary's values, which is that of all others.
    fn order_of_values(&self, order: Order) -> Order {
        match self.is(Wrong::OrderNotOfValues) {
            true => Order::Little,
            false => order,
        }
    }

    fn of_field(&self, request: Request, field: &Field) -> Answered {
        let dtype = &field.dtype;
        Ok(match request.call {
            Call::Export => Answer::Sheet(schema::write_schema(&self.to_schema(field, request.order())?)),
            Call::Plain => Answer::Sheet(write_field(&self.plain(field))),
            Call::ToPhysicalType => {
                let (place, inner) = self.to_physical_type(dtype)?;
                Answer::Values(place, inner)
            }
            Call::UnderlyingPhysicalType => self.with_dtype(field, self.underlying_physical_type(dtype)?),
            Call::ToStorage => self.with_dtype(field, self.to_storage(dtype)),
            Call::ToStorageRecursive => self.with_dtype(field, self.to_storage_recursive(dtype)?),
            Call::InnerDtype => Answer::Sheet(write_bare(&self.inner_dtype(dtype)?)),
            Call::GetChild => Answer::Sheet(write_bare(&self.get_child(dtype, request.argument)?)),
            Call::IsNested => Answer::Values(self.is_nested(dtype) as u64, 0),
            Call::ContainsDictionary => Answer::Values(self.contains_dictionary(dtype) as u64, 0),
            Call::Page => Answer::Sheet(self.page(field)?),
            other => unreachable!("{} takes no field sheet", other.name()),
        })
    }

    fn with_dtype(&self, field: &Field, dtype: DataType) -> Answer {
        let mut own = field.own.clone();
        if self.is(Wrong::WithDtypePlain) {
            own.pairs = own.pairs.filter(|pairs| !pairs.is_empty());
        }
        Answer::Sheet(write_field(&Field { own, dtype }))
    }

    /// Whether document 01's demand 3 speaks of the field: no reserved key and no dictionary index of 128 bits in any line.
    /// None for a sheet that is no field.
    pub fn comes_back(&self, sheet: &[u8]) -> Option<bool> {
        let field = self.read_field(sheet).ok()?;
        Some(own_comes_back(&field.own) && type_comes_back(&field.dtype))
    }

    /// The number, the values or the length, and every byte of the lent buffer.
    pub fn outcome(&self, request: Request, sheet: &[u8], lent: Bytes) -> Outcome {
        let answered = match self.strict_room(request, sheet, lent.len()) {
            Some(number) => Err(number),
            None => self.answer(request, sheet),
        };
        let len = match &answered {
            Ok(Answer::Sheet(sheet)) => sheet.len(),
            Ok(Answer::Values(first, second)) => {
                return Outcome { number: 0, first: *first, second: *second, buffer: lent };
            }
            Err(_) => 0,
        };
        let short = len > lent.len() || (len == lent.len() && self.is(Wrong::BufferExact));
        let first_16 = self.is(Wrong::BufferFirst) && lent.is_empty() && !matches!(answered, Err(1..=3));
        match answered {
            Err(number @ NULL_FORMAT..) if request.measured().is_some() && self.is(Wrong::MeasureCountsKept) => {
                Outcome { second: 1, ..self.cleared(number, 0, lent) }
            }
            Ok(Answer::Sheet(answer)) if !short && !first_16 => self.filled(&answer, lent),
            Err(number) if !first_16 => self.cleared(number, 0, lent),
            _ => self.cleared(BUFFER_SHORT, len, lent),
        }
    }

    fn filled(&self, answer: &[u8], mut lent: Bytes) -> Outcome {
        if self.is(Wrong::RestZeroed) {
            lent.fill(0);
        }
        lent[..answer.len()].copy_from_slice(answer);
        Outcome { number: 0, first: answer.len() as u64, second: 0, buffer: lent }
    }

    fn cleared(&self, number: u8, needed: usize, lent: Bytes) -> Outcome {
        let first = if self.is(Wrong::LengthOn16) { needed as u64 } else { 0 };
        let buffer = if self.is(Wrong::RefusalLeavesBytes) { lent } else { vec![0; lent.len()] };
        Outcome { number, first, second: 0, buffer }
    }
}

fn own_comes_back(own: &field::Own) -> bool {
    let reserved = |key: &[u8]| key == metadata::NAME_KEY || key == metadata::METADATA_KEY;
    !own.pairs.iter().flatten().any(|(key, _)| reserved(key))
}

fn type_comes_back(dtype: &DataType) -> bool {
    let all = |fields: &[Field]| fields.iter().all(|field| own_comes_back(&field.own) && type_comes_back(&field.dtype));
    match dtype {
        DataType::Leaf { .. } | DataType::Timestamp { .. } => true,
        DataType::Nested { field, .. } => all(std::slice::from_ref(field)),
        DataType::Struct(fields) => all(fields),
        DataType::Union { fields, .. } => all(fields),
        DataType::Dictionary { index, values, .. } => !matches!(index, 4 | 9) && type_comes_back(values),
        DataType::Extension { inner, .. } => type_comes_back(inner),
    }
}
