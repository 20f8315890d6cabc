//! The Rust as it answers: sheets become its own structs and values, its own functions are called on them, and what they
//! give becomes a sheet again. Refusals 1, 2 and 3 come from reading the sheet, all others from the Rust.

#[cfg(not(all(target_endian = "little", target_pointer_width = "64", target_os = "linux")))]
compile_error!(
    "document 01 has little-endian lengths and sizes of 64 bits, which the Rust takes from the machine; bench needs Linux"
);

mod cursor;
mod field_sheet;
mod kinds;
mod metadata;
mod nullable;
mod panics;
mod schema_sheet;
mod tree;
mod write;

use polars_arrow::datatypes::{ArrowDataType, Field};
use polars_arrow::ffi::{export_field_to_c, import_field_from_c, mmap};

use crate::answer::{Answer, Answered};
use crate::call::{Call, Request};
use crate::refusal::{Number, UNDEFINED};
use metadata::Blocks;
use panics::told;
use schema_sheet::Producer;

pub struct Rust {
    blocks: Blocks,
}

impl Rust {
    /// Takes the program's panic hook: panics of the Rust are its refusals.
    pub fn new() -> Rust {
        panics::watch();
        Rust { blocks: Blocks::new() }
    }

    /// What a call is held to: the Rust's own answer, but that nullable of negative flags is their bit (document 02, #102).
    pub fn answer(&self, request: Request, sheet: &[u8]) -> Answered {
        assert!(request.is_in_rust(), "the Rust does not answer {request}");
        if request.call != Call::Import {
            return self.own_answer(request, sheet);
        }
        let producer = Producer::of_sheet(sheet, &self.blocks)?;
        let mut field = imported(&producer)?;
        nullable::by_bit(producer.root(), &mut field);
        let mut out = Vec::new();
        field_sheet::write(&field, &mut out);
        Ok(Answer::Sheet(out))
    }

    /// Must not be asked for plain form, the page or big-endian metadata, which the Rust does not have.
    pub fn own_answer(&self, request: Request, sheet: &[u8]) -> Answered {
        assert!(request.is_in_rust(), "the Rust does not answer {request}");
        if !request.call.writes() {
            return values(request.call, &field_sheet::read(sheet)?.dtype);
        }
        let mut out = Vec::new();
        self.write(request, sheet, &mut out)?;
        Ok(Answer::Sheet(out))
    }

    /// A call that writes a sheet, from sheet to sheet.
    pub fn write(&self, request: Request, sheet: &[u8], out: &mut Vec<u8>) -> Result<(), Number> {
        match request.call {
            Call::Import => self.import(sheet, out),
            Call::Export => self.export(sheet, out),
            Call::FromIntegerType => from_integer_type(request.argument, out),
            Call::FromPrimitiveType => from_primitive_type(request.argument, out),
            _ => mapped(request, &field_sheet::read(sheet)?, out),
        }
    }

    /// The type of a field sheet as `ArrowDataType` spells it, without what it holds.
    pub fn kind_name(&self, sheet: &[u8]) -> Result<String, Number> {
        let spelt = format!("{:?}", field_sheet::read(sheet)?.dtype);
        Ok(spelt.chars().take_while(char::is_ascii_alphanumeric).collect())
    }

    /// `import_field_from_c`, from sheet to sheet.
    fn import(&self, sheet: &[u8], out: &mut Vec<u8>) -> Result<(), Number> {
        field_sheet::write(&imported(&Producer::of_sheet(sheet, &self.blocks)?)?, out);
        Ok(())
    }

    /// `export_field_to_c`, from sheet to sheet.
    fn export(&self, sheet: &[u8], out: &mut Vec<u8>) -> Result<(), Number> {
        let field = field_sheet::read(sheet)?;
        let schema = told(|| Ok(export_field_to_c(&field)))?;
        schema_sheet::write(&schema, out);
        Ok(())
    }
}

fn imported(producer: &Producer) -> Result<Field, Number> {
    // SAFETY: the structs and their memory live in `producer`, and its blocks are whole.
    told(|| unsafe { import_field_from_c(producer.root()) })
}

/// The calls that answer numbers.
fn values(call: Call, dtype: &ArrowDataType) -> Answered {
    let (first, second) = match call {
        Call::ToPhysicalType => kinds::physical_places(told(|| Ok(dtype.to_physical_type()))?),
        Call::IsNested => (told(|| Ok(dtype.is_nested()))? as u64, 0),
        Call::ContainsDictionary => (told(|| Ok(dtype.contains_dictionary()))? as u64, 0),
        other => panic!("{} does not answer numbers", other.name()),
    };
    Ok(Answer::Values(first, second))
}

/// The mappings that write a sheet.
fn mapped(request: Request, field: &Field, out: &mut Vec<u8>) -> Result<(), Number> {
    let dtype = &field.dtype;
    let dtype = match request.call {
        Call::UnderlyingPhysicalType => return replaced(field, told(|| Ok(dtype.underlying_physical_type()))?, out),
        Call::ToStorage => return replaced(field, told(|| Ok(dtype.to_storage().clone()))?, out),
        Call::ToStorageRecursive => return replaced(field, told(|| Ok(dtype.to_storage_recursive()))?, out),
        Call::InnerDtype => told(|| Ok(dtype.inner_dtype().cloned()))?.ok_or(UNDEFINED)?,
        Call::GetChild => told(|| mmap::get_child(dtype, request.argument as usize))?,
        other => panic!("the Rust does not answer {}", other.name()),
    };
    field_sheet::write_bare(&dtype, out);
    Ok(())
}

/// The field with its type replaced, by `with_dtype`.
fn replaced(field: &Field, dtype: ArrowDataType, out: &mut Vec<u8>) -> Result<(), Number> {
    field_sheet::write(&told(|| Ok(field.with_dtype(dtype)))?, out);
    Ok(())
}

fn from_integer_type(place: u64, out: &mut Vec<u8>) -> Result<(), Number> {
    let index = field_sheet::integer_type(place).map_err(|_| UNDEFINED)?;
    field_sheet::write_bare(&told(|| Ok(index.into()))?, out);
    Ok(())
}

fn from_primitive_type(place: u64, out: &mut Vec<u8>) -> Result<(), Number> {
    let primitive = kinds::primitive_type(place).ok_or(UNDEFINED)?;
    field_sheet::write_bare(&told(|| Ok(primitive.into()))?, out);
    Ok(())
}
