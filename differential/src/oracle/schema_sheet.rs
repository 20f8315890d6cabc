//! Schema sheets as `ArrowSchema` structs and back.

use std::ffi::CStr;
use std::os::raw::c_char;
use std::ptr;

use polars_arrow::ffi::mmap::{members_of, schema_of, SchemaMembers};
use polars_arrow::ffi::ArrowSchema;

use super::cursor::Cursor;
use super::metadata::{block_len, Blocks};
use super::tree::{self, Branch};
use super::write::{put_decimal, put_signed, put_text};
use crate::refusal::{Number, LINE};

pub const HEADING: &[u8] = b"format name flags metadata children dictionary\n";

/// A line's columns; texts are places in the arena of texts.
struct SchemaLine {
    format: Option<usize>,
    name: Option<usize>,
    flags: i64,
    metadata: Option<(usize, usize)>,
    children: u64,
    dictionary: u64,
}

/// A producer's schema: the structs, and the memory that they point to.
pub struct Producer {
    schemas: Vec<ArrowSchema>,
    _children: Vec<*mut ArrowSchema>,
    _texts: Vec<u8>,
}

impl Producer {
    /// The structs of a schema sheet, or refusal 1, 2 or 3.
    pub fn of_sheet(sheet: &[u8], blocks: &Blocks) -> Result<Producer, Number> {
        let mut cursor = Cursor::after_heading(sheet, HEADING)?;
        let mut texts = Vec::with_capacity(sheet.len() / 2);
        let mut lines = Vec::with_capacity(cursor.lines_left());
        while !cursor.at_end() {
            lines.push(read_line(&mut cursor, &mut texts)?);
        }
        tree::check(lines.iter().map(|line| Branch { below: line.children + line.dictionary, is_extension: false }))?;
        Ok(link(&lines, texts, blocks))
    }

    pub fn root(&self) -> &ArrowSchema {
        // The structs stand in the order of their making, from the last line to the first.
        &self.schemas[self.schemas.len() - 1]
    }
}

fn read_line(cursor: &mut Cursor, texts: &mut Vec<u8>) -> Result<SchemaLine, Number> {
    let format = read_c_string(cursor, texts)?;
    cursor.expect(b' ')?;
    let name = read_c_string(cursor, texts)?;
    cursor.expect(b' ')?;
    let flags = cursor.signed(i64::MAX as u64)?;
    cursor.expect(b' ')?;
    let start = texts.len();
    let metadata = cursor.text(texts)?.then_some((start, texts.len()));
    cursor.expect(b' ')?;
    let children = cursor.number(i64::MAX as u64)?;
    cursor.expect(b' ')?;
    let dictionary = cursor.number(1)?;
    cursor.expect(b'\n')?;
    Ok(SchemaLine { format, name, flags, metadata, children, dictionary })
}

/// A text without byte 00, ended by byte 00 in the arena.
fn read_c_string(cursor: &mut Cursor, texts: &mut Vec<u8>) -> Result<Option<usize>, Number> {
    let start = texts.len();
    if !cursor.text(texts)? {
        return Ok(None);
    }
    if texts[start..].contains(&0) {
        return Err(LINE);
    }
    texts.push(0);
    Ok(Some(start))
}

/// From the last line to the first: a line's children are the structs that were made last, the first child at the end.
fn link(lines: &[SchemaLine], texts: Vec<u8>, blocks: &Blocks) -> Producer {
    let mut schemas: Vec<ArrowSchema> = Vec::with_capacity(lines.len());
    let mut children: Vec<*mut ArrowSchema> = Vec::with_capacity(lines.len());
    // The vectors do not grow past these capacities, so the places that are taken here stay.
    let schema_base = schemas.as_mut_ptr();
    let child_base = children.as_mut_ptr();
    let mut roots: Vec<*mut ArrowSchema> = Vec::new();
    for (made, line) in lines.iter().rev().enumerate() {
        let first = children.len();
        for _ in 0..line.children {
            // `tree::check` has counted them; there is no other way that a pointer is missing.
            children.push(roots.pop().unwrap_or(ptr::null_mut()));
        }
        let dictionary = if line.dictionary == 1 { roots.pop() } else { None };
        let text_at = |at: Option<usize>| at.map_or(ptr::null(), |at| texts[at..].as_ptr() as *const c_char);
        let block = line.metadata.map(|(start, end)| blocks.safe(&texts[start..end]));
        schemas.push(schema_of(SchemaMembers {
            format: text_at(line.format),
            name: text_at(line.name),
            metadata: block.map_or(ptr::null(), |block| block.as_ptr() as *const c_char),
            flags: line.flags,
            n_children: line.children as i64,
            // SAFETY: `first` and `made` are at most the capacity.
            children: unsafe { child_base.add(first) },
            dictionary: dictionary.unwrap_or(ptr::null_mut()),
        }));
        roots.push(unsafe { schema_base.add(made) });
    }
    Producer { schemas, _children: children, _texts: texts }
}

/// The sheet of an exported schema, whose strings and pointers `ArrowSchema::new` has made.
pub fn write(schema: &ArrowSchema, out: &mut Vec<u8>) {
    out.extend_from_slice(HEADING);
    write_lines(schema, out);
}

fn write_lines(schema: &ArrowSchema, out: &mut Vec<u8>) {
    let members = members_of(schema);
    put_text(c_bytes(members.format), out);
    out.push(b' ');
    put_text(c_bytes(members.name), out);
    out.push(b' ');
    put_signed(members.flags, out);
    out.push(b' ');
    put_text(block_bytes(members.metadata), out);
    out.push(b' ');
    put_signed(members.n_children, out);
    out.push(b' ');
    put_decimal(!members.dictionary.is_null() as u64, out);
    out.push(b'\n');
    for child in 0..members.n_children as usize {
        // SAFETY: an exported schema has so many children, none of them null.
        write_lines(unsafe { &**members.children.add(child) }, out);
    }
    // SAFETY: null or a struct that the schema owns.
    if let Some(dictionary) = unsafe { members.dictionary.as_ref() } {
        write_lines(dictionary, out);
    }
}

fn c_bytes<'a>(text: *const c_char) -> Option<&'a [u8]> {
    // SAFETY: null or a string that ends in byte 00 and lives as long as the schema.
    (!text.is_null()).then(|| unsafe { CStr::from_ptr(text) }.to_bytes())
}

fn block_bytes<'a>(block: *const c_char) -> Option<&'a [u8]> {
    // SAFETY: null or a whole block that `metadata_to_bytes` has made.
    (!block.is_null()).then(|| unsafe { std::slice::from_raw_parts(block as *const u8, block_len(block as *const u8)) })
}
