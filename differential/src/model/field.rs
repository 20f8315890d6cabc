//! Field sheets: fields and their types, read and written.

use super::metadata::{METADATA_KEY, NAME_KEY};
use super::text::{put_hex, put_list, put_number, put_text, split};
use super::wrong::Wrong;
use super::{Bytes, Model};
use crate::refusal::{Number, LEVELS, LINE, NOT_UTF8, RESERVED_KEY, WIDE_INDEX};

pub const HEADING: &[u8] = b"kind p q text more name nullable pairs children";

pub const TIMESTAMP: u8 = 15;
pub const INTERVAL: u8 = 21;
pub const FIXED_SIZE_BINARY: u8 = 23;
pub const LIST: u8 = 27;
pub const FIXED_SIZE_LIST: u8 = 28;
pub const LARGE_LIST: u8 = 29;
pub const STRUCT: u8 = 30;
pub const MAP: u8 = 31;
pub const DICTIONARY: u8 = 32;
pub const DECIMAL: u8 = 33;
pub const DECIMAL_32: u8 = 34;
pub const DECIMAL_64: u8 = 35;
pub const DECIMAL_256: u8 = 36;
pub const EXTENSION: u8 = 37;
pub const UNKNOWN: u8 = 40;
pub const UNION: u8 = 41;

pub type Pairs = Vec<(Bytes, Bytes)>;

#[derive(Debug, Clone, PartialEq)]
pub struct Own {
    pub name: Bytes,
    pub nullable: bool,
    pub pairs: Option<Pairs>,
}

#[derive(Debug, Clone, PartialEq)]
pub struct Field {
    pub own: Own,
    pub dtype: DataType,
}

/// A type; kinds that are read and written alike share a case and are told by their place.
#[derive(Debug, Clone, PartialEq)]
pub enum DataType {
    /// No texts and no children: units, sizes and decimals too.
    Leaf {
        kind: u8,
        p: u64,
        q: u64,
    },
    Timestamp {
        unit: u64,
        zone: Option<Bytes>,
    },
    /// The lists and the map.
    Nested {
        kind: u8,
        p: u64,
        field: Box<Field>,
    },
    Struct(Vec<Field>),
    Union {
        mode: u64,
        ids: Option<Vec<i32>>,
        fields: Vec<Field>,
    },
    Dictionary {
        index: u64,
        ordered: bool,
        values: Box<DataType>,
    },
    Extension {
        name: Bytes,
        metadata: Option<Bytes>,
        inner: Box<DataType>,
    },
}

impl DataType {
    pub fn leaf(kind: u8) -> DataType {
        DataType::Leaf { kind, p: 0, q: 0 }
    }

    /// Its place in `ArrowDataType`.
    pub fn kind(&self) -> u8 {
        match self {
            DataType::Leaf { kind, .. } | DataType::Nested { kind, .. } => *kind,
            DataType::Timestamp { .. } => TIMESTAMP,
            DataType::Struct(_) => STRUCT,
            DataType::Union { .. } => UNION,
            DataType::Dictionary { .. } => DICTIONARY,
            DataType::Extension { .. } => EXTENSION,
        }
    }

    /// A type of `IntegerType`, by its place there.
    pub fn integer(index: u64) -> DataType {
        DataType::leaf(index as u8 + 2)
    }
}

/// A line's columns, before its subtrees are taken.
pub struct FieldLine {
    kind: u8,
    p: u64,
    q: u64,
    text: Option<Bytes>,
    ids: Option<Vec<i32>>,
    more: Option<Bytes>,
    /// None of a bare line.
    own: Option<Own>,
    children: u128,
}

impl FieldLine {
    /// What strict export refuses the line for, by itself.
    pub fn cause(&self) -> Option<Number> {
        let mut pairs = self.own.iter().flat_map(|own| own.pairs.iter().flatten());
        match (self.kind, self.p) {
            _ if pairs.any(|(key, _)| key == NAME_KEY || key == METADATA_KEY) => Some(RESERVED_KEY),
            (DICTIONARY, 4 | 9) => Some(WIDE_INDEX),
            _ => None,
        }
    }
}

impl Model {
    pub fn read_field(&self, sheet: &[u8]) -> Result<Field, Number> {
        let lines = self.lines(sheet, HEADING)?;
        let lines: Vec<FieldLine> = lines.into_iter().map(|line| self.field_line(line)).collect::<Result<_, _>>()?;
        let mut rest = lines.into_iter();
        let (own, dtype) = self.take_type(&mut rest, 1)?;
        if rest.next().is_some() && !self.is(Wrong::LeftOverTaken) {
            return Err(LINE);
        }
        let own = self.own_or(own, Wrong::FirstLineBare)?;
        if self.type_levels(&dtype, false) > self.most_levels() {
            return Err(LEVELS);
        }
        Ok(Field { own, dtype })
    }

    pub fn field_line(&self, line: &[u8]) -> Result<FieldLine, Number> {
        let [kind, p, q, text, more, name, nullable, pairs, children] = self.columns(line)?;
        let mut kind = self.number(kind, 42)? as u8;
        if kind == 42 {
            if !self.is(Wrong::KindUnchecked) {
                return Err(LINE);
            }
            kind = UNKNOWN;
        }
        let ids = if kind == UNION { self.ids(text)? } else { None };
        let text = if kind == UNION { None } else { self.utf8_text(text)? };
        let line = FieldLine {
            kind,
            p: self.number(p, u64::MAX as u128)? as u64,
            q: self.number(q, u64::MAX as u128)? as u64,
            text,
            ids,
            more: self.utf8_text(more)?,
            own: self.own(name, nullable, pairs)?,
            children: self.number(children, u64::MAX as u128)?,
        };
        self.line_rules(line)
    }

    fn utf8_text(&self, column: &[u8]) -> Result<Option<Bytes>, Number> {
        self.text(column)?.map(|text| self.utf8(text)).transpose()
    }

    fn utf8(&self, text: Bytes) -> Result<Bytes, Number> {
        if self.is_utf8(&text) || self.is(Wrong::FieldUtf8Untested) {
            Ok(text)
        } else if self.is(Wrong::FieldUtf8Is5) {
            Err(NOT_UTF8)
        } else {
            Err(LINE)
        }
    }

    fn ids(&self, column: &[u8]) -> Result<Option<Vec<i32>>, Number> {
        match column {
            b"~" => Ok(None),
            b"-" if self.is(Wrong::EmptyIdsRefused) => Err(LINE),
            b"-" => Ok(Some(Vec::new())),
            ids => split(ids, b',').into_iter().map(|id| self.id_column(id)).collect::<Result<_, _>>().map(Some),
        }
    }

    fn id_column(&self, id: &[u8]) -> Result<i32, Number> {
        if self.is(Wrong::IdMinusZero) && id == b"-0" {
            return Ok(0);
        }
        Ok(self.signed(id, i32::MAX as u128)? as i32)
    }

    /// The columns `name nullable pairs`; all three are `~` on a bare line.
    fn own(&self, name: &[u8], nullable: &[u8], pairs: &[u8]) -> Result<Option<Own>, Number> {
        if name == b"~" && nullable == b"~" && pairs == b"~" {
            return Ok(None);
        }
        let name = self.utf8_text(name)?.ok_or(LINE)?;
        let nullable = self.number(nullable, 1)? == 1;
        Ok(Some(Own { name, nullable, pairs: self.pairs(pairs)? }))
    }

    fn pairs(&self, column: &[u8]) -> Result<Option<Pairs>, Number> {
        match column {
            b"~" => return Ok(None),
            b"-" => return Ok(Some(Pairs::new())),
            _ => {}
        }
        let mut pairs = Pairs::new();
        for pair in split(column, b',') {
            let [key, value]: [&[u8]; 2] = split(pair, b'=').try_into().map_err(|_| LINE)?;
            pairs.push((self.side(key)?, self.side(value)?));
        }
        let ascends = |pair: &[(Bytes, Bytes)]| {
            self.is(Wrong::KeysUnordered)
                || pair[0].0 < pair[1].0
                || (pair[0].0 == pair[1].0 && self.is(Wrong::EqualKeysTaken))
        };
        if !pairs.windows(2).all(ascends) {
            return Err(LINE);
        }
        Ok(Some(pairs))
    }

    fn side(&self, side: &[u8]) -> Result<Bytes, Number> {
        if self.is(Wrong::EmptySideDash) && side == b"-" {
            return Ok(Bytes::new());
        }
        self.utf8(self.hex(side)?)
    }

    /// What each kind allows in `p`, `q`, the texts and the count of children.
    fn line_rules(&self, line: FieldLine) -> Result<FieldLine, Number> {
        let any = u64::MAX;
        let units = if self.is(Wrong::UnitFour) { 4 } else { 3 };
        let flag = if self.is(Wrong::FlagTwo) { 2 } else { 1 };
        let index = if self.is(Wrong::IndexTen) { 10 } else { 9 };
        let (most_p, most_q) = match line.kind {
            TIMESTAMP | 18..=21 => (units, 0),
            FIXED_SIZE_BINARY | FIXED_SIZE_LIST => (any, 0),
            MAP | UNION => (flag, 0),
            DICTIONARY => (index, flag),
            DECIMAL..=DECIMAL_256 => (any, any),
            _ => (0, 0),
        };
        let q_unused = most_q == 0 && self.is(Wrong::UnusedNumber);
        let text = match line.kind {
            TIMESTAMP | UNION => true,
            EXTENSION => line.text.is_some() || self.is(Wrong::NullExtensionName),
            _ => line.text.is_none(),
        };
        let more = line.more.is_none() || line.kind == EXTENSION || self.is(Wrong::UnusedText);
        let children = match line.kind {
            LIST | FIXED_SIZE_LIST | LARGE_LIST | MAP if self.is(Wrong::ListChildrenFree) => line.children > 0,
            LIST | FIXED_SIZE_LIST | LARGE_LIST | MAP | DICTIONARY | EXTENSION => line.children == 1,
            STRUCT => true,
            UNION if self.is(Wrong::IdsNumberFields) => {
                line.ids.as_ref().is_none_or(|ids| ids.len() as u128 == line.children)
            }
            UNION => true,
            _ => line.children == 0,
        };
        if line.p > most_p || (line.q > most_q && !q_unused) || !text || !more || !children {
            return Err(LINE);
        }
        Ok(line)
    }

    fn own_or(&self, own: Option<Own>, bare_taken: Wrong) -> Result<Own, Number> {
        match own {
            Some(own) => Ok(own),
            None if self.is(bare_taken) => Ok(Own { name: Bytes::new(), nullable: false, pairs: None }),
            None => Err(LINE),
        }
    }

    fn take_field(&self, lines: &mut impl Iterator<Item = FieldLine>, level: usize) -> Result<Field, Number> {
        let (own, dtype) = self.take_type(lines, level)?;
        Ok(Field { own: self.own_or(own, Wrong::ChildBare)?, dtype })
    }

    fn take_fields(
        &self,
        lines: &mut impl Iterator<Item = FieldLine>,
        level: usize,
        count: u128,
    ) -> Result<Vec<Field>, Number> {
        let mut fields = Vec::new();
        for _ in 0..count {
            fields.push(self.take_field(lines, level)?);
        }
        Ok(fields)
    }

    fn take_bare(&self, lines: &mut impl Iterator<Item = FieldLine>, level: usize) -> Result<Box<DataType>, Number> {
        match self.take_type(lines, level)? {
            (Some(_), _) if !self.is(Wrong::BareNamed) => Err(LINE),
            (_, dtype) => Ok(Box::new(dtype)),
        }
    }

    /// A line and its subtrees.
    fn take_type(
        &self,
        lines: &mut impl Iterator<Item = FieldLine>,
        level: usize,
    ) -> Result<(Option<Own>, DataType), Number> {
        if self.is(Wrong::LevelsFirst) && level > self.most_levels() {
            return Err(LEVELS);
        }
        let line = lines.next().ok_or(LINE)?;
        let (kind, p, q, below) = (line.kind, line.p, line.q, level + 1);
        let dtype = match kind {
            TIMESTAMP => DataType::Timestamp { unit: p, zone: line.text },
            LIST | FIXED_SIZE_LIST | LARGE_LIST | MAP => {
                let field = Box::new(self.take_field(lines, below)?);
                self.take_fields(lines, below, line.children - 1)?;
                DataType::Nested { kind, p, field }
            }
            STRUCT => DataType::Struct(self.take_fields(lines, below, line.children)?),
            UNION => DataType::Union { mode: p, ids: line.ids, fields: self.take_fields(lines, below, line.children)? },
            DICTIONARY => DataType::Dictionary { index: p, ordered: q == 1, values: self.take_bare(lines, below)? },
            EXTENSION => {
                let inner = self.take_bare(lines, level)?;
                DataType::Extension { name: line.text.unwrap_or_default(), metadata: line.more, inner }
            }
            _ => DataType::Leaf { kind, p, q },
        };
        Ok((line.own, dtype))
    }

    /// The levels of a type's lines; `inside` says that it stands directly in an extension.
    fn type_levels(&self, dtype: &DataType, inside: bool) -> usize {
        let most = |fields: &[Field]| fields.iter().map(|field| self.type_levels(&field.dtype, false)).max().unwrap_or(0);
        match dtype {
            DataType::Leaf { .. } | DataType::Timestamp { .. } => 1,
            DataType::Nested { field, .. } => 1 + self.type_levels(&field.dtype, false),
            DataType::Struct(fields) => 1 + most(fields),
            DataType::Union { fields, .. } => 1 + most(fields),
            DataType::Dictionary { values, .. } => {
                let deeper = !self.is(Wrong::DictionaryOnSameLevel) as usize;
                (deeper + self.type_levels(values, false)).max(1)
            }
            DataType::Extension { inner, .. } => {
                let deeper = (inside && !self.is(Wrong::InnerExtensionLevel)) || self.is(Wrong::InnerLineDeeper);
                deeper as usize + self.type_levels(inner, true)
            }
        }
    }
}

pub fn write_field(field: &Field) -> Bytes {
    write_sheet(&field.dtype, Some(&field.own))
}

/// A sheet whose first line is bare.
pub fn write_bare(dtype: &DataType) -> Bytes {
    write_sheet(dtype, None)
}

fn write_sheet(dtype: &DataType, own: Option<&Own>) -> Bytes {
    let mut out = HEADING.to_vec();
    out.push(b'\n');
    write_lines(dtype, own, &mut out);
    out
}

fn write_lines(dtype: &DataType, own: Option<&Own>, out: &mut Bytes) {
    let put_fields = |fields: &[Field], out: &mut Bytes| {
        fields.iter().for_each(|field| write_lines(&field.dtype, Some(&field.own), out));
    };
    match dtype {
        DataType::Leaf { kind, p, q } => write_line((*kind, *p, *q), None, None, own, 0, out),
        DataType::Timestamp { unit, zone } => write_line((TIMESTAMP, *unit, 0), zone.as_deref(), None, own, 0, out),
        DataType::Nested { kind, p, field } => {
            write_line((*kind, *p, 0), None, None, own, 1, out);
            write_lines(&field.dtype, Some(&field.own), out);
        }
        DataType::Struct(fields) => {
            write_line((STRUCT, 0, 0), None, None, own, fields.len(), out);
            put_fields(fields, out);
        }
        DataType::Union { mode, ids, fields } => {
            put_numbers((UNION, *mode, 0), out);
            put_list(ids.as_deref(), out, |id, out| put_number(id, out));
            write_rest(None, own, fields.len(), out);
            put_fields(fields, out);
        }
        DataType::Dictionary { index, ordered, values } => {
            write_line((DICTIONARY, *index, *ordered as u64), None, None, own, 1, out);
            write_lines(values, None, out);
        }
        DataType::Extension { name, metadata, inner } => {
            write_line((EXTENSION, 0, 0), Some(name), metadata.as_deref(), own, 1, out);
            write_lines(inner, None, out);
        }
    }
}

fn write_line(
    numbers: (u8, u64, u64),
    text: Option<&[u8]>,
    more: Option<&[u8]>,
    own: Option<&Own>,
    children: usize,
    out: &mut Bytes,
) {
    put_numbers(numbers, out);
    put_text(text, out);
    write_rest(more, own, children, out);
}

fn put_numbers((kind, p, q): (u8, u64, u64), out: &mut Bytes) {
    for number in [kind as u64, p, q] {
        put_number(number, out);
        out.push(b' ');
    }
}

/// The columns after the text's.
fn write_rest(more: Option<&[u8]>, own: Option<&Own>, children: usize, out: &mut Bytes) {
    out.push(b' ');
    put_text(more, out);
    out.push(b' ');
    match own {
        None => out.extend(b"~ ~ ~"),
        Some(own) => {
            put_text(Some(&own.name), out);
            out.extend(if own.nullable { b" 1 " } else { b" 0 " });
            put_list(own.pairs.as_deref(), out, |(key, value), out| {
                put_hex(key, out);
                out.push(b'=');
                put_hex(value, out);
            });
        }
    }
    out.push(b' ');
    put_number(children, out);
    out.push(b'\n');
}
