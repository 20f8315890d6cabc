//! Document 02, #106: an export that tests the whole field first, line by line, for a reserved key and for a dictionary index of 128 bits.
//! A line that has either is refused, before all that export itself refuses.

use super::field::{DataType, Field, Own, HEADING};
use super::metadata::{METADATA_KEY, NAME_KEY};
use super::schema::write_schema;
use super::wrong::Wrong;
use super::{Bytes, Model};
use crate::answer::{Answer, Answered};
use crate::call::{Call, Order, Request};
use crate::refusal::{
    Number, BUFFER_SHORT, BYTE_ZERO, HEADING as NOT_SHEET, LEVELS, LINE, NO_FORMAT, RESERVED_KEY, UNION_WITHOUT_IDS,
    WIDE_INDEX,
};

/// Sheets handed in have at most so many bytes; what strict export writes may have more.
const LONGEST_SHEET: usize = 65_535;

type Pair = (Bytes, Bytes);

/// A line of a field sheet, by what it stands for.
#[derive(Clone, Copy)]
struct Line<'a> {
    /// None of a bare line.
    own: Option<&'a Own>,
    dtype: &'a DataType,
    place: Place,
}

/// Where a line stands; only wrong readings ask.
#[derive(Clone, Copy)]
struct Place {
    first: bool,
    /// Directly in so many extensions.
    extensions: usize,
    /// Below a dictionary.
    in_values: bool,
    /// Below a dictionary that stands directly in an extension: export never visits it.
    unvisited: bool,
}

impl Place {
    fn first() -> Place {
        Place { first: true, extensions: 0, in_values: false, unvisited: false }
    }

    /// That of the line of a field below.
    fn below(self) -> Place {
        Place { first: false, extensions: 0, ..self }
    }

    fn inner(self) -> Place {
        Place { first: false, extensions: self.extensions + 1, ..self }
    }

    fn values(self) -> Place {
        Place { in_values: true, unvisited: self.unvisited || self.extensions > 0, ..self.below() }
    }
}

impl Model {
    /// The form of the sheet, then the two causes, then export.
    pub fn strict_export(&self, sheet: &[u8], order: Order) -> Answered {
        let field = self.read_field(sheet).map_err(|number| self.strict_form(number, sheet))?;
        let order = if self.is(Wrong::StrictOrderIgnored) { Order::Little } else { order };
        let exported = self.to_schema(&field, order);
        match exported {
            Err(number) if self.comes_first(number) => return Err(number),
            _ if self.is(Wrong::StrictBigUntested) && order == Order::Big => {}
            _ => self.strict_field(&field)?,
        }
        let written = write_schema(&exported?);
        match self.is(Wrong::StrictLongIs1) && written.len() > LONGEST_SHEET {
            true => Err(NOT_SHEET),
            false => Ok(Answer::Sheet(written)),
        }
    }

    /// A wrong reading: a refusal of export's own comes before the causes.
    fn comes_first(&self, number: Number) -> bool {
        matches!(
            (self.wrong, number),
            (Some(Wrong::StrictNoFormatFirst), NO_FORMAT)
                | (Some(Wrong::StrictIdsFirst), UNION_WITHOUT_IDS)
                | (Some(Wrong::StrictZeroFirst), BYTE_ZERO)
        )
    }

    /// Two wrong readings: a cause on a line before the first broken one comes before 2, or a cause before 3.
    fn strict_form(&self, number: Number, sheet: &[u8]) -> Number {
        let causes_first = matches!(
            (self.wrong, number),
            (Some(Wrong::StrictBeforeLines), LINE) | (Some(Wrong::StrictBeforeLevels), LEVELS)
        );
        let cause = || {
            let lines = self.lines(sheet, HEADING).ok()?;
            lines.into_iter().map_while(|line| self.field_line(line).ok()).find_map(|line| line.cause())
        };
        causes_first.then(cause).flatten().unwrap_or(number)
    }

    /// A wrong reading: the buffer is tested before the causes. What would be written has so many bytes.
    pub fn strict_room(&self, request: Request, sheet: &[u8], room: usize) -> Option<Number> {
        if request.call != Call::StrictExport || !self.is(Wrong::StrictRoomFirst) {
            return None;
        }
        match self.answer(Request::new(Call::Export, request.argument), sheet) {
            Ok(Answer::Sheet(written)) if written.len() > room => Some(BUFFER_SHORT),
            _ => None,
        }
    }

    /// The first line of the field with a cause decides.
    fn strict_field(&self, field: &Field) -> Result<(), Number> {
        let mut lines = Vec::new();
        self.strict_lines(Line { own: Some(&field.own), dtype: &field.dtype, place: Place::first() }, &mut lines);
        lines.retain(|line| self.is_tested(line));
        if self.is(Wrong::StrictLastLine) {
            lines.reverse();
        }
        let (keys, indices) = (|line: &Line| self.strict_keys(line), |line: &Line| self.strict_index(line));
        match self.wrong {
            Some(Wrong::StrictKeysFirst) => lines.iter().try_for_each(keys)?,
            Some(Wrong::StrictIndicesFirst) => lines.iter().try_for_each(indices)?,
            _ => {}
        }
        lines.iter().try_for_each(|line| self.strict_line(line))
    }

    /// The line and those below it, in sheet order.
    fn strict_lines<'a>(&self, line: Line<'a>, lines: &mut Vec<Line<'a>>) {
        let after = self.is(Wrong::StrictChildrenFirst);
        if !after {
            lines.push(line);
        }
        let place = line.place;
        let field = |field: &'a Field| Line { own: Some(&field.own), dtype: &field.dtype, place: place.below() };
        let bare = |dtype: &'a DataType, place: Place| Line { own: None, dtype, place };
        match line.dtype {
            DataType::Leaf { .. } | DataType::Timestamp { .. } => {}
            DataType::Nested { field: item, .. } => self.strict_lines(field(item), lines),
            DataType::Struct(fields) | DataType::Union { fields, .. } => {
                fields.iter().for_each(|child| self.strict_lines(field(child), lines));
            }
            DataType::Dictionary { values, .. } => self.strict_lines(bare(values, place.values()), lines),
            DataType::Extension { inner, .. } => self.strict_lines(bare(inner, place.inner()), lines),
        }
        if after {
            lines.push(line);
        }
    }

    /// Every line is, but by a wrong reading.
    fn is_tested(&self, line: &Line) -> bool {
        let Place { first, in_values, unvisited, .. } = line.place;
        match self.wrong {
            Some(Wrong::StrictUntested) => false,
            Some(Wrong::StrictVisitedOnly) => !unvisited,
            Some(Wrong::StrictValuesPass) => !in_values,
            Some(Wrong::StrictFirstLineOnly) => first,
            Some(Wrong::StrictFirstLinePasses) => !first,
            _ => true,
        }
    }

    /// The key comes before the index.
    fn strict_line(&self, line: &Line) -> Result<(), Number> {
        if self.is(Wrong::StrictIndexFirst) {
            self.strict_index(line)?;
        }
        self.strict_keys(line)?;
        self.strict_index(line)
    }

    fn strict_keys(&self, line: &Line) -> Result<(), Number> {
        let pairs: &[Pair] = line.own.and_then(|own| own.pairs.as_deref()).unwrap_or_default();
        let tested = match self.wrong {
            Some(Wrong::StrictFirstPair) => &pairs[..pairs.len().min(1)],
            Some(Wrong::StrictLastPair) => &pairs[pairs.len().saturating_sub(1)..],
            Some(Wrong::StrictExtensionKeysPass) if is_extension(line.dtype) => &[],
            Some(Wrong::StrictLoneMetadataPasses) if !has_name(pairs) => &[],
            _ => pairs,
        };
        let refused = tested.iter().any(|pair| self.is_strict_key(pair) && !self.is_strict_pair_let(pair, line.dtype));
        match (refused, self.is(Wrong::StrictKeyIs18)) {
            (false, _) => Ok(()),
            (true, false) => Err(RESERVED_KEY),
            (true, true) => Err(WIDE_INDEX),
        }
    }

    /// Whether the pair's key is one of the two, whole.
    fn is_strict_key(&self, (key, value): &Pair) -> bool {
        let is_reserved = |key: &[u8]| key == NAME_KEY || key == METADATA_KEY;
        match self.wrong {
            Some(Wrong::StrictNameOnly) => key == NAME_KEY,
            Some(Wrong::StrictMetadataOnly) => key == METADATA_KEY,
            Some(Wrong::StrictKeyPrefix) => key.starts_with(b"ARROW:extension:"),
            Some(Wrong::StrictKeyLonger) => key.starts_with(NAME_KEY) || key.starts_with(METADATA_KEY),
            Some(Wrong::StrictKeyShorter) => NAME_KEY.starts_with(key) || METADATA_KEY.starts_with(key),
            Some(Wrong::StrictKeyAnyCase) => key.eq_ignore_ascii_case(NAME_KEY) || key.eq_ignore_ascii_case(METADATA_KEY),
            Some(Wrong::StrictValueToo) => is_reserved(key) || is_reserved(value),
            _ => is_reserved(key),
        }
    }

    /// Wrong readings: a reserved key passes by its value, or where export would write over the pair.
    fn is_strict_pair_let(&self, (key, value): &Pair, dtype: &DataType) -> bool {
        let written = match dtype {
            DataType::Extension { name, .. } if key == NAME_KEY => Some(name),
            DataType::Extension { metadata, .. } if key == METADATA_KEY => metadata.as_ref(),
            _ => None,
        };
        match self.wrong {
            Some(Wrong::StrictEmptyValuePasses) => value.is_empty(),
            Some(Wrong::StrictOverwrittenPasses) => written.is_some(),
            Some(Wrong::StrictEqualPairPasses) => written == Some(value),
            _ => false,
        }
    }

    fn strict_index(&self, line: &Line) -> Result<(), Number> {
        let refused = match line.dtype {
            DataType::Dictionary { index, .. } => {
                self.is_wide(*index) && !(self.is(Wrong::StrictInnerDictionaryPasses) && line.place.extensions > 0)
            }
            DataType::Leaf { kind: 6 | 11, .. } => self.is(Wrong::StrictWideTypeToo),
            _ => false,
        };
        match (refused, self.is(Wrong::StrictIndexIs17)) {
            (false, _) => Ok(()),
            (true, false) => Err(WIDE_INDEX),
            (true, true) => Err(RESERVED_KEY),
        }
    }

    /// Whether the place in `IntegerType` is that of Int128 or UInt128.
    fn is_wide(&self, index: u64) -> bool {
        match (self.wrong, index) {
            (Some(Wrong::StrictPlace4Passes), 4) | (Some(Wrong::StrictPlace9Passes), 9) => false,
            (Some(Wrong::StrictPlace3Too), 3) | (Some(Wrong::StrictPlace8Too), 8) => true,
            _ => matches!(index, 4 | 9),
        }
    }
}

fn is_extension(dtype: &DataType) -> bool {
    matches!(dtype, DataType::Extension { .. })
}

fn has_name(pairs: &[Pair]) -> bool {
    pairs.iter().any(|(key, _)| key == NAME_KEY)
}
