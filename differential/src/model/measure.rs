//! Document 02, #105: how long the answer of import or export is, and how many lines of the sheet it visits.

use super::field::{DataType, Field};
use super::format::Format;
use super::schema::Schema;
use super::wrong::Wrong;
use super::Model;
use crate::answer::{Answer, Answered};
use crate::call::{Call, Order, Request};
use crate::refusal::{Number, BUFFER_SHORT, HEADING};

/// Sheets handed in have at most so many bytes; those that are written may have more.
const LONGEST_SHEET: usize = 65_535;

impl Model {
    /// The conversion's length, and the lines that it visits, or its refusal.
    pub fn measure(&self, conversion: Request, sheet: &[u8]) -> Answered {
        let order = match self.is(Wrong::MeasureOrderIgnored) {
            true => Order::Little,
            false => conversion.order(),
        };
        match self.answer(Request::under(conversion.call, order.number()), sheet)? {
            Answer::Sheet(written) => {
                Ok(Answer::Values(self.measured_length(&written)?, self.measured_lines(conversion.call, sheet, &written)?))
            }
            values => Ok(values),
        }
    }

    fn measured_length(&self, written: &[u8]) -> Result<u64, Number> {
        let heading = written.iter().position(|byte| *byte == b'\n').map_or(0, |end| end + 1);
        let length = written.len();
        match self.wrong {
            Some(Wrong::MeasureNoHeading) => Ok((length - heading) as u64),
            Some(Wrong::MeasureFitsNothing) => Ok(0),
            Some(Wrong::MeasureLengthWraps) => Ok((length % (LONGEST_SHEET + 1)) as u64),
            Some(Wrong::MeasureLengthCut) => Ok(length.min(LONGEST_SHEET) as u64),
            Some(Wrong::MeasureLongIs1) if length > LONGEST_SHEET => Err(HEADING),
            Some(Wrong::MeasureGives16) => Err(BUFFER_SHORT),
            _ => Ok(length as u64),
        }
    }

    fn measured_lines(&self, conversion: Call, sheet: &[u8], written: &[u8]) -> Result<u64, Number> {
        let lines = self.visited(conversion, sheet)?;
        // import writes a line more for each extension, export one fewer
        match (self.wrong, conversion) {
            (Some(Wrong::MeasureHeadingLine), _) => Ok(lines + 1),
            (Some(Wrong::MeasureExtensionTwice), Call::Import) => Ok(lines_of(written)),
            (Some(Wrong::MeasureLinesWritten), Call::Export) => Ok(lines_of(written)),
            (Some(Wrong::MeasureEveryLine), _) => Ok(lines_of(sheet)),
            _ => Ok(lines),
        }
    }

    /// How many lines of the sheet import or export visits.
    pub fn visited(&self, conversion: Call, sheet: &[u8]) -> Result<u64, Number> {
        match conversion {
            Call::Import => Ok(self.import_lines(&self.read_schema(sheet)?)),
            _ => Ok(self.export_lines(&self.read_field(sheet)?.dtype, 0)),
        }
    }

    /// A line of a schema sheet, and those below it that import reads.
    fn import_lines(&self, schema: &Schema) -> u64 {
        1 + self.import_lines_below(schema)
    }

    fn import_lines_below(&self, schema: &Schema) -> u64 {
        let all = |children: &[Schema]| -> u64 { children.iter().map(|child| self.import_lines(child)).sum() };
        let ignored = |children: &[Schema], counted: Wrong| -> u64 {
            children.iter().filter(|_| self.is(counted)).map(every_line).sum()
        };
        if let Some(values) = &schema.dictionary {
            let values = if self.is(Wrong::MeasureValuesNotImported) { 0 } else { self.import_lines(values) };
            return values + ignored(&schema.children, Wrong::MeasureDictionaryChildren);
        }
        let format = schema.format.as_deref().unwrap_or_default();
        match self.read_format(format, schema.flags & 4 != 0) {
            Ok(Format::Leaf(_)) => ignored(&schema.children, Wrong::MeasureLeafChildren),
            Ok(Format::Nested(..)) => {
                let (first, further) = schema.children.split_at(schema.children.len().min(1));
                all(first) + ignored(further, Wrong::MeasureFurtherChildren)
            }
            Ok(Format::Struct | Format::Union(..)) => all(&schema.children),
            // such a sheet is refused
            Err(_) => 0,
        }
    }

    /// A line of a field sheet, directly in so many extensions, and those below it that export reads.
    fn export_lines(&self, dtype: &DataType, extensions: usize) -> u64 {
        let fields = |fields: &[Field]| fields.iter().map(|field| self.export_lines(&field.dtype, 0)).sum();
        let below = match dtype {
            DataType::Leaf { .. } | DataType::Timestamp { .. } => 0,
            DataType::Nested { field, .. } => self.export_lines(&field.dtype, 0),
            DataType::Struct(all) => fields(all),
            DataType::Union { fields: all, .. } => fields(all),
            DataType::Dictionary { values, .. } if self.visits_values(extensions) => self.export_lines(values, 0),
            DataType::Dictionary { .. } => 0,
            DataType::Extension { inner, .. } => self.export_lines(inner, extensions + 1),
        };
        self.counts(dtype, extensions) as u64 + below
    }

    /// Whether export visits the values of a dictionary that stands directly in so many extensions.
    fn visits_values(&self, extensions: usize) -> bool {
        match self.wrong {
            Some(Wrong::MeasureValuesInExtension) => true,
            Some(Wrong::MeasureValuesInTwo) => extensions != 1,
            Some(Wrong::MeasureValuesNotExported) => false,
            _ => extensions == 0,
        }
    }

    /// Whether the line itself counts, as every line does that is visited.
    fn counts(&self, dtype: &DataType, extensions: usize) -> bool {
        let inner = extensions > 0;
        match self.wrong {
            Some(Wrong::MeasureExtensionNot) => !matches!(dtype, DataType::Extension { .. }),
            Some(Wrong::MeasureInnerNot) => !inner,
            Some(Wrong::MeasureInnerExtensionNot) => !(inner && matches!(dtype, DataType::Extension { .. })),
            Some(Wrong::MeasureInnerDictionaryNot) => !(inner && matches!(dtype, DataType::Dictionary { .. })),
            _ => true,
        }
    }
}

/// The lines of a sheet below its heading.
fn lines_of(sheet: &[u8]) -> u64 {
    sheet.iter().filter(|byte| **byte == b'\n').count() as u64 - 1
}

fn every_line(schema: &Schema) -> u64 {
    let below = schema.children.iter().chain(schema.dictionary.as_deref());
    1 + below.map(every_line).sum::<u64>()
}
