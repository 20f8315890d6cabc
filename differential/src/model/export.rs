//! Export, `ArrowSchema::new`: a schema from a field.

use super::field::{DataType, Field, Own, MAP};
use super::metadata::Extension;
use super::schema::Schema;
use super::wrong::Wrong;
use super::{Bytes, Model};
use crate::call::Order;
use crate::refusal::{Number, BYTE_ZERO};

impl Model {
    /// The format, the children, the dictionary, then the line's own texts. The order is that of the metadata blocks.
    pub fn to_schema(&self, field: &Field, order: Order) -> Result<Schema, Number> {
        let format = self.to_format(&field.dtype)?;
        if self.is(Wrong::OwnNameFirst) {
            without_zero(&field.own.name)?;
        }
        let children = self.schema_children(&field.dtype, self.order_below(order))?;
        let mut flags = field.own.nullable as i64 * 2 + self.sorted_flag(&field.dtype) * 4;
        let mut dictionary = None;
        if let Some((ordered, values)) = self.dictionary_of(&field.dtype) {
            flags += ordered as i64;
            dictionary = Some(Box::new(self.values_schema(values, self.order_below(order))?));
        } else if let (true, DataType::Dictionary { ordered: true, .. }) =
            (self.is(Wrong::OrderedThroughExtension), storage(&field.dtype))
        {
            flags += 1;
        }
        let metadata = self.write_metadata(field.own.pairs.as_ref(), self.extension_of(&field.dtype), order);
        without_zero(&field.own.name)?;
        self.format_without_zero(&format, &field.dtype)?;
        Ok(Schema { format: Some(format), name: Some(field.own.name.clone()), flags, metadata, children, dictionary })
    }

    fn format_without_zero(&self, format: &[u8], dtype: &DataType) -> Result<(), Number> {
        if let (true, DataType::Extension { name, .. }) = (self.is(Wrong::ZeroInExtension), dtype) {
            without_zero(name)?;
        }
        if self.is(Wrong::ZeroInZone) {
            return Ok(());
        }
        without_zero(format)
    }

    fn schema_children(&self, dtype: &DataType, order: Order) -> Result<Vec<Schema>, Number> {
        let all = |fields: &[Field]| fields.iter().map(|field| self.to_schema(field, order)).collect();
        match dtype {
            DataType::Nested { field, .. } => Ok(vec![self.to_schema(field, order)?]),
            DataType::Struct(fields) => all(fields),
            DataType::Union { fields, .. } => all(fields),
            DataType::Extension { inner, .. } => self.schema_children(inner, order),
            _ => Ok(Vec::new()),
        }
    }

    /// Sorted passes through extensions.
    fn sorted_flag(&self, dtype: &DataType) -> i64 {
        match dtype {
            DataType::Nested { kind: MAP, p, .. } => *p as i64,
            DataType::Extension { inner, .. } if !self.is(Wrong::SortedLostInExtension) => self.sorted_flag(inner),
            _ => 0,
        }
    }

    /// A dictionary that is not under an extension.
    fn dictionary_of<'a>(&self, dtype: &'a DataType) -> Option<(bool, &'a DataType)> {
        let dtype = if self.is(Wrong::ValuesUnderExtension) { storage(dtype) } else { dtype };
        match dtype {
            DataType::Dictionary { ordered, values, .. } => Some((*ordered, values)),
            _ => None,
        }
    }

    /// The values have no field of their own: no name, nullable.
    fn values_schema(&self, values: &DataType, order: Order) -> Result<Schema, Number> {
        let own = Own { name: Bytes::new(), nullable: !self.is(Wrong::ValuesNotNullable), pairs: None };
        let field = Field { own, dtype: values.clone() };
        let mut schema = self.to_schema(&field, self.order_of_values(order))?;
        if self.is(Wrong::ValuesNameNull) {
            schema.name = None;
        }
        Ok(schema)
    }

    /// The outermost extension.
    fn extension_of(&self, dtype: &DataType) -> Option<Extension> {
        match dtype {
            DataType::Extension { name, metadata, inner } => {
                let inner = self.extension_of(inner).filter(|_| self.is(Wrong::InnerExtensionKeys));
                Some(inner.unwrap_or_else(|| (name.clone(), metadata.clone())))
            }
            _ => None,
        }
    }
}

/// The type under all extensions.
pub fn storage(dtype: &DataType) -> &DataType {
    match dtype {
        DataType::Extension { inner, .. } => storage(inner),
        other => other,
    }
}

fn without_zero(text: &[u8]) -> Result<(), Number> {
    if text.contains(&0) {
        Err(BYTE_ZERO)
    } else {
        Ok(())
    }
}
