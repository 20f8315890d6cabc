//! Import, `to_field`: a field from a schema.

use super::field::{DataType, Field, Own};
use super::format::Format;
use super::schema::Schema;
use super::wrong::Wrong;
use super::{Bytes, Model};
use crate::call::Order;
use crate::refusal::{Number, CHILD_ABSENT, NOT_UTF8, NULL_FORMAT};

impl Model {
    /// The type with all below it, then the metadata, then the name. The order is that of the metadata blocks.
    pub fn to_field(&self, schema: &Schema, order: Order) -> Result<Field, Number> {
        if self.is(Wrong::MetadataBeforeType) {
            self.read_metadata(schema.metadata.as_deref(), order)?;
        }
        let dtype = self.to_dtype(schema, self.order_below(order))?;
        if self.is(Wrong::NameBeforeMetadata) {
            self.name(schema)?;
        }
        let (pairs, extension) = self.read_metadata(schema.metadata.as_deref(), order)?;
        let own = Own { name: self.name(schema)?, nullable: self.nullable(schema.flags), pairs };
        let lost = self.is(Wrong::ExtensionLostOnDictionary) && schema.dictionary.is_some();
        let dtype = match extension.filter(|_| !lost) {
            Some((name, metadata)) => DataType::Extension { name, metadata, inner: Box::new(dtype) },
            None => dtype,
        };
        Ok(Field { own, dtype })
    }

    fn name(&self, schema: &Schema) -> Result<Bytes, Number> {
        match &schema.name {
            None if self.is(Wrong::NullNameIs4) => Err(NULL_FORMAT),
            None => Ok(Bytes::new()),
            Some(name) if self.is_utf8(name) || self.is(Wrong::NameUntested) => Ok(name.clone()),
            Some(_) => Err(NOT_UTF8),
        }
    }

    /// Document 02, #102: a bit, as the other two are.
    fn nullable(&self, flags: i64) -> bool {
        match self.wrong {
            Some(Wrong::NullableByDivision) => (flags / 2) & 1 == 1,
            Some(Wrong::NullableFromMap) => flags & 4 != 0,
            _ => flags & 2 != 0,
        }
    }

    fn sorted(&self, flags: i64) -> bool {
        if self.is(Wrong::SortedByDivision) {
            return (flags / 4) & 1 == 1;
        }
        flags & 4 != 0
    }

    fn ordered(&self, flags: i64) -> bool {
        if self.is(Wrong::OrderedByRemainder) {
            return flags % 2 == 1;
        }
        flags & 1 == 1
    }

    fn to_dtype(&self, schema: &Schema, order: Order) -> Result<DataType, Number> {
        let format = match &schema.format {
            None if self.is(Wrong::NullFormatIsEmpty) => &Bytes::new(),
            None => return Err(NULL_FORMAT),
            Some(format) if !self.is_utf8(format) => return Err(NOT_UTF8),
            Some(format) => format,
        };
        match &schema.dictionary {
            Some(values) => self.to_dictionary(schema, format, values, order),
            None => {
                let format = self.read_format(format, self.sorted(schema.flags));
                if self.is(Wrong::ChildBeforeSize) && starts_with(&schema.format, b"+w:") {
                    first_child(schema)?;
                }
                if self.is(Wrong::FieldsBeforeIds) && starts_with(&schema.format, b"+u") && format.is_err() {
                    self.to_fields(&schema.children, order)?;
                }
                self.with_children(format?, schema, order)
            }
        }
    }

    fn to_dictionary(&self, schema: &Schema, format: &[u8], values: &Schema, order: Order) -> Result<DataType, Number> {
        let index = self.index_of(format);
        if !self.is(Wrong::ValuesBeforeIndex) {
            index?;
        }
        if self.is(Wrong::DictionaryChildrenVisited) {
            self.to_fields(&schema.children, order)?;
        }
        let order = self.order_of_values(order);
        let values = match self.is(Wrong::ValuesMetadataDropped) {
            true => self.to_dtype(values, order)?,
            false => self.to_field(values, order)?.dtype,
        };
        Ok(DataType::Dictionary { index: index?, ordered: self.ordered(schema.flags), values: Box::new(values) })
    }

    fn with_children(&self, format: Format, schema: &Schema, order: Order) -> Result<DataType, Number> {
        match format {
            Format::Leaf(dtype) => {
                if self.is(Wrong::LeafChildrenVisited) {
                    self.to_fields(&schema.children, order)?;
                }
                Ok(dtype)
            }
            Format::Nested(kind, p) => {
                let field = Box::new(self.to_field(first_child(schema)?, order)?);
                if self.is(Wrong::SecondChildVisited) {
                    self.to_fields(&schema.children[1..], order)?;
                }
                Ok(DataType::Nested { kind, p, field })
            }
            Format::Struct => self.to_fields(&schema.children, order).map(DataType::Struct),
            Format::Union(mode, ids) => {
                if self.is(Wrong::IdsMatched) && ids.len() != schema.children.len() {
                    return Err(CHILD_ABSENT);
                }
                Ok(DataType::Union { mode, ids: Some(ids), fields: self.to_fields(&schema.children, order)? })
            }
        }
    }

    fn to_fields(&self, children: &[Schema], order: Order) -> Result<Vec<Field>, Number> {
        children.iter().map(|child| self.to_field(child, order)).collect()
    }
}

fn first_child(schema: &Schema) -> Result<&Schema, Number> {
    schema.children.first().ok_or(CHILD_ABSENT)
}

fn starts_with(text: &Option<Bytes>, head: &[u8]) -> bool {
    text.as_ref().is_some_and(|text| text.starts_with(head))
}
