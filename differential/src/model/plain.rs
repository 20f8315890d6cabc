//! Plain form: a field as it comes back from its export. The rules are applied to reserved keys too, and keep them.

use super::export::storage;
use super::field::{DataType, Field, Own};
use super::wrong::Wrong;
use super::Model;

impl Model {
    pub fn plain(&self, field: &Field) -> Field {
        Field { own: self.plain_own(&field.own), dtype: self.plain_type(&field.dtype, false) }
    }

    fn plain_own(&self, own: &Own) -> Own {
        let kept = |pairs: &Vec<_>| !pairs.is_empty() || self.is(Wrong::PlainPairs);
        Own { pairs: own.pairs.clone().filter(kept), ..own.clone() }
    }

    fn plain_below(&self, field: &Field) -> Field {
        if self.is(Wrong::PlainTopOnly) {
            return field.clone();
        }
        self.plain(field)
    }

    /// `inside` says that the type stands directly in an extension.
    fn plain_type(&self, dtype: &DataType, inside: bool) -> DataType {
        match dtype {
            DataType::Leaf { .. } => dtype.clone(),
            DataType::Timestamp { unit, zone } => {
                let zone = zone.clone().filter(|zone| !zone.is_empty() || self.is(Wrong::PlainZone));
                DataType::Timestamp { unit: *unit, zone }
            }
            DataType::Nested { kind, p, field } => {
                DataType::Nested { kind: *kind, p: *p, field: Box::new(self.plain_below(field)) }
            }
            DataType::Struct(fields) => DataType::Struct(fields.iter().map(|field| self.plain_below(field)).collect()),
            DataType::Union { mode, ids, fields } => {
                let counted = (!self.is(Wrong::PlainIds)).then(|| (0..fields.len() as i32).collect());
                let fields = fields.iter().map(|field| self.plain_below(field)).collect();
                DataType::Union { mode: *mode, ids: ids.clone().or(counted), fields }
            }
            DataType::Dictionary { index, ordered, values } => self.plain_dictionary(*index, *ordered, values, inside),
            DataType::Extension { inner, .. } if inside && !self.is(Wrong::PlainNested) => self.plain_type(inner, true),
            DataType::Extension { .. } => self.plain_extension(dtype),
        }
    }

    fn plain_dictionary(&self, index: u64, ordered: bool, values: &DataType, inside: bool) -> DataType {
        if inside && !self.is(Wrong::PlainDictionary) {
            let q = (ordered && self.is(Wrong::PlainIndexOrdered)) as u64;
            return DataType::Leaf { kind: index as u8 + 2, p: 0, q };
        }
        let values = if self.is(Wrong::PlainValues) { values.clone() } else { self.plain_type(values, false) };
        DataType::Dictionary { index, ordered, values: Box::new(values) }
    }

    /// The outermost extension over what is under all of them.
    fn plain_extension(&self, dtype: &DataType) -> DataType {
        let mut stays = dtype;
        while let (DataType::Extension { inner, .. }, true) = (stays, self.is(Wrong::PlainInnermost)) {
            if !matches!(**inner, DataType::Extension { .. }) {
                break;
            }
            stays = inner;
        }
        let DataType::Extension { name, metadata, inner } = stays else {
            return self.plain_type(storage(dtype), true);
        };
        DataType::Extension {
            name: name.clone(),
            metadata: metadata.clone(),
            inner: Box::new(self.plain_type(inner, true)),
        }
    }
}
