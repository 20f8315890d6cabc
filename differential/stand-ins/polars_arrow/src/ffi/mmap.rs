//! Stands in for `ffi/mmap.rs`, of which the seven files use nothing.
//!
//! It is the only public module inside `ffi`, so the driver's access to what is visible inside `ffi` only stands here:
//! the members of `ArrowSchema` and `get_child`. Nothing is computed here.

use std::os::raw::c_char;
use std::ptr;

use polars_error::PolarsResult;

use super::ArrowSchema;
use crate::datatypes::ArrowDataType;

/// The members of an `ArrowSchema` that the C data interface defines, but for its release.
pub struct SchemaMembers {
    pub format: *const c_char,
    pub name: *const c_char,
    pub metadata: *const c_char,
    pub flags: i64,
    pub n_children: i64,
    pub children: *mut *mut ArrowSchema,
    pub dictionary: *mut ArrowSchema,
}

/// A schema whose memory its maker releases.
pub fn schema_of(members: SchemaMembers) -> ArrowSchema {
    ArrowSchema {
        format: members.format,
        name: members.name,
        metadata: members.metadata,
        flags: members.flags,
        n_children: members.n_children,
        children: members.children,
        dictionary: members.dictionary,
        release: None,
        private_data: ptr::null_mut(),
    }
}

pub fn members_of(schema: &ArrowSchema) -> SchemaMembers {
    SchemaMembers {
        format: schema.format,
        name: schema.name,
        metadata: schema.metadata,
        flags: schema.flags,
        n_children: schema.n_children,
        children: schema.children,
        dictionary: schema.dictionary,
    }
}

pub fn get_child(dtype: &ArrowDataType, index: usize) -> PolarsResult<ArrowDataType> {
    super::schema::get_child(dtype, index)
}
