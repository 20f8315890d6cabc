//! Stands in for `array/mod.rs`: the names that the seven files import.

use polars_utils::pl_str::PlSmallStr;

use crate::ffi::ArrowArray;

/// `ffi/mod.rs` passes arrays on and asks nothing of them.
pub trait Array {}

/// `types/mod.rs` seals it as a native type.
pub struct View;

/// `datatypes/mod.rs` names the index array of the crate.
pub struct UInt32Array;

/// The name of a list's child in two constructors that no call uses.
pub const LIST_VALUES_NAME: PlSmallStr = PlSmallStr::EMPTY;

impl ArrowArray {
    /// Export of array data is left to the host.
    pub(crate) fn new(_array: Box<dyn Array>) -> Self {
        unimplemented!("array data is out of scope")
    }
}
