//! Stands in for `ffi/array.rs`: import of array data, which is left to the host.

use polars_error::PolarsResult;

use super::ArrowArray;
use crate::array::Array;
use crate::datatypes::ArrowDataType;

pub trait ArrowArrayRef {}

pub struct InternalArrowArray;

impl InternalArrowArray {
    pub fn new(_array: ArrowArray, _dtype: ArrowDataType) -> Self {
        InternalArrowArray
    }
}

pub fn try_from(_array: InternalArrowArray) -> PolarsResult<Box<dyn Array>> {
    unimplemented!("array data is out of scope")
}
