//! Stands in for the crate `polars_utils`: the two types that the seven files name.

pub mod float16;
pub mod pl_str;
