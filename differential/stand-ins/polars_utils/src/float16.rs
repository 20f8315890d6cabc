//! Stands in for `polars_utils::float16`: `types/mod.rs` names the type once, and no call computes with it.

#[allow(non_camel_case_types)]
pub struct pf16;
