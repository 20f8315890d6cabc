//! The seven files of the Rust, unchanged, among stand-ins for the rest of the crate `polars-arrow`.
//!
//! A stand-in gives what the seven files name in it, as far as they use it. Array data is out of scope, so the types for
//! it are empty. `ffi::mmap` also opens what is visible inside `ffi` only, for the driver.

// What the rest of the crate would use is unused here.
#![allow(dead_code, unused_imports)]

pub mod array;
pub mod datatypes;
pub mod ffi;
pub mod types;
