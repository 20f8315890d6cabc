//! Stands in for `types/native.rs`: the native types that `types/mod.rs` seals.

#![allow(non_camel_case_types)]

pub struct i256;

pub struct days_ms;

pub struct months_days_ns;
