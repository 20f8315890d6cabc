//! Stands in for the crate `polars_error`.
//!
//! The seven files use one kind of error, `ComputeError`, and its text. The text alone tells which refusal an error is,
//! so an error that holds it is enough.

#[derive(Debug)]
pub enum PolarsError {
    ComputeError(String),
}

impl PolarsError {
    /// The text that the source gave the error.
    pub fn text(&self) -> &str {
        let PolarsError::ComputeError(text) = self;
        text
    }
}

pub type PolarsResult<T> = Result<T, PolarsError>;

#[macro_export]
macro_rules! polars_err {
    (ComputeError: $fmt:literal $(, $arg:expr)* $(,)?) => {
        $crate::PolarsError::ComputeError(format!($fmt $(, $arg)*))
    };
}

#[macro_export]
macro_rules! polars_bail {
    (ComputeError: $fmt:literal $(, $arg:expr)* $(,)?) => {
        return Err($crate::polars_err!(ComputeError: $fmt $(, $arg)*))
    };
}
