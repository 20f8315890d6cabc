//! Why a command ends without success.

use std::io;

pub enum Failure {
    /// Something differs.
    Found(String),
    /// The answer is a refusal, which is on the output.
    Refused,
    /// Wrong arguments, or input or output that fails.
    Wrong(String),
}

impl From<io::Error> for Failure {
    fn from(error: io::Error) -> Failure {
        Failure::Wrong(format!("standard output: {error}"))
    }
}
