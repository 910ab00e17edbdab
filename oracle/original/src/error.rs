//! Stub of the original's `error`.
use std::fmt::Display;

pub type BoxDynError = Box<dyn std::error::Error + Send + Sync>;

/// The original's walk makes one kind of error: a text that is not UTF-8.
#[derive(Debug)]
pub struct Error(pub String);

impl Error {
    pub(crate) fn protocol(what: impl Display) -> Self {
        Error(what.to_string())
    }
}
