//! What a call may answer in place of its result.

use std::fmt;

/// Why a call has no result.
#[derive(Clone, Debug, PartialEq, Eq)]
pub enum Error {
    /// A text isn't lawful: the line, counted from 1 in that text (0 where it is in no line), and the reason.
    Refused { line: u32, reason: String },
    /// Memory was wanting.
    OutOfMemory,
    /// The search reaches more residuals than the budget.
    TooLarge,
    /// A text has more than 67,108,864 bytes.
    TooLong,
    /// The library wrote a text, or gave a status, that this crate doesn't know.
    Unknown(String),
}

impl fmt::Display for Error {
    fn fmt(&self, f: &mut fmt::Formatter<'_>) -> fmt::Result {
        match self {
            Error::Refused { line, reason } => write!(f, "refused at line {line}: {reason}"),
            Error::OutOfMemory => f.write_str("out of memory"),
            Error::TooLarge => f.write_str("the search reaches more residuals than the budget"),
            Error::TooLong => f.write_str("a text has more than 67,108,864 bytes"),
            Error::Unknown(text) => write!(f, "the library answered: {text}"),
        }
    }
}

impl std::error::Error for Error {}
