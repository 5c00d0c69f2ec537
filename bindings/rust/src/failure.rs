//! What an expansion with a list of its own fails by.

use std::error::Error;
use std::fmt;

use crate::Refused;

/// Why there are no entries.
#[derive(Clone, Copy, Debug, PartialEq, Eq, Hash)]
pub enum Failure {
    /// The program is refused.
    Refused(Refused),
    /// The memory for the list or the entries can't be had.
    NoMemory,
}

impl From<Refused> for Failure {
    fn from(refused: Refused) -> Failure {
        Failure::Refused(refused)
    }
}

impl fmt::Display for Failure {
    fn fmt(&self, f: &mut fmt::Formatter) -> fmt::Result {
        match self {
            Failure::Refused(refused) => refused.fmt(f),
            Failure::NoMemory => f.write_str("there is no memory for so many entries"),
        }
    }
}

impl Error for Failure {}
