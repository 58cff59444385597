//! Why a script has no text.

use std::error::Error;
use std::fmt;

/// Why a script has no text: the class of its fault (docs/FORMAT.md), or memory. It is shown as the program `mainctx` shows it.
#[derive(Clone, Copy, Debug, PartialEq, Eq, Hash)]
pub enum Fault {
    /// The bytes are not one JSON value.
    NotJson,
    /// A value of the wrong type, a key that is missing or unknown, an unknown word, a list of the wrong length.
    Shape,
    /// A number or a count outside its range.
    Limit,
    /// The number of something that the script does not have.
    Reference,
    /// A procedure that may not be connected or invoked, and the other rules.
    Rule,
    /// A request for memory was refused.
    OutOfMemory,
}

impl Fault {
    /// The fault that the library answers by a number (mainctx.h).
    pub(crate) fn of(number: u32) -> Self {
        match number {
            1 => Fault::NotJson,
            2 => Fault::Shape,
            3 => Fault::Limit,
            4 => Fault::Reference,
            5 => Fault::Rule,
            6 => Fault::OutOfMemory,
            _ => unreachable!("mainctx_run answers no {number}"),
        }
    }
}

impl fmt::Display for Fault {
    fn fmt(&self, f: &mut fmt::Formatter<'_>) -> fmt::Result {
        f.write_str(match self {
            Fault::NotJson => "script: not json",
            Fault::Shape => "script: shape",
            Fault::Limit => "script: limit",
            Fault::Reference => "script: reference",
            Fault::Rule => "script: rule",
            Fault::OutOfMemory => "memory",
        })
    }
}

impl Error for Fault {}
