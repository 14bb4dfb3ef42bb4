//! What is wrong with a text, and where.

use crate::failure::Failure;
use std::fmt;

/// A place in a text where something else is expected; line and column count from 1.
#[derive(Clone, Debug, PartialEq, Eq)]
pub struct Fault {
    pub line: usize,
    pub column: usize,
    pub expected: String,
    pub found: String,
}

/// What the end of a line is called.
pub const END_OF_LINE: &str = "the end of the line";

/// A found piece of text, shortened, with control characters shown.
pub fn quoted(text: &str) -> String {
    const MOST: usize = 32;
    let shown: String = text.chars().take(MOST).flat_map(char::escape_debug).collect();
    let more = if text.chars().count() > MOST { "..." } else { "" };
    format!("'{shown}{more}'")
}

impl Fault {
    /// The fault of a text that ends, in its last line, without what is expected.
    pub fn at_end(line: usize, expected: String) -> Fault {
        let found = "the end of the text".to_string();
        Fault {
            line,
            column: 1,
            expected,
            found,
        }
    }

    /// The fault of a named text as a failure of the command.
    pub fn of(&self, name: &str) -> Failure {
        Failure::Fault(format!("{name}:{self}"))
    }
}

impl fmt::Display for Fault {
    fn fmt(&self, f: &mut fmt::Formatter<'_>) -> fmt::Result {
        let Fault {
            line,
            column,
            expected,
            found,
        } = self;
        write!(f, "{line}:{column}: {expected} is expected, found {found}")
    }
}
