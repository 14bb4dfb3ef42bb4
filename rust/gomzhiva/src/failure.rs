//! Why a command did not do its work. Each kind has its exit status.

use energy::Refusal;
use std::fmt;
use std::io;

/// A command that was not done.
#[derive(Debug)]
pub enum Failure {
    /// The library refused the figures, by document 01's number; the sentence may say more than the library's.
    Refused { refusal: Refusal, sentence: String },
    /// Bad usage, or a text that is no request or no journal.
    Fault(String),
    /// Reading or writing failed.
    System { name: String, reason: String },
}

impl Failure {
    /// A failed call of the system on a named file.
    pub fn system(name: impl fmt::Display, error: &io::Error) -> Failure {
        let reason = error.to_string();
        Failure::System {
            name: name.to_string(),
            reason: reason.split(" (os error").next().unwrap_or_default().to_string(),
        }
    }

    /// The same failure with more to tell.
    pub fn with(mut self, more: &str) -> Failure {
        match &mut self {
            Failure::Refused { sentence: text, .. } | Failure::Fault(text) | Failure::System { reason: text, .. } => {
                *text += &format!("; {more}");
            }
        }
        self
    }

    /// The refusal, if it is one.
    pub fn refusal(&self) -> Option<Refusal> {
        match self {
            Failure::Refused { refusal, .. } => Some(*refusal),
            _ => None,
        }
    }

    /// The exit status.
    pub fn status(&self) -> u8 {
        match self {
            Failure::Refused { .. } => 1,
            Failure::Fault(_) => 2,
            Failure::System { .. } => 3,
        }
    }
}

impl From<Refusal> for Failure {
    fn from(refusal: Refusal) -> Failure {
        let sentence = refusal.sentence();
        Failure::Refused { refusal, sentence }
    }
}

impl fmt::Display for Failure {
    fn fmt(&self, f: &mut fmt::Formatter<'_>) -> fmt::Result {
        match self {
            Failure::Refused { refusal, sentence } => write!(f, "gomzhiva: {}: {sentence}", refusal.line()),
            Failure::Fault(message) => f.write_str(message),
            Failure::System { name, reason } => write!(f, "gomzhiva: {name}: {reason}"),
        }
    }
}
