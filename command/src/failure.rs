//! What goes wrong: a message for standard error and an exit status.

/// The program was called wrongly.
pub const USAGE: u8 = 2;

/// Something is refused, differs or cannot be done.
pub const REFUSED: u8 = 1;

/// Something cannot be judged, and nothing differs.
pub const UNJUDGED: u8 = 3;

/// Ctrl-C came, as a shell tells it.
pub const INTERRUPTED: u8 = 130;

#[derive(Clone, Debug, PartialEq, Eq)]
pub struct Failure {
    pub status: u8,
    pub message: String,
}

impl Failure {
    pub fn new(message: impl Into<String>) -> Failure {
        Failure {
            status: REFUSED,
            message: message.into(),
        }
    }

    /// What cannot be judged has been told already.
    pub fn unjudged() -> Failure {
        Failure {
            status: UNJUDGED,
            message: String::new(),
        }
    }

    pub fn usage(message: impl Into<String>) -> Failure {
        Failure {
            status: USAGE,
            message: message.into(),
        }
    }
}

pub type Done<T> = Result<T, Failure>;
