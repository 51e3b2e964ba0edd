//! Why what was asked ended early.
use std::alloc::{AllocError, AllocFailed};
use std::io;
use tl::ParseError;
use tl::errors::TreeError;

/// Why what was asked ended early.
#[derive(Clone, Copy)]
pub enum Wrong {
    /// An answer that is not what it must be, by what it must be.
    Answer(&'static str),
    /// The words ask for nothing.
    NotUnderstood,
    /// Memory ran out.
    OutOfMemory,
    /// Standard input or output failed.
    Io,
}

impl Wrong {
    /// What is said of it.
    pub fn line(&self) -> &'static str {
        match self {
            Wrong::Answer(wanted) => wanted,
            Wrong::NotUnderstood => "not understood",
            Wrong::OutOfMemory => "out of memory",
            Wrong::Io => "read or write failed",
        }
    }

    /// The status that the program ends with.
    pub fn status(&self) -> u8 {
        match self {
            Wrong::Answer(_) => 1,
            Wrong::NotUnderstood => 2,
            Wrong::OutOfMemory => 3,
            Wrong::Io => 4,
        }
    }
}

/// Goes on where `holds`, and else says what must be.
pub fn expect(holds: bool, wanted: &'static str) -> Result<(), Wrong> {
    if holds {
        Ok(())
    } else {
        Err(Wrong::Answer(wanted))
    }
}

impl From<AllocError> for Wrong {
    fn from(_: AllocError) -> Self {
        Wrong::OutOfMemory
    }
}

impl<T: Drop> From<AllocFailed<T>> for Wrong {
    fn from(_: AllocFailed<T>) -> Self {
        Wrong::OutOfMemory
    }
}

impl From<io::Error> for Wrong {
    fn from(_: io::Error) -> Self {
        Wrong::Io
    }
}

impl From<ParseError> for Wrong {
    fn from(error: ParseError) -> Self {
        match error {
            ParseError::OutOfMemory => Wrong::OutOfMemory,
            ParseError::InvalidLength => Wrong::Answer("a text that is not too long is read"),
        }
    }
}

impl From<TreeError> for Wrong {
    fn from(error: TreeError) -> Self {
        match error {
            TreeError::OutOfMemory => Wrong::OutOfMemory,
            TreeError::Dangling(_) | TreeError::Cycle(_) => {
                Wrong::Answer("a walk over these handles meets no fault")
            }
        }
    }
}
