//! Why nothing was timed.
use std::alloc::AllocError;
use std::io;
use tl::ParseError;
use tl::errors::TreeError;

/// Why nothing was timed. Its number is the status.
#[derive(Clone, Copy)]
pub enum Failed {
    /// The words say no work.
    NotUnderstood = 2,
    /// Memory ran out, or the page is too long or has a fault.
    Refused = 3,
    /// The file, the clock or the output failed.
    Io = 4,
}

impl Failed {
    /// What is said of it.
    pub fn line(&self) -> &'static str {
        match self {
            Failed::NotUnderstood => "WORD TEXT FILE TIMES",
            Failed::Refused => "refused",
            Failed::Io => "read or write failed",
        }
    }
}

impl From<AllocError> for Failed {
    fn from(_: AllocError) -> Self {
        Failed::Refused
    }
}

impl From<ParseError> for Failed {
    fn from(_: ParseError) -> Self {
        Failed::Refused
    }
}

impl From<TreeError> for Failed {
    fn from(_: TreeError) -> Self {
        Failed::Refused
    }
}

impl From<io::Error> for Failed {
    fn from(_: io::Error) -> Self {
        Failed::Io
    }
}
