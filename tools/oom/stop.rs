//! How a case ends that isn't carried out.
use std::alloc::{AllocError, AllocFailed};
use tl::ParseError;
use tl::errors::{SetBytesError, TreeError};
use tl_css::SelectorError;
use tl_page::Failure;
use tl_patch::PatchError;
use tl_patch_edit::EditError;
use tl_patch_select::{SelectionEditError, SelectionPatchError};
use tl_tree::ReadError;
use tl_tree_extract::TableError;

/// Why a case ended.
#[derive(Clone, Copy)]
pub enum Stop {
    /// What the call needs was made, and the call was not wanted.
    NoCall,
    /// Want of memory was answered, and what the call leaves then is what it promises.
    NoMemory,
    /// Another value was answered than the right one.
    WrongValue,
    /// Another error was answered than want of memory.
    WrongError,
    /// Want of memory was answered, and something was left otherwise than it was.
    Changed,
}

/// Goes on where the call answered the right value.
pub fn value(is_right: bool) -> Result<(), Stop> {
    if is_right {
        Ok(())
    } else {
        Err(Stop::WrongValue)
    }
}

/// Want of memory was answered; whether all is as the call promises then.
pub fn refused(is_kept: bool) -> Result<(), Stop> {
    if is_kept {
        Err(Stop::NoMemory)
    } else {
        Err(Stop::Changed)
    }
}

impl From<AllocError> for Stop {
    fn from(_: AllocError) -> Self {
        Stop::NoMemory
    }
}

impl<T: Drop> From<AllocFailed<T>> for Stop {
    fn from(_: AllocFailed<T>) -> Self {
        Stop::NoMemory
    }
}

impl From<ParseError> for Stop {
    fn from(error: ParseError) -> Self {
        match error {
            ParseError::OutOfMemory => Stop::NoMemory,
            ParseError::InvalidLength => Stop::WrongError,
        }
    }
}

impl From<url::ParseError> for Stop {
    fn from(error: url::ParseError) -> Self {
        match error {
            url::ParseError::OutOfMemory => Stop::NoMemory,
            _ => Stop::WrongError,
        }
    }
}

impl From<TreeError> for Stop {
    fn from(error: TreeError) -> Self {
        match error {
            TreeError::OutOfMemory => Stop::NoMemory,
            TreeError::Dangling(_) | TreeError::Cycle(_) => Stop::WrongError,
        }
    }
}

impl From<SetBytesError> for Stop {
    fn from(error: SetBytesError) -> Self {
        match error {
            SetBytesError::OutOfMemory => Stop::NoMemory,
            SetBytesError::LengthOverflow => Stop::WrongError,
        }
    }
}

impl From<SelectorError> for Stop {
    fn from(error: SelectorError) -> Self {
        match error {
            SelectorError::OutOfMemory => Stop::NoMemory,
            SelectorError::Text { .. } => Stop::WrongError,
        }
    }
}

impl From<PatchError> for Stop {
    fn from(error: PatchError) -> Self {
        match error {
            PatchError::OutOfMemory => Stop::NoMemory,
            _ => Stop::WrongError,
        }
    }
}

impl From<EditError> for Stop {
    fn from(error: EditError) -> Self {
        match error {
            EditError::OutOfMemory => Stop::NoMemory,
            _ => Stop::WrongError,
        }
    }
}

impl From<SelectionPatchError> for Stop {
    fn from(error: SelectionPatchError) -> Self {
        match error {
            SelectionPatchError::OutOfMemory => Stop::NoMemory,
            _ => Stop::WrongError,
        }
    }
}

impl From<SelectionEditError> for Stop {
    fn from(error: SelectionEditError) -> Self {
        match error {
            SelectionEditError::OutOfMemory => Stop::NoMemory,
            _ => Stop::WrongError,
        }
    }
}

impl From<ReadError> for Stop {
    fn from(error: ReadError) -> Self {
        match error {
            ReadError::OutOfMemory => Stop::NoMemory,
            _ => Stop::WrongError,
        }
    }
}

impl From<Failure> for Stop {
    fn from(failure: Failure) -> Self {
        match failure {
            Failure::OutOfMemory => Stop::NoMemory,
            _ => Stop::WrongError,
        }
    }
}

impl From<TableError> for Stop {
    fn from(error: TableError) -> Self {
        match error {
            TableError::OutOfMemory => Stop::NoMemory,
            TableError::TooLong => Stop::WrongError,
        }
    }
}
