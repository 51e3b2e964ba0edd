//! Pages with tags and elements changed, and each other byte as it was.
use crate::calls;
use crate::{Cause, Error, ToSelector};
use std::borrow::Cow;

/// The page with an attribute set in the start tag of each element that matches a CSS selector. No other byte is changed: not the doctype, quotes,
/// blanks, nor what browsers mend. If nothing matches it is the page.
///
/// ```
/// let page = "<!DOCTYPE html PUBLIC 'x'>\n<P><IMG SRC=a.png>3 < 4";
/// let lazy = tlhtml::set_attribute(page, "p > img", "loading", "lazy")?;
/// assert_eq!(lazy, "<!DOCTYPE html PUBLIC 'x'>\n<P><IMG loading=\"lazy\" SRC=a.png>3 < 4");
/// # Ok::<(), tlhtml::Error>(())
/// ```
pub fn set_attribute(
    page: &str,
    selector: impl ToSelector,
    key: &str,
    value: &str,
) -> Result<String, Error> {
    patch(0, page, selector.text(), key, value)
}

/// The page with a key unset there.
pub fn unset_attribute(page: &str, selector: impl ToSelector, key: &str) -> Result<String, Error> {
    patch(1, page, selector.text(), key, "")
}

fn patch(edit: u8, page: &str, selector: &str, key: &str, value: &str) -> Result<String, Error> {
    let key = key.to_ascii_lowercase();
    let (mut place, mut cause) = (0, 0);
    let patched = calls::text(calls::room_of(page), |out, room, needed| unsafe {
        calls::tl_patch_css(
            edit,
            selector.as_ptr(),
            selector.len(),
            key.as_ptr(),
            key.len(),
            value.as_ptr(),
            value.len(),
            page.as_ptr(),
            page.len(),
            out,
            room,
            needed,
            &mut place,
            &mut cause,
        )
    });
    patched.map_err(|status| error_of(status, page, place, cause))
}

/// Why a page isn't changed.
pub(crate) fn error_of(status: u8, page: &str, place: usize, cause: u8) -> Error {
    match cause {
        0 => calls::page_error_of(status, page),
        1..16 => Error::NoSelector {
            place,
            cause: Cause::of_number(cause),
        },
        _ => Error::NotChanged {
            place,
            cause: Cause::of_number(cause),
        },
    }
}

/// What is put at an element.
#[derive(Clone, Copy, Debug, PartialEq, Eq)]
pub enum Content<'c> {
    /// A text, which is escaped where it has to be.
    Text(&'c str),
    /// Markup, as it is.
    Markup(&'c str),
}

/// What is done with an element.
#[derive(Clone, Copy, Debug, PartialEq, Eq)]
pub enum Edit<'c> {
    /// It gets another name; its attributes stay as they stand.
    Rename(&'c str),
    /// It goes.
    Remove,
    /// Its tags go, and what is in it stays.
    Unwrap,
    /// The content stands in its place.
    Replace(Content<'c>),
    /// The content stands instead of what is in it.
    Fill(Content<'c>),
    /// The content stands first in it.
    Prepend(Content<'c>),
    /// The content stands last in it.
    Append(Content<'c>),
    /// The content stands before it.
    Before(Content<'c>),
    /// The content stands after it.
    After(Content<'c>),
}

impl<'c> Edit<'c> {
    /// The numbers of the edit and of what its bytes are, and the bytes.
    pub(crate) fn lent(self) -> (u8, u8, &'c str) {
        let (edit, content) = match self {
            Edit::Rename(name) => return (0, 0, name),
            Edit::Remove => return (1, 0, ""),
            Edit::Unwrap => return (2, 0, ""),
            Edit::Replace(content) => (3, content),
            Edit::Fill(content) => (4, content),
            Edit::Prepend(content) => (5, content),
            Edit::Append(content) => (6, content),
            Edit::Before(content) => (7, content),
            Edit::After(content) => (8, content),
        };
        match content {
            Content::Text(text) => (edit, 0, text),
            Content::Markup(markup) => (edit, 1, markup),
        }
    }
}

/// The page with each element changed where a selector holds. No other byte is changed, and what is read of the answer is the page with
/// just that changed. An element in what another takes away goes with it. If nothing matches it is the page.
///
/// ```
/// use tlhtml::{Content, Edit, edit};
/// let page = "<!DOCTYPE html PUBLIC 'x'>\n<P>one <B>two</B>";
/// assert_eq!(edit(page, "b", Edit::Fill(Content::Text("3 < 4")))?, "<!DOCTYPE html PUBLIC 'x'>\n<P>one <B>3 &lt; 4</B>");
/// assert_eq!(edit(page, "b", Edit::Unwrap)?, "<!DOCTYPE html PUBLIC 'x'>\n<P>one two");
/// # Ok::<(), tlhtml::Error>(())
/// ```
pub fn edit(page: &str, selector: impl ToSelector, edit: Edit<'_>) -> Result<String, Error> {
    let selector = selector.text();
    let (number, form, content) = edit.lent();
    // (names are in lower case, as keys are)
    let content = match edit {
        Edit::Rename(name) => Cow::Owned(name.to_ascii_lowercase()),
        _ => Cow::Borrowed(content),
    };
    let (mut place, mut cause) = (0, 0);
    let edited = calls::text(calls::room_of(page), |out, room, needed| unsafe {
        calls::tl_edit_css(
            number,
            form,
            selector.as_ptr(),
            selector.len(),
            content.as_ptr(),
            content.len(),
            page.as_ptr(),
            page.len(),
            out,
            room,
            needed,
            &mut place,
            &mut cause,
        )
    });
    edited.map_err(|status| error_of(status, page, place, cause))
}
