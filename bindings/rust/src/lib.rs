//! Pages of HTML, however broken: read as browsers read them, searched by selectors of CSS, and made safe to show.
//!
//! ```
//! use tlhtml::Document;
//!
//! let document = Document::parse("<ul><LI><a HREF=/x?a=1&b>Bread &amp; butter</A><li>3 < 4")?;
//! for link in document.select("li > a[href]")? {
//!     assert_eq!(link.text().collect::<String>(), "Bread & butter");
//!     assert_eq!(link.attr("href"), Some("/x?a=1&b"));
//!     assert_eq!(link.html()?, "<a href=\"/x?a=1&amp;b\">Bread &amp; butter</a>");
//! }
//! assert_eq!(tlhtml::sanitize("<p onclick=f()>I <3 <script>y</script>it")?, "<p>I &lt;3 it</p>");
//! # Ok::<(), tlhtml::Error>(())
//! ```
//!
//! What is asked is answered by `libtl`, whose calls are proved to answer what their contracts say, for every page. This crate lends it
//! what it asks for; it is not proved, and its `unsafe` stands in calls of the library alone.
//!
//! A [`Document`] is the tree that a browser builds of a page: an `html`, a `head`, a `body` and a `tbody` stand in it also where the page
//! has no tag of theirs, and what is misnested stands where browsers put it. Values and texts are the characters that they say, so
//! `&amp;` is `&`.
//!
//! No call panics, and where the library runs out of memory that is an answer: [`Error::OutOfMemory`].

mod calls;
mod document;
mod each;
mod error;
mod link;
mod node;
mod patch;
mod policy;
mod removal;
mod selector;
mod table;
mod tree;

pub use document::{Document, Select};
pub use each::Change;
pub use error::{Cause, Error};
pub use link::{Link, join_url};
pub use node::{Attrs, Children, Kind, Namespace, Node, Texts};
pub use patch::{Content, Edit, edit, set_attribute, unset_attribute};
pub use policy::{Lists, Policy, Reason, sanitize_by};
pub use removal::{Removal, Why};
pub use selector::{Selector, ToSelector, css_escape};

/// What the policy for the text of a blog keeps of a page, so that a browser builds just that: no scripts, no handlers of events, no
/// styles, and links to the web, to mail and within the site alone. What people type is read as browsers read it, so `I <3 you` stays
/// a text.
///
/// The answer is to stand in an ordinary element of a page that is served as UTF-8.
///
/// ```
/// assert_eq!(tlhtml::sanitize("<a href='javascript:f()'>x</a>")?, "<a>x</a>");
/// # Ok::<(), tlhtml::Error>(())
/// ```
pub fn sanitize(page: &str) -> Result<String, Error> {
    let (at, len) = (page.as_ptr(), page.len());
    calls::text(calls::room_of(page), |out, room, needed| unsafe {
        calls::tl_sanitize_html(at, len, out, room, needed)
    })
    .map_err(|status| calls::page_error_of(status, page))
}

/// The version of the library that is linked.
pub fn version() -> Result<String, Error> {
    calls::text(16, |out, room, needed| unsafe {
        calls::tl_version(out, room, needed)
    })
    .map_err(calls::error_of)
}
