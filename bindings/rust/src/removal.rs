//! What goes of a page that is made safe.
use crate::calls;
use std::fmt;
use std::ops::Range;

/// An element that goes of a page, or an attribute of one that stays.
#[derive(Clone, Debug, PartialEq, Eq)]
pub struct Removal {
    /// The bytes of the page where the start tag of the element stands.
    pub source: Range<usize>,
    /// The name of the element.
    pub name: String,
    /// The key of the attribute; `None` where the element itself goes.
    pub key: Option<String>,
    /// Why it goes.
    pub why: Why,
}

impl Removal {
    /// The line of the page, from 1, where the start tag stands, and how many bytes stand before it there; `page` is the page.
    pub fn line_of(&self, page: &str) -> (usize, usize) {
        calls::line_of(page, self.source.start)
    }
}

/// Why something goes of a page.
#[derive(Clone, Copy, Debug, PartialEq, Eq)]
#[non_exhaustive]
pub enum Why {
    /// The tag isn't listed: what is in the element stands in its place.
    UnlistedTag,
    /// What is in the element is no markup of HTML, or isn't shown: it goes with all of that.
    OpaqueTag,
    /// The element is one of `svg` or `math`: it goes with all that is in it.
    ForeignTag,
    /// The tag is listed, and may not stand where it is: what is in it stands in its place.
    MisplacedTag,
    /// The attribute isn't listed.
    UnlistedKey,
    /// The value may not stand in its attribute, as a link that begins with what no link may.
    UnlistedValue,
    /// A cause that the library knows and this crate doesn't.
    Other(u8),
}

impl Why {
    fn of_number(number: usize) -> Why {
        match number {
            1 => Why::UnlistedTag,
            2 => Why::OpaqueTag,
            3 => Why::ForeignTag,
            4 => Why::MisplacedTag,
            5 => Why::UnlistedKey,
            6 => Why::UnlistedValue,
            other => Why::Other(other as u8),
        }
    }
}

impl fmt::Display for Why {
    fn fmt(&self, f: &mut fmt::Formatter<'_>) -> fmt::Result {
        f.write_str(match self {
            Why::UnlistedTag => "the tag isn't listed",
            Why::OpaqueTag => "what is in it isn't shown as markup",
            Why::ForeignTag => "it is no element of HTML",
            Why::MisplacedTag => "the tag may not stand here",
            Why::UnlistedKey => "the attribute isn't listed",
            Why::UnlistedValue => "the value may not stand here",
            Why::Other(number) => return write!(f, "cause {number}"),
        })
    }
}

// How many bytes stand before the name of what goes.
const HEAD: usize = 40;

/// What goes of a page, as `tl_removed_html` puts it, in order.
pub(crate) fn removals_in(page: &str, mut bytes: &[u8]) -> Result<Vec<Removal>, u8> {
    let mark = if page.starts_with('\u{feff}') { 3 } else { 0 };
    let mut removals = Vec::new();
    while !bytes.is_empty() {
        let number = |place: usize| calls::number_at(bytes, 8 * place);
        let (name, rest) = bytes[HEAD..].split_at(number(3));
        let (key, rest) = rest.split_at(number(4));
        let removal = Removal {
            source: mark + number(0)..mark + number(1),
            name: calls::text_in(name)?,
            key: (!key.is_empty()).then(|| calls::text_in(key)).transpose()?,
            why: Why::of_number(number(2)),
        };
        calls::push(&mut removals, removal)?;
        bytes = rest;
    }
    Ok(removals)
}
