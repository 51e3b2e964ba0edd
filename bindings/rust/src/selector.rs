//! Selectors that are looked at once, and names as they stand in selectors.
use crate::Error;
use crate::calls::{self, Handle};
use crate::document::{lent_text, selector_error_of};
use std::hash::{Hash, Hasher};
use std::sync::{Arc, Mutex, MutexGuard};
use std::{fmt, ptr};

/// A selector of CSS that is read once: a wrong one is an error where it is made. Each call that takes the text of a selector takes it
/// too. Below a node it may begin with a combinator, as its text may.
///
/// ```
/// use tlhtml::{Document, Selector};
/// let links = Selector::parse("li > a[href]")?;
/// assert_eq!(Document::parse("<li><a href=/x>y</a>")?.select(&links)?.len(), 1);
/// assert_eq!(Selector::parse("li:hover").unwrap_err().to_string(), "invalid selector: at byte 3: unknown pseudo-class");
/// # Ok::<(), tlhtml::Error>(())
/// ```
#[derive(Clone)]
pub struct Selector {
    text: String,
    // Whether it begins with no combinator.
    is_whole: bool,
    // While a call lasts it holds none; so a thread that comes in between asks by the text.
    own: Arc<Mutex<Compiled>>,
}

// `tl_compiled`.
struct Compiled(Handle);

// SAFETY: as of a document, all that it leads to is its own, and the lock lets one call at a time use it.
unsafe impl Send for Compiled {}

impl Drop for Compiled {
    fn drop(&mut self) {
        unsafe { calls::tl_free_compiled(&mut self.0) }
    }
}

impl Selector {
    /// The selector that a text is, which may begin with a combinator, as below a node.
    pub fn parse(text: &str) -> Result<Selector, Error> {
        let mut own = Compiled(Handle {
            at: ptr::null_mut(),
        });
        let (mut place, mut cause) = (0, 0);
        let (at, len) = lent_text(text);
        match unsafe { calls::tl_compile_css(at, len, &mut own.0, &mut place, &mut cause) } {
            calls::DONE => {}
            status => return Err(selector_error_of(status, place, cause)),
        }
        // (without a document nothing is found, and a cause is told all the same)
        let (mut none, mut number) = (
            Handle {
                at: ptr::null_mut(),
            },
            0,
        );
        let is_whole = unsafe {
            match calls::tl_first_css(&mut none, at, len, &mut number, &mut place, &mut cause) {
                calls::REFUSED => cause == 0,
                status => return Err(selector_error_of(status, place, cause)),
            }
        };
        Ok(Selector {
            text: calls::text_in(text.as_bytes()).map_err(calls::error_of)?,
            is_whole,
            own: Arc::new(Mutex::new(own)),
        })
    }

    /// Its text.
    pub fn as_str(&self) -> &str {
        &self.text
    }
}

impl fmt::Debug for Selector {
    fn fmt(&self, f: &mut fmt::Formatter<'_>) -> fmt::Result {
        f.debug_tuple("Selector").field(&self.text).finish()
    }
}

impl fmt::Display for Selector {
    fn fmt(&self, f: &mut fmt::Formatter<'_>) -> fmt::Result {
        f.write_str(&self.text)
    }
}

impl PartialEq for Selector {
    fn eq(&self, other: &Selector) -> bool {
        self.text == other.text
    }
}

impl Eq for Selector {}

impl Hash for Selector {
    fn hash<H: Hasher>(&self, state: &mut H) {
        self.text.hash(state);
    }
}

/// What a call takes for a selector: a text, or a [`Selector`], which was read.
pub trait ToSelector {
    /// Its text.
    fn text(&self) -> &str;

    /// What a call is lent, if it was read and no other thread asks by it just now. Below a node it may begin with a combinator.
    #[doc(hidden)]
    fn compiled(&self, _is_below: bool) -> Option<Lent<'_>> {
        None
    }
}

/// A selector that was read, while a call lasts.
#[doc(hidden)]
pub struct Lent<'s>(MutexGuard<'s, Compiled>);

impl Lent<'_> {
    pub(crate) fn handle(&mut self) -> *mut Handle {
        &mut self.0.0
    }
}

impl<T: AsRef<str> + ?Sized> ToSelector for T {
    fn text(&self) -> &str {
        self.as_ref()
    }
}

impl ToSelector for Selector {
    fn text(&self) -> &str {
        &self.text
    }

    fn compiled(&self, is_below: bool) -> Option<Lent<'_>> {
        let is_asked = is_below || self.is_whole;
        self.own.try_lock().ok().filter(|_| is_asked).map(Lent)
    }
}

impl ToSelector for &Selector {
    fn text(&self) -> &str {
        &self.text
    }

    fn compiled(&self, is_below: bool) -> Option<Lent<'_>> {
        (**self).compiled(is_below)
    }
}

/// A name as it stands in a selector, so that each of its characters is one of the name: `CSS.escape` of browsers.
///
/// ```
/// assert_eq!(tlhtml::css_escape("1st:item"), r"\31 st\:item");
/// ```
pub fn css_escape(name: &str) -> String {
    let mut out = String::new();
    for (place, it) in name.char_indices() {
        let is_first = place == 0 || (place == 1 && name.starts_with('-'));
        match it {
            '\0' => out.push('\u{fffd}'),
            '\u{1}'..='\u{1f}' | '\u{7f}' => out.push_str(&format!("\\{:x} ", u32::from(it))),
            '0'..='9' if is_first => out.push_str(&format!("\\{:x} ", u32::from(it))),
            '-' if name.len() == 1 => out.push_str("\\-"),
            '-' | '_' | '0'..='9' | 'a'..='z' | 'A'..='Z' | '\u{80}'.. => out.push(it),
            _ => out.extend(['\\', it]),
        }
    }
    out
}
