//! Documents.
use crate::calls::{self, Handle};
use crate::link::{self, Link};
use crate::tree::Tree;
use crate::{Cause, Children, Error, Kind, Node, Texts, ToSelector};
use std::iter::FusedIterator;
use std::ops::Range;
use std::ptr;
use std::sync::{Mutex, MutexGuard, PoisonError};

/// The tree of a page, as browsers build it, which answers any number of questions.
///
/// ```
/// let document = tlhtml::Document::parse("<p>one<p class=b>two")?;
/// let second = document.first("p.b")?.unwrap();
/// assert_eq!(second.text().collect::<String>(), "two");
/// assert_eq!(second.parent().unwrap().name(), Some("body"));
/// assert_eq!(document.html()?, "<html><head></head><body><p>one</p><p class=\"b\">two</p></body></html>");
/// assert_eq!(document.select("p +")
///     .unwrap_err().to_string(), "invalid selector: at byte 3: expected a selector");
/// # Ok::<(), tlhtml::Error>(())
/// ```
///
/// Names, keys, values and texts are borrowed of the document, and take no memory. Threads may share one: what is borrowed and what stands
/// around a node is asked side by side; of what else is asked, as of `select`, one waits for the other.
pub struct Document {
    // What each node is, where it stands, and what it says. It isn't changed.
    tree: Tree,
    // How much the page has, by which room is measured.
    page_len: usize,
    // The name of the encoding that its bytes were in.
    encoding: Option<String>,
    // While a call lasts, what it is lent holds no document: so one call at a time.
    lent: Mutex<Lent>,
}

// What calls are lent: the document, and room that answers are put into, so that none is made twice for want of it.
pub(crate) struct Lent {
    pub(crate) handle: Handle,
    bytes: Vec<u8>,
    numbers: Vec<u32>,
}

// SAFETY: all that the handle leads to is the document's alone. The library keeps nothing elsewhere, takes memory by `malloc`, and hands
// out no pointer; counts that it keeps inside count what stands inside. So which thread calls makes no difference, as long as it is one at
// a time, which the lock sees to.
unsafe impl Send for Lent {}

impl Drop for Lent {
    fn drop(&mut self) {
        unsafe { calls::tl_free(&mut self.handle) }
    }
}

impl Document {
    /// Reads a page as browsers read it.
    pub fn parse(page: &str) -> Result<Document, Error> {
        let handle = Handle {
            at: ptr::null_mut(),
        };
        let (bytes, numbers) = (Vec::new(), Vec::new());
        let mut lent = Lent {
            handle,
            bytes,
            numbers,
        };
        match unsafe { calls::tl_parse_html(page.as_ptr(), page.len(), &mut lent.handle) } {
            calls::DONE => {}
            status => return Err(calls::page_error_of(status, page)),
        }
        Ok(Document {
            tree: Tree::read(&mut lent.handle, page.len()).map_err(calls::error_of)?,
            page_len: page.len(),
            encoding: None,
            lent: Mutex::new(lent),
        })
    }

    /// Reads a page of any encoding: that of its byte-order mark, else of this label of the Encoding standard (`latin1`, `koi8-r`), else
    /// what the page says, as browsers tell it. U+FFFD stands for bytes that are wrong.
    ///
    /// ```
    /// let document = tlhtml::Document::parse_bytes(b"<meta charset=latin1><p>caf\xe9", None)?;
    /// assert_eq!(document.text().collect::<String>(), "café");
    /// assert_eq!(document.encoding(), Some("windows-1252"));
    /// assert_eq!(tlhtml::Document::parse("x")?.encoding(), None);
    /// # Ok::<(), tlhtml::Error>(())
    /// ```
    pub fn parse_bytes(page: &[u8], encoding: Option<&str>) -> Result<Document, Error> {
        let label = encoding.unwrap_or("");
        if encoding == Some("") {
            return Err(Error::NoEncoding);
        }
        let ((at, len), (page, page_len)) = (lent_text(label), (page.as_ptr(), page.len()));
        let encoding = calls::text(64, |out, room, needed| unsafe {
            calls::tl_encoding_of(at, len, page, page_len, out, room, needed)
        });
        let text = calls::text(page_len + page_len / 8 + 64, |out, room, needed| unsafe {
            calls::tl_decode_page(at, len, page, page_len, out, room, needed)
        });
        let document = Document::parse(&text.map_err(encoding_error_of)?)?;
        Ok(Document {
            encoding: Some(encoding.map_err(encoding_error_of)?),
            ..document
        })
    }

    /// The encoding that the bytes of the page were in, by its name in the Encoding standard; `None` where the page was a text.
    pub fn encoding(&self) -> Option<&str> {
        self.encoding.as_deref()
    }

    pub(crate) fn tree(&self) -> &Tree {
        &self.tree
    }

    pub(crate) fn lent(&self) -> MutexGuard<'_, Lent> {
        // (no call panics, and one that did would leave the document whole)
        self.lent.lock().unwrap_or_else(PoisonError::into_inner)
    }

    /// Whether it is in quirks mode, as without a doctype. There classes and ids of selectors hold in any case.
    pub fn is_quirks(&self) -> bool {
        unsafe { calls::tl_is_quirks(&mut self.lent().handle) != 0 }
    }

    /// The elements that match a CSS selector, in document order, without those in a `template`. `:scope` is the root. A
    /// selector is a text, or a [`Selector`](crate::Selector).
    pub fn select(&self, selector: impl ToSelector) -> Result<Select<'_>, Error> {
        if let Some(mut compiled) = selector.compiled(false) {
            let own = compiled.handle();
            return self.selected(|document, numbers, room, needed, _, _| unsafe {
                calls::tl_compiled_select(document, own, numbers, room, needed)
            });
        }
        let (at, len) = lent_text(selector.text());
        self.selected(|document, numbers, room, needed, place, cause| unsafe {
            calls::tl_select_css(document, at, len, numbers, room, needed, place, cause)
        })
    }

    /// The first of them.
    pub fn first(&self, selector: impl ToSelector) -> Result<Option<Node<'_>>, Error> {
        if let Some(mut compiled) = selector.compiled(false) {
            return self.selected_one(|document, number, _, _| unsafe {
                calls::tl_compiled_first(document, compiled.handle(), number)
            });
        }
        let (at, len) = lent_text(selector.text());
        self.selected_one(|document, number, place, cause| unsafe {
            calls::tl_first_css(document, at, len, number, place, cause)
        })
    }

    /// The values at a key of the elements where a selector of CSS holds, in the order of the page, in one call; an element without the
    /// key has none. Keys are as they are serialized: in lower case in HTML.
    ///
    /// ```
    /// let document = tlhtml::Document::parse("<a href=/x>1</a><a>2</a><a href='/y?a&amp;b'>3</a>")?;
    /// assert_eq!(document.select_values("a", "href")?, ["/x", "/y?a&b"]);
    /// # Ok::<(), tlhtml::Error>(())
    /// ```
    pub fn select_values(
        &self,
        selector: impl ToSelector,
        key: &str,
    ) -> Result<Vec<String>, Error> {
        let ((at, len), (key, key_len)) = (lent_text(selector.text()), lent_text(key));
        let (mut place, mut cause) = (0, 0);
        self.answered(values_in, |handle, out, room, needed| unsafe {
            calls::tl_select_values(
                handle, at, len, key, key_len, out, room, needed, &mut place, &mut cause,
            )
        })
        .map_err(|status| selector_error_of(status, place, cause))
    }

    // What a call with a selector answers, which says also where and why it is none.
    pub(crate) fn by_selector<T>(
        &self,
        call: impl FnOnce(&mut Lent, &mut usize, &mut u8) -> Result<T, u8>,
    ) -> Result<T, Error> {
        let (mut place, mut cause) = (0, 0);
        let answer = call(&mut self.lent(), &mut place, &mut cause);
        answer.map_err(|status| selector_error_of(status, place, cause))
    }

    // The nodes of the numbers that such a call answers. There is room for those of all nodes.
    pub(crate) fn selected(
        &self,
        call: impl Fn(*mut Handle, *mut u32, usize, *mut usize, *mut usize, *mut u8) -> u8,
    ) -> Result<Select<'_>, Error> {
        self.by_selector(|lent, place, cause| {
            let Lent {
                handle, numbers, ..
            } = lent;
            if numbers.capacity() == 0 {
                *numbers = calls::with_room(self.tree.len())?;
            }
            let status = calls::fill(numbers, |numbers, room, needed| {
                call(handle, numbers, room, needed, place, cause)
            });
            if status != calls::DONE {
                return Err(status);
            }
            let mut found = calls::with_room(numbers.len())?;
            found.extend_from_slice(numbers);
            Ok(Select {
                document: self,
                numbers: found.into_iter(),
            })
        })
    }

    // The node of the number that such a call answers. Where there is none it is refused without a cause.
    pub(crate) fn selected_one(
        &self,
        call: impl FnOnce(*mut Handle, *mut u32, *mut usize, *mut u8) -> u8,
    ) -> Result<Option<Node<'_>>, Error> {
        self.by_selector(|lent, place, cause| {
            let mut number = calls::NO_NODE;
            match call(&mut lent.handle, &mut number, place, cause) {
                calls::DONE => Ok(Some(Node::new(self, number))),
                calls::REFUSED if *cause == 0 => Ok(None),
                status => Err(status),
            }
        })
    }

    /// The nodes at the top, in order: the `html`, with a doctype and comments before and behind it.
    pub fn children(&self) -> Children<'_> {
        Children::new(self.nodes().next())
    }

    /// The element that stands in no other: the `html`.
    pub fn root_element(&self) -> Option<Node<'_>> {
        self.children().find(|it| it.kind() == Kind::Element)
    }

    /// All nodes, in document order: each comes before what is below it.
    pub fn nodes(
        &self,
    ) -> impl DoubleEndedIterator<Item = Node<'_>> + ExactSizeIterator + FusedIterator + Clone {
        self.nodes_of(0..self.tree.len() as u32)
    }

    // The nodes of some numbers.
    pub(crate) fn nodes_of(
        &self,
        numbers: Range<u32>,
    ) -> impl DoubleEndedIterator<Item = Node<'_>> + ExactSizeIterator + FusedIterator + Clone {
        numbers.map(|number| Node::new(self, number))
    }

    /// The texts of the page, in order, without those in a `template`: also what `script` and `style` hold.
    pub fn text(&self) -> Texts<'_> {
        Texts::new(self, 0..self.tree.len() as u32)
    }

    /// What the `title` of the page says, with one space between words.
    ///
    /// ```
    /// let document = tlhtml::Document::parse("<title> Bread</title>")?;
    /// assert_eq!(document.title()?.as_deref(), Some("Bread"));
    /// # Ok::<(), tlhtml::Error>(())
    /// ```
    pub fn title(&self) -> Result<Option<String>, Error> {
        let Some(title) = self.first("head > title")? else {
            return Ok(None);
        };
        let mut said = String::new();
        for word in title.text().flat_map(str::split_whitespace) {
            let space = if said.is_empty() { "" } else { " " };
            said.try_reserve(space.len() + word.len())
                .map_err(|_| Error::OutOfMemory)?;
            said.extend([space, word]);
        }
        Ok(Some(said))
    }

    /// The text of the page as a browser shows it without style sheets, as `tl text -w` has it: blocks on lines of their own, one space
    /// between words, without scripts and styles.
    ///
    /// ```
    /// let document = tlhtml::Document::parse("<title>t</title><h1>A\n &amp; B</h1><p>x<br>y<script>f()</script>")?;
    /// assert_eq!(document.readable_text()?, "A & B\n\nx\ny");
    /// # Ok::<(), tlhtml::Error>(())
    /// ```
    pub fn readable_text(&self) -> Result<String, Error> {
        self.root_element()
            .map_or(Ok(String::new()), Node::readable_text)
    }

    /// The texts of the page that hold a text, as [`Node::find_text`] has them.
    pub fn find_text<'d>(&'d self, wanted: &str) -> impl Iterator<Item = Node<'d>> {
        self.text()
            .numbered()
            .filter(move |(_, text)| text.contains(wanted))
            .map(|(number, _)| Node::new(self, number))
    }

    /// The whole page as markup, as browsers serialize its tree.
    pub fn html(&self) -> Result<String, Error> {
        self.text_of(calls::tl_document_html)
    }

    /// The same with a tag on each line where white space doesn't count, as `tl print --pretty`.
    pub fn prettify(&self) -> Result<String, Error> {
        self.text_of(calls::tl_document_pretty_html)
    }

    // The text that such a call answers.
    fn text_of(&self, call: calls::OfDocument) -> Result<String, Error> {
        self.answered(calls::text_in, |document, out, room, needed| unsafe {
            call(document, out, room, needed)
        })
        .map_err(calls::error_of)
    }

    /// Each URL in an attribute of the page (`href`, `src`, `srcset` and all others that the HTML standard names), in the order of
    /// the page, as `tl links` has them. With the URL of the page as the base each link says where it leads, also by way of the page's own
    /// `base`; a base that is no URL is [`Error::NoUrl`].
    ///
    /// ```
    /// let document = tlhtml::Document::parse("<a href='x?a=1&amp;b'>y</a>")?;
    /// let links = document.links(Some("https://example.org/d/"))?;
    /// assert_eq!((links[0].node.name(), links[0].key.as_str(), links[0].url.as_str()), (Some("a"), "href", "x?a=1&b"));
    /// assert_eq!(links[0].target.as_deref(), Some("https://example.org/d/x?a=1&b"));
    /// # Ok::<(), tlhtml::Error>(())
    /// ```
    pub fn links(&self, base: Option<&str>) -> Result<Vec<Link<'_>>, Error> {
        link::links(self, base)
    }

    /// The rows of each table of the page, those in cells too, as [`Node::rows`] has them.
    pub fn tables(&self) -> Result<Vec<Vec<Vec<String>>>, Error> {
        let mut tables = Vec::new();
        for table in self.select("table")? {
            calls::push(&mut tables, table.rows()?.unwrap_or_default()).map_err(calls::error_of)?;
        }
        Ok(tables)
    }

    // The most bytes that the lines of a table may have.
    pub(crate) fn table_limit(&self) -> usize {
        self.page_len.saturating_mul(64).saturating_add(65536)
    }

    // What is made of the bytes that a call answers, or the status that is none.
    pub(crate) fn answered<T>(
        &self,
        make: impl FnOnce(&[u8]) -> Result<T, u8>,
        mut call: impl FnMut(*mut Handle, *mut u8, usize, *mut usize) -> u8,
    ) -> Result<T, u8> {
        let Lent { handle, bytes, .. } = &mut *self.lent();
        if bytes.capacity() == 0 {
            *bytes = calls::with_room(self.page_len + 64)?;
        }
        match calls::fill(bytes, |out, room, needed| call(handle, out, room, needed)) {
            calls::DONE => make(bytes),
            status => Err(status),
        }
    }
}

// The values that `tl_select_values` puts, in order.
fn values_in(bytes: &[u8]) -> Result<Vec<String>, u8> {
    let mut values = Vec::new();
    let Some((_, parts)) = bytes.split_last() else {
        return Ok(values);
    };
    for part in parts.split(|byte| *byte == 255) {
        calls::push(&mut values, calls::text_in(part)?)?;
    }
    Ok(values)
}

// What a status says of a page of bytes.
fn encoding_error_of(status: u8) -> Error {
    match status {
        calls::REFUSED => Error::NoEncoding,
        status => calls::error_of(status),
    }
}

// A text as it is lent.
pub(crate) fn lent_text(text: &str) -> (*const u8, usize) {
    (text.as_ptr(), text.len())
}

// What a status says of a call with a selector.
pub(crate) fn selector_error_of(status: u8, place: usize, cause: u8) -> Error {
    match cause {
        0 => calls::error_of(status),
        cause => Error::NoSelector {
            place,
            cause: Cause::of_number(cause),
        },
    }
}

/// The elements that a selector found, in document order.
#[derive(Clone)]
pub struct Select<'d> {
    document: &'d Document,
    numbers: std::vec::IntoIter<u32>,
}

impl<'d> Iterator for Select<'d> {
    type Item = Node<'d>;

    fn next(&mut self) -> Option<Node<'d>> {
        let number = self.numbers.next()?;
        Some(Node::new(self.document, number))
    }

    fn size_hint(&self) -> (usize, Option<usize>) {
        self.numbers.size_hint()
    }
}

impl DoubleEndedIterator for Select<'_> {
    fn next_back(&mut self) -> Option<Self::Item> {
        let number = self.numbers.next_back()?;
        Some(Node::new(self.document, number))
    }
}

impl ExactSizeIterator for Select<'_> {}

impl FusedIterator for Select<'_> {}

impl std::fmt::Debug for Select<'_> {
    fn fmt(&self, f: &mut std::fmt::Formatter<'_>) -> std::fmt::Result {
        f.debug_list().entries(self.clone()).finish()
    }
}

impl PartialEq for Select<'_> {
    /// Whether the same nodes are left.
    fn eq(&self, other: &Self) -> bool {
        self.clone().eq(other.clone())
    }
}
