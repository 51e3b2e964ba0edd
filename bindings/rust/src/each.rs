//! Edits of single nodes, each by what a function answers of it.
use crate::calls::{self, Handle};
use crate::patch::{Edit, error_of};
use crate::{Document, Error, Node, ToSelector};

/// What is done with an element, as the function answers it that [`Document::edit_each`] is given. It has copies of its texts.
#[derive(Clone, Debug, PartialEq, Eq)]
pub struct Change(What);

#[derive(Clone, Debug, PartialEq, Eq)]
enum What {
    Set(String, String),
    Unset(String),
    AddWord(String, String),
    RemoveWord(String, String),
    // The numbers of the edit and of what its bytes are, and the bytes.
    Element(u8, u8, String),
}

impl Change {
    /// A key gets a value.
    pub fn set(key: impl Into<String>, value: impl Into<String>) -> Change {
        Change(What::Set(key.into(), value.into()))
    }

    /// A key goes.
    pub fn unset(key: impl Into<String>) -> Change {
        Change(What::Unset(key.into()))
    }

    /// A word is added to the words of a value, as those of `class`, where it isn't among them.
    pub fn add_word(key: impl Into<String>, word: impl Into<String>) -> Change {
        Change(What::AddWord(key.into(), word.into()))
    }

    /// A word of a value goes; the key goes with the last one.
    pub fn remove_word(key: impl Into<String>, word: impl Into<String>) -> Change {
        Change(What::RemoveWord(key.into(), word.into()))
    }

    /// The element is changed so.
    pub fn edit(edit: Edit<'_>) -> Change {
        let (number, form, content) = edit.lent();
        let content = match edit {
            // (names are in lower case)
            Edit::Rename(name) => name.to_ascii_lowercase(),
            _ => content.to_string(),
        };
        Change(What::Element(number, form, content))
    }
}

impl From<Edit<'_>> for Change {
    fn from(edit: Edit<'_>) -> Change {
        Change::edit(edit)
    }
}

/// `tl_change`.
#[repr(C)]
pub(crate) struct LentChange {
    key: *const u8,
    key_len: usize,
    value: *const u8,
    value_len: usize,
    node: u32,
    change: u8,
}

/// `tl_edit`.
#[repr(C)]
pub(crate) struct LentEdit {
    content: *const u8,
    content_len: usize,
    node: u32,
    edit: u8,
    form: u8,
}

const SET: u8 = 0;
const UNSET: u8 = 1;

// A change of a tag: its node, its number, the key and the value.
struct TagChange(u32, u8, String, String);

// An edit of an element: its node, the numbers of the edit and of what its bytes are, and the bytes.
struct ElementEdit(u32, u8, u8, String);

/// The edits of some nodes, those of tags and those of elements.
#[derive(Default)]
struct Edits {
    tags: Vec<TagChange>,
    elements: Vec<ElementEdit>,
}

impl Edits {
    // Adds one of a node. What leaves the value as it is is none.
    fn add(&mut self, node: Node<'_>, change: Change) -> Result<(), u8> {
        let number = node.number();
        let (key, value) = match change.0 {
            What::Element(edit, form, content) => {
                let edit = ElementEdit(number, edit, form, content);
                return calls::push(&mut self.elements, edit);
            }
            What::Set(key, value) if node.attr(&key) == Some(&value) => return Ok(()),
            What::Set(key, value) => (key, Some(value)),
            What::Unset(key) => (key, None),
            What::AddWord(key, word) | What::RemoveWord(key, word) if word.is_empty() => {
                drop((key, word));
                return Ok(());
            }
            What::AddWord(key, word) => match with_word(node.attr(&key), &word) {
                Some(value) => (key, Some(value)),
                None => return Ok(()),
            },
            What::RemoveWord(key, word) => match without_word(node.attr(&key), &word) {
                Some(words) if words.is_empty() => (key, None),
                Some(words) => (key, Some(words)),
                None => return Ok(()),
            },
        };
        let number_of = if value.is_some() { SET } else { UNSET };
        let key = key.to_ascii_lowercase();
        let change = TagChange(number, number_of, key, value.unwrap_or_default());
        calls::push(&mut self.tags, change)
    }

    fn lent_tags(&self) -> Result<Vec<LentChange>, u8> {
        let mut lent = calls::with_room(self.tags.len())?;
        lent.extend(self.tags.iter().map(|it| LentChange {
            key: it.2.as_ptr(),
            key_len: it.2.len(),
            value: it.3.as_ptr(),
            value_len: it.3.len(),
            node: it.0,
            change: it.1,
        }));
        Ok(lent)
    }

    fn lent_elements(&self) -> Result<Vec<LentEdit>, u8> {
        let mut lent = calls::with_room(self.elements.len())?;
        lent.extend(self.elements.iter().map(|it| LentEdit {
            content: it.3.as_ptr(),
            content_len: it.3.len(),
            node: it.0,
            edit: it.1,
            form: it.2,
        }));
        Ok(lent)
    }
}

// A value with a word more; `None` where it is there.
fn with_word(value: Option<&str>, word: &str) -> Option<String> {
    let value = value.unwrap_or_default();
    let mut words: Vec<&str> = value.split_ascii_whitespace().collect();
    if words.contains(&word) {
        return None;
    }
    words.push(word);
    Some(words.join(" "))
}

// A value without a word; `None` where it isn't there.
fn without_word(value: Option<&str>, word: &str) -> Option<String> {
    let words = value?.split_ascii_whitespace();
    let left: Vec<&str> = words.clone().filter(|it| *it != word).collect();
    (left.len() != words.count()).then(|| left.join(" "))
}

impl Document {
    /// The page with an edit of its own for each element where a selector of CSS holds, and with each other byte as it was: what the
    /// function answers of the element, a [`Change`], several or none. `page` is the page that was read. The document stays as it is.
    ///
    /// ```
    /// use tlhtml::{Change, Document, Edit};
    /// let page = "<P><A HREF='http://a.org'>x</A> <a href=/y>y</a></P>";
    /// let document = Document::parse(page)?;
    /// let secure = document.edit_each(page, "a", |it| {
    ///     it.attr("href").map(|href| Change::set("href", href.replace("http:", "https:")))
    /// })?;
    /// assert_eq!(secure, "<P><A HREF=\"https://a.org\">x</A> <a href=/y>y</a></P>");
    /// let unlinked = document.edit_each(page, "a[href^='/']", |_| [Change::edit(Edit::Unwrap)])?;
    /// assert_eq!(unlinked, "<P><A HREF='http://a.org'>x</A> y</P>");
    /// # Ok::<(), tlhtml::Error>(())
    /// ```
    ///
    /// All tags are changed in one pass, and so are all elements. Where both are, the tags come first, and the page is read once more for
    /// the elements; where its tree isn't the same then, as where an `input` in a table is hidden, that is [`Error::OtherTree`].
    pub fn edit_each<'d, C: IntoIterator<Item = Change>>(
        &'d self,
        page: &str,
        selector: impl ToSelector,
        mut function: impl FnMut(Node<'d>) -> C,
    ) -> Result<String, Error> {
        let mut edits = Edits::default();
        for node in self.select(selector)? {
            for change in function(node) {
                edits.add(node, change).map_err(calls::error_of)?;
            }
        }
        if edits.elements.is_empty() {
            return self.with_tags(page, &edits);
        }
        if edits.tags.is_empty() {
            return self.with_elements(page, &edits);
        }
        let page = self.with_tags(page, &edits)?;
        let document = Document::parse(&page)?;
        if !document.tree().is_alike(self.tree()) {
            return Err(Error::OtherTree);
        }
        document.with_elements(&page, &edits)
    }

    // The page with the tags changed.
    fn with_tags(&self, page: &str, edits: &Edits) -> Result<String, Error> {
        let lent = edits.lent_tags().map_err(calls::error_of)?;
        let (at, count) = (lent.as_ptr(), lent.len());
        self.changed(page, |handle, out, room, needed, place, cause| unsafe {
            calls::tl_patch_nodes(
                handle,
                page.as_ptr(),
                page.len(),
                at,
                count,
                out,
                room,
                needed,
                place,
                cause,
            )
        })
    }

    // The page with the elements changed.
    fn with_elements(&self, page: &str, edits: &Edits) -> Result<String, Error> {
        let lent = edits.lent_elements().map_err(calls::error_of)?;
        let (at, count) = (lent.as_ptr(), lent.len());
        self.changed(page, |handle, out, room, needed, place, cause| unsafe {
            calls::tl_edit_nodes(
                handle,
                page.as_ptr(),
                page.len(),
                at,
                count,
                out,
                room,
                needed,
                place,
                cause,
            )
        })
    }

    // What such a call makes of the page.
    fn changed(
        &self,
        page: &str,
        mut call: impl FnMut(*mut Handle, *mut u8, usize, *mut usize, *mut usize, *mut u8) -> u8,
    ) -> Result<String, Error> {
        let (mut place, mut cause) = (0, 0);
        let mut lent = self.lent();
        let handle: *mut Handle = &mut lent.handle;
        calls::text(calls::room_of(page), |out, room, needed| {
            call(handle, out, room, needed, &mut place, &mut cause)
        })
        .map_err(|status| error_of(status, page, place, cause))
    }
}
