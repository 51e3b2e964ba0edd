//! Nodes.
use crate::calls::{self, OfNode};
use crate::document::{Select, lent_text};
use crate::table;
use crate::tree::Tree;
use crate::{Document, Error, ToSelector};
use std::borrow::Cow;
use std::fmt;
use std::hash::{Hash, Hasher};
use std::iter::{FusedIterator, successors};
use std::ops::Range;

/// What a node is.
#[derive(Clone, Copy, Debug, PartialEq, Eq, Hash)]
pub enum Kind {
    Element,
    Text,
    Comment,
    Doctype,
    /// The contents of a `template`: the one child of that element, in which stands what is written in it.
    Contents,
}

/// The namespace of an element.
#[derive(Clone, Copy, Debug, PartialEq, Eq, Hash)]
pub enum Namespace {
    Html,
    Svg,
    MathMl,
}

/// A node of a document: an element, a text, a comment, a doctype, or the contents of a `template`.
///
/// ```
/// let document = tlhtml::Document::parse("<ul><LI id=a class='b c'>one &amp; two")?;
/// let item = document.first("li")?.unwrap();
/// assert_eq!((item.name(), item.attr("id"), item.attr("title")), (Some("li"), Some("a"), None));
/// assert!(item.classes().eq(["b", "c"]));
/// assert_eq!(format!("{item:?}"), r#"Node(4: <li id="a" class="b c">)"#);
/// # Ok::<(), tlhtml::Error>(())
/// ```
#[derive(Clone, Copy)]
pub struct Node<'d> {
    document: &'d Document,
    number: u32,
}

impl<'d> Node<'d> {
    pub(crate) fn new(document: &'d Document, number: u32) -> Node<'d> {
        Node { document, number }
    }

    fn tree(self) -> &'d Tree {
        self.document.tree()
    }

    /// Its number: nodes are counted from 0 in document order.
    pub fn number(self) -> u32 {
        self.number
    }

    pub fn kind(self) -> Kind {
        match self.tree().kind(self.number) {
            1 => Kind::Element,
            2 => Kind::Text,
            3 => Kind::Comment,
            4 => Kind::Doctype,
            _ => Kind::Contents,
        }
    }

    /// The namespace of an element.
    pub fn namespace(self) -> Option<Namespace> {
        match self.tree().namespace(self.number) {
            1 => Some(Namespace::Html),
            2 => Some(Namespace::Svg),
            3 => Some(Namespace::MathMl),
            _ => None,
        }
    }

    // The name of an element, and its keys and values; nothing of any other node.
    fn tag(self) -> Option<std::str::Split<'d, char>> {
        (self.kind() == Kind::Element).then(|| self.tree().part(self.number).split('\0'))
    }

    /// The name of an element, of HTML in lower case; `None` of any other node.
    pub fn name(self) -> Option<&'d str> {
        self.tag()?.next()
    }

    /// The value at a key, as `xlink:href`, whose letters count in any case at an element of HTML; `None` where there is no such key.
    pub fn attr(self, key: &str) -> Option<&'d str> {
        let key = self.key(key);
        self.attrs().find(|it| it.0 == key).map(|it| it.1)
    }

    /// Whether a key stands there, with a value or without one.
    pub fn has_attr(self, key: &str) -> bool {
        self.attr(key).is_some()
    }

    // A key as it stands there: of an element of HTML in lower case.
    fn key(self, key: &str) -> Cow<'_, str> {
        let is_upper = key.bytes().any(|it| it.is_ascii_uppercase());
        if is_upper && self.namespace() == Some(Namespace::Html) {
            return Cow::Owned(key.to_ascii_lowercase());
        }
        Cow::Borrowed(key)
    }

    /// The keys and values of an element in the order of its tag, with keys as they are serialized (`xlink:href` in a `svg`); a key alone,
    /// as `hidden`, has the empty value. Any other node has none.
    pub fn attrs(self) -> Attrs<'d> {
        let mut words = self.tag().unwrap_or_else(|| "".split('\0'));
        words.next();
        Attrs { words }
    }

    /// The words of its class.
    pub fn classes(self) -> impl Iterator<Item = &'d str> + Clone {
        let class = self.attr("class").unwrap_or_default();
        class.split_ascii_whitespace()
    }

    /// What each text below it says, in order, without those in a `template` below it. A text and a comment have themselves.
    ///
    /// ```
    /// let document = tlhtml::Document::parse("<p>one <b>two</b>")?;
    /// assert!(document.first("p")?.unwrap().text().eq(["one ", "two"]));
    /// # Ok::<(), tlhtml::Error>(())
    /// ```
    pub fn text(self) -> Texts<'d> {
        match self.kind() {
            Kind::Text | Kind::Comment => Texts {
                document: self.document,
                own: Some(self.number),
                below: 0..0,
            },
            _ => Texts::new(self.document, self.number + 1..self.tree().end(self.number)),
        }
    }

    /// The same without white space around each, and without those that are white space alone.
    pub fn stripped_text(self) -> impl Iterator<Item = &'d str> + Clone {
        self.text().map(str::trim).filter(|it| !it.is_empty())
    }

    /// The texts below it that hold a text, in order, without those in a `template` below it.
    pub fn find_text(self, wanted: &str) -> impl Iterator<Item = Node<'d>> {
        self.text()
            .numbered()
            .filter(move |(_, text)| text.contains(wanted))
            .map(move |(number, _)| Node::new(self.document, number))
    }

    /// The text of what is below it as a browser shows it without style sheets, as `tl text -w` has it: blocks on lines of their own, one
    /// space between words, without scripts and styles.
    pub fn readable_text(self) -> Result<String, Error> {
        self.bytes(calls::tl_node_readable_text)
    }

    /// It as markup, as browsers serialize it.
    pub fn html(self) -> Result<String, Error> {
        self.bytes(calls::tl_node_outer_html)
    }

    /// What is inside as markup, of a `template` its contents. Nothing is inside of a text, a comment or a doctype.
    pub fn inner_html(self) -> Result<String, Error> {
        self.bytes(calls::tl_node_inner_html)
    }

    /// An array of JSON that has it with what is below it, as `tl select --json --tree` writes it.
    ///
    /// ```
    /// let document = tlhtml::Document::parse("<p id=x>")?;
    /// let paragraph = document.first("p")?.unwrap();
    /// assert_eq!(paragraph.json()?, r#"[{"attributes":{"id":"x"},"name":"p","node":3,"start":0,"end":8,"children":[]}]"#);
    /// # Ok::<(), tlhtml::Error>(())
    /// ```
    pub fn json(self) -> Result<String, Error> {
        self.bytes(calls::tl_node_json)
    }

    // What such a call answers of it.
    fn bytes(self, call: OfNode) -> Result<String, Error> {
        self.document
            .answered(calls::text_in, |document, out, room, needed| unsafe {
                call(document, self.number, out, room, needed)
            })
            .map_err(calls::error_of)
    }

    /// The rows of a `table`, each with a text for each column: the readable text of the cell that covers the place, so that one that
    /// spans several says it in each; the empty one where none does. It is what `tl table` writes as CSV. `None` of any other node; where
    /// the table has far more places than its page has bytes that is [`Error::OutOfProportion`].
    ///
    /// ```
    /// let document = tlhtml::Document::parse("<table><tr><th rowspan=2>a<td>1<tr><td>2</table>")?;
    /// assert_eq!(document.first("table")?.unwrap().rows()?.unwrap(), [["a", "1"], ["a", "2"]]);
    /// # Ok::<(), tlhtml::Error>(())
    /// ```
    pub fn rows(self) -> Result<Option<Vec<Vec<String>>>, Error> {
        let limit = self.document.table_limit();
        let rows = self
            .document
            .answered(table::rows_in, |document, out, room, needed| unsafe {
                calls::tl_table_csv(document, self.number, limit, out, room, needed)
            });
        match rows {
            Ok(rows) => Ok(Some(rows)),
            Err(calls::REFUSED) => Ok(None),
            Err(calls::NOT_UNDERSTOOD) => Err(Error::OutOfProportion),
            Err(status) => Err(calls::error_of(status)),
        }
    }

    /// The bytes of the page that it comes from: of an element its start tag, of a comment and of a doctype all of it, of a text what
    /// stands between the two tags, comments or doctypes where it begins. `None` where no tag stands for the element, as for a `tbody`
    /// that browsers put in, and for the contents of a `template`.
    ///
    /// ```
    /// let page = "<table><TR id=a><td>x";
    /// let document = tlhtml::Document::parse(page)?;
    /// let row = document.first("table > tbody > tr")?.unwrap();
    /// assert_eq!(&page[row.source().unwrap()], "<TR id=a>");
    /// assert_eq!(row.parent().unwrap().source(), None);
    /// # Ok::<(), tlhtml::Error>(())
    /// ```
    pub fn source(self) -> Option<Range<usize>> {
        let (mut start, mut end) = (0, 0);
        let handle = &mut self.document.lent().handle;
        let status = unsafe { calls::tl_node_source(handle, self.number, &mut start, &mut end) };
        (status == calls::DONE).then_some(start..end)
    }

    /// The line of the page, from 1, where what it comes from begins, and how many bytes stand before it there; `page` is the page.
    ///
    /// ```
    /// let page = "<ul>\n  <li>x";
    /// let document = tlhtml::Document::parse(page)?;
    /// assert_eq!(document.first("li")?.unwrap().line_of(page), Some((2, 2)));
    /// # Ok::<(), tlhtml::Error>(())
    /// ```
    pub fn line_of(self, page: &str) -> Option<(usize, usize)> {
        Some(calls::line_of(page, self.source()?.start))
    }

    /// The node that it stands in.
    pub fn parent(self) -> Option<Node<'d>> {
        self.linked(self.tree().parent(self.number))
    }

    /// The first node in it.
    pub fn first_child(self) -> Option<Node<'d>> {
        let first = self.number + 1;
        self.linked(Some(first).filter(|it| *it < self.tree().end(self.number)))
    }

    /// The node behind it in what it stands in.
    pub fn next_sibling(self) -> Option<Node<'d>> {
        self.linked(self.tree().next_sibling(self.number))
    }

    /// The node before it there. That takes a time linear in how deep the tree is.
    pub fn prev_sibling(self) -> Option<Node<'d>> {
        self.linked(self.tree().previous_sibling(self.number))
    }

    /// Those behind it there, in order.
    pub fn next_siblings(self) -> impl FusedIterator<Item = Node<'d>> + Clone {
        successors(self.next_sibling(), |it| it.next_sibling())
    }

    /// Those before it there, from the nearest on.
    pub fn prev_siblings(self) -> impl FusedIterator<Item = Node<'d>> + Clone {
        successors(self.prev_sibling(), |it| it.prev_sibling())
    }

    // The node of a number, if there is one.
    fn linked(self, number: Option<u32>) -> Option<Node<'d>> {
        number.map(|it| Node::new(self.document, it))
    }

    /// The nodes in it, in order.
    pub fn children(self) -> Children<'d> {
        Children::new(self.first_child())
    }

    /// The nodes that it stands in, from the innermost out.
    pub fn ancestors(self) -> impl FusedIterator<Item = Node<'d>> + Clone {
        successors(self.parent(), |it| it.parent())
    }

    /// All nodes below it, in document order; it is none of them.
    pub fn descendants(
        self,
    ) -> impl DoubleEndedIterator<Item = Node<'d>> + ExactSizeIterator + FusedIterator + Clone {
        self.document
            .nodes_of(self.number + 1..self.tree().end(self.number))
    }

    /// The elements below it that match a CSS selector, in order, without those in a `template` below it. The selector is asked of the
    /// whole page, so it may name what stands around. `:scope` is the node, and `> li` is `:scope > li`.
    ///
    /// ```
    /// let document = tlhtml::Document::parse("<ul><li>1<ul><li>2</ul></ul>")?;
    /// let list = document.first("ul")?.unwrap();
    /// assert_eq!(list.select("li")?.len(), 2);
    /// assert_eq!(list.select("> li")?, list.select(":scope > li")?);
    /// assert_eq!(list.select("> li")?.len(), 1);
    /// # Ok::<(), tlhtml::Error>(())
    /// ```
    pub fn select(self, selector: impl ToSelector) -> Result<Select<'d>, Error> {
        let node = self.number;
        if let Some(mut compiled) = selector.compiled(true) {
            let own = compiled.handle();
            return self
                .document
                .selected(|handle, numbers, room, needed, _, _| unsafe {
                    calls::tl_compiled_select_below(handle, node, own, numbers, room, needed)
                });
        }
        let (at, len) = lent_text(selector.text());
        self.document
            .selected(|handle, numbers, room, needed, place, cause| unsafe {
                calls::tl_node_select_css(
                    handle, node, at, len, numbers, room, needed, place, cause,
                )
            })
    }

    /// The first of them.
    pub fn first(self, selector: impl ToSelector) -> Result<Option<Node<'d>>, Error> {
        if let Some(mut compiled) = selector.compiled(true) {
            return self.document.selected_one(|handle, number, _, _| unsafe {
                calls::tl_compiled_first_below(handle, self.number, compiled.handle(), number)
            });
        }
        let (at, len) = lent_text(selector.text());
        self.document
            .selected_one(|handle, number, place, cause| unsafe {
                calls::tl_node_first_css(handle, self.number, at, len, number, place, cause)
            })
    }

    /// Of it and the elements that it stands in the innermost one that matches a CSS selector. `:scope` is the node.
    pub fn closest(self, selector: impl ToSelector) -> Result<Option<Node<'d>>, Error> {
        if let Some(mut compiled) = selector.compiled(false) {
            return self.document.selected_one(|handle, number, _, _| unsafe {
                calls::tl_compiled_closest(handle, self.number, compiled.handle(), number)
            });
        }
        let (at, len) = lent_text(selector.text());
        self.document
            .selected_one(|handle, number, place, cause| unsafe {
                calls::tl_node_closest_css(handle, self.number, at, len, number, place, cause)
            })
    }

    /// Whether it matches a CSS selector. All but one of a type, ids, classes and attributes (`li.a[href]`) is asked of the whole page.
    pub fn matches(self, selector: impl ToSelector) -> Result<bool, Error> {
        let (at, len) = lent_text(selector.text());
        let compiled = selector.compiled(false);
        self.document.by_selector(|lent, place, cause| {
            let (handle, node, mut matches): (*mut _, _, _) = (&mut lent.handle, self.number, 0);
            match unsafe {
                match compiled {
                    Some(mut own) => {
                        calls::tl_compiled_matches(handle, node, own.handle(), &mut matches)
                    }
                    None => calls::tl_node_matches_css(
                        handle,
                        node,
                        at,
                        len,
                        &mut matches,
                        place,
                        cause,
                    ),
                }
            } {
                calls::DONE => Ok(matches == 1),
                status => Err(status),
            }
        })
    }
}

impl PartialEq for Node<'_> {
    /// Whether they are the same node of the same document.
    fn eq(&self, other: &Self) -> bool {
        std::ptr::eq(self.document, other.document) && self.number == other.number
    }
}

impl Eq for Node<'_> {}

impl Hash for Node<'_> {
    fn hash<H: Hasher>(&self, state: &mut H) {
        std::ptr::hash(self.document, state);
        self.number.hash(state);
    }
}

impl fmt::Debug for Node<'_> {
    fn fmt(&self, f: &mut fmt::Formatter<'_>) -> fmt::Result {
        write!(f, "Node({}: ", self.number)?;
        let said = || self.text().next().unwrap_or_default();
        match self.kind() {
            Kind::Element => {
                write!(f, "<{}", self.name().unwrap_or_default())?;
                for (key, value) in self.attrs() {
                    write!(f, " {key}={value:?}")?;
                }
                f.write_str(">")?;
            }
            Kind::Text => write!(f, "{:?}", said())?,
            Kind::Comment => write!(f, "<!--{}-->", said())?,
            Kind::Doctype => f.write_str("doctype")?,
            Kind::Contents => f.write_str("contents")?,
        }
        f.write_str(")")
    }
}

/// The keys and values of an element.
#[derive(Clone, Debug)]
pub struct Attrs<'d> {
    words: std::str::Split<'d, char>,
}

impl<'d> Iterator for Attrs<'d> {
    type Item = (&'d str, &'d str);

    fn next(&mut self) -> Option<(&'d str, &'d str)> {
        Some((self.words.next()?, self.words.next()?))
    }
}

impl FusedIterator for Attrs<'_> {}

/// What texts say, in order.
#[derive(Clone)]
pub struct Texts<'d> {
    document: &'d Document,
    // A text or a comment that is asked itself.
    own: Option<u32>,
    below: Range<u32>,
}

impl<'d> Texts<'d> {
    // The texts among some nodes, without those in a `template`.
    pub(crate) fn new(document: &'d Document, below: Range<u32>) -> Texts<'d> {
        Texts {
            document,
            own: None,
            below,
        }
    }

    // The number of the next one.
    fn next_number(&mut self) -> Option<u32> {
        if let Some(own) = self.own.take() {
            return Some(own);
        }
        let tree = self.document.tree();
        while let Some(at) = self.below.next() {
            match Node::new(self.document, at).kind() {
                Kind::Text => return Some(at),
                Kind::Contents => self.below.start = tree.end(at),
                _ => {}
            }
        }
        None
    }

    // The same with their numbers.
    pub(crate) fn numbered(mut self) -> impl Iterator<Item = (u32, &'d str)> {
        std::iter::from_fn(move || {
            let number = self.next_number()?;
            Some((number, self.document.tree().part(number)))
        })
    }
}

impl<'d> Iterator for Texts<'d> {
    type Item = &'d str;

    fn next(&mut self) -> Option<&'d str> {
        let number = self.next_number()?;
        Some(self.document.tree().part(number))
    }
}

impl FusedIterator for Texts<'_> {}

impl fmt::Debug for Texts<'_> {
    fn fmt(&self, f: &mut fmt::Formatter<'_>) -> fmt::Result {
        f.debug_list().entries(self.clone()).finish()
    }
}

/// Nodes that stand one behind the other.
#[derive(Clone, Debug)]
pub struct Children<'d> {
    next: Option<Node<'d>>,
}

impl<'d> Children<'d> {
    pub(crate) fn new(first: Option<Node<'d>>) -> Children<'d> {
        Children { next: first }
    }
}

impl<'d> Iterator for Children<'d> {
    type Item = Node<'d>;

    fn next(&mut self) -> Option<Node<'d>> {
        let node = self.next?;
        self.next = node.next_sibling();
        Some(node)
    }
}

impl FusedIterator for Children<'_> {}
