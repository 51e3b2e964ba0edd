//! Searches, ranges and queries: what answers numbers of nodes.
use crate::case::Case;
use crate::stop::{Stop, refused, value};
use crate::texts::{Page, steps};
use crate::{Named, measured};
use std::alloc::AllocError;
use tl::errors::TreeError;
use tl::queryselector::{QueryIterable, QuerySelectorIterator, Selector};
use tl::{
    HTMLTag, Node, NodeHandle, Parser, ParserOptions, VDom, Walk, WalkEvent, parse,
    parse_query_selector,
};
use tl_program::script::Step;

/// What is called, of a document or of a tag of it. A search is for the last node of the walk, of
/// which the first bytes are given.
#[derive(Clone, Copy)]
pub enum NumberCall {
    Find(&'static [u8]),
    FindChild(&'static [u8]),
    End,
    Boundaries,
    All,
    LenOfTag,
    LenOfDocument,
    Query(&'static str),
    QueryBelow(&'static str),
    New(&'static str),
    NewBelow(&'static str),
    Clone(&'static str),
    CloneAtEnd(&'static str),
    MatchesIn(&'static str),
    Walk,
    WalkBelow,
}

/// The name of a call, the call, how the document is made, the number of the node, and the numbers
/// that are answered.
pub type Row = (&'static str, NumberCall, Page, u32, &'static [u32]);

/// Handles that rise.
pub const PLAIN: Page = Page {
    text: "<a><b>x<c></c></b><b></b></a>",
    steps: &[],
};

/// Handles that don't rise: the children of the fourth tag are the first and the third, and that of
/// the third is the second.
pub const FALLS: Page = Page {
    text: "<a></a><b></b><c></c><d></d>",
    steps: &[Step::Push(3, 0), Step::Push(3, 2), Step::Push(2, 1)],
};

#[rattlefmt::skip]
static ROWS: [Row; 31] = [
    ("find_node of a node", NumberCall::Find(b"bxcb"), PLAIN, 0, &[4]),
    ("find_node of a node with marks", NumberCall::Find(b"acb"), FALLS, 3, &[1]),
    ("find_node of a tag", NumberCall::FindChild(b"bb"), PLAIN, 0, &[4]),
    ("end", NumberCall::End, PLAIN, 0, &[4]),
    ("end with marks", NumberCall::End, FALLS, 3, &[1]),
    ("boundaries", NumberCall::Boundaries, PLAIN, 0, &[1, 4]),
    ("boundaries with marks", NumberCall::Boundaries, FALLS, 3, &[0, 1]),
    ("all", NumberCall::All, PLAIN, 0, &[4]),
    ("all with marks", NumberCall::All, FALLS, 3, &[2]),
    ("len of a document", NumberCall::LenOfDocument, PLAIN, 0, &[5]),
    ("len of a tag", NumberCall::LenOfTag, PLAIN, 0, &[4]),
    ("len of a tag with marks", NumberCall::LenOfTag, FALLS, 3, &[2]),
    ("query_selector of a document, one part", NumberCall::Query("b"), PLAIN, 0, &[1, 4]),
    ("query_selector of a document, two parts", NumberCall::Query("c, a"), PLAIN, 0, &[0, 3]),
    ("query_selector of a document, ancestors", NumberCall::Query("a > b, b c"), PLAIN, 0, &[1, 3, 4]),
    ("query_selector of a tag, one part", NumberCall::QueryBelow("c"), PLAIN, 0, &[3]),
    ("query_selector of a tag, ancestors", NumberCall::QueryBelow("a > b"), PLAIN, 0, &[1, 4]),
    ("query_selector of a tag with marks", NumberCall::QueryBelow("b"), FALLS, 3, &[1]),
    ("QuerySelectorIterator::new over a document", NumberCall::New("a b"), PLAIN, 0, &[1, 4]),
    ("QuerySelectorIterator::new over a tag", NumberCall::NewBelow("c"), PLAIN, 0, &[3]),
    ("QuerySelectorIterator::new over a tag, ancestors", NumberCall::NewBelow("b c"), PLAIN, 0, &[3]),
    ("QuerySelectorIterator::new over a tag with marks", NumberCall::NewBelow("b"), FALLS, 3, &[1]),
    ("clone of a query, one part", NumberCall::Clone("b"), PLAIN, 0, &[1, 4]),
    ("clone of a query, ancestors", NumberCall::Clone("a > b, b c"), PLAIN, 0, &[1, 3, 4]),
    ("clone of a query at its end, one part", NumberCall::CloneAtEnd("b"), PLAIN, 0, &[1, 4]),
    ("clone of a query at its end, ancestors", NumberCall::CloneAtEnd("a > b, b c"), PLAIN, 0, &[1, 3, 4]),
    ("matches_in, one part", NumberCall::MatchesIn("b"), PLAIN, 4, &[1]),
    ("matches_in, ancestors", NumberCall::MatchesIn("a > b, b c"), PLAIN, 3, &[1]),
    ("each next of a walk", NumberCall::Walk, PLAIN, 0, &[0, 1, 2, 3, 4]),
    ("each next of a walk with marks", NumberCall::Walk, FALLS, 3, &[0, 1, 2, 1, 3, 0, 2, 1]),
    ("each next of a walk below a tag", NumberCall::WalkBelow, PLAIN, 0, &[1, 2, 3, 4]),
];

/// A call that answers numbers, if there is one of this number.
pub fn call(number: usize, case: &mut Case) -> Option<Named> {
    let row = ROWS.get(number)?;
    let (name, _, _, _, _) = *row;
    Some((name, call_on_page(row, case)))
}

fn call_on_page(row: &Row, case: &mut Case) -> Result<(), Stop> {
    let (_, _, page, _, _) = row;
    let mut document = parse(case.alloc(), page.text, ParserOptions::new())?;
    steps(case.alloc(), &mut document, page.steps)?;
    call_on_document(&document, row, case)
}

/// The call of a row on a document that was made as it says.
pub fn call_on_document(document: &VDom<'_>, row: &Row, case: &mut Case) -> Result<(), Stop> {
    let (_, call, _, number, wanted) = *row;
    match call {
        NumberCall::LenOfDocument => {
            let answer = measured!(case, document.len(document.parser()));
            value(are(&[answer?], wanted))
        }
        NumberCall::Query(text) => query(document, text, wanted, case),
        NumberCall::New(text) => new(document, document, text, wanted, case),
        NumberCall::Clone(text) => clone(document, text, wanted, 0, case),
        NumberCall::CloneAtEnd(text) => clone(document, text, wanted, wanted.len(), case),
        NumberCall::MatchesIn(text) => matches_in(document, text, row, case),
        NumberCall::Walk => walk(document.walk(case.alloc()), wanted, case),
        _ => match document.parser().resolve_node_id(number) {
            Some(node) => call_on_node(document, node, row, case),
            None => Err(Stop::WrongValue),
        },
    }
}

fn are(numbers: &[usize], wanted: &[u32]) -> bool {
    if numbers.len() != wanted.len() {
        return false;
    }
    for (number, wanted) in numbers.iter().zip(wanted) {
        if *number != *wanted as usize {
            return false;
        }
    }
    true
}

// Whether a query gives these numbers, and then ends.
fn gives(mut found: QuerySelectorIterator<'_, '_>, wanted: &[u32]) -> bool {
    for number in wanted {
        if found.next() != Some(NodeHandle::new(*number)) {
            return false;
        }
    }
    found.next() == None
}

fn call_on_query(
    answer: Result<Option<QuerySelectorIterator<'_, '_>>, TreeError>,
    wanted: &[u32],
) -> Result<(), Stop> {
    match answer? {
        Some(found) => value(gives(found, wanted)),
        None => Err(Stop::WrongValue),
    }
}

fn query(document: &VDom<'_>, text: &str, wanted: &[u32], case: &mut Case) -> Result<(), Stop> {
    let answer = measured!(case, document.query_selector(case.alloc(), text));
    call_on_query(answer, wanted)
}

fn read<'t>(text: &'t str, case: &Case) -> Result<Selector<'t>, Stop> {
    match parse_query_selector(case.alloc(), text)? {
        Some(selector) => Ok(selector),
        None => Err(Stop::WrongValue),
    }
}

fn new<'x, 'a, Q: QueryIterable<'a>>(
    document: &'x VDom<'a>,
    asked: &Q,
    text: &'x str,
    wanted: &[u32],
    case: &mut Case,
) -> Result<(), Stop> {
    let selector = read(text, case)?;
    let answer = measured!(
        case,
        QuerySelectorIterator::new(selector, document.parser(), asked)
    );
    value(gives(answer?, wanted))
}

// A clone after so many steps.
fn clone<'x>(
    document: &'x VDom<'_>,
    text: &'x str,
    wanted: &[u32],
    taken: usize,
    case: &mut Case,
) -> Result<(), Stop> {
    let Some(mut found) = document.query_selector(case.alloc(), text)? else {
        return Err(Stop::WrongValue);
    };
    for _ in 0..taken {
        found.next();
    }
    clone_query(found, wanted.get(taken..).unwrap_or(&[]), case)
}

fn clone_query<'x, 'a>(
    found: QuerySelectorIterator<'a, 'x>,
    wanted: &[u32],
    case: &mut Case,
) -> Result<(), Stop> {
    let answer =
        measured!(case, found.clone() => Result<QuerySelectorIterator<'a, 'x>, AllocError>);
    let twin = answer?;
    value(gives(twin, wanted) && gives(found, wanted))
}

fn matches_in(document: &VDom<'_>, text: &str, row: &Row, case: &mut Case) -> Result<(), Stop> {
    let (_, _, _, number, wanted) = *row;
    let selector = read(text, case)?;
    let answer = measured!(
        case,
        selector.matches_in(document.parser(), NodeHandle::new(number))
    );
    value(answer? == (wanted == [1].as_slice()))
}

// Where memory was refused, a beginning of the numbers was met, and nothing follows.
fn walk(mut walk: Walk<'_, '_>, wanted: &[u32], case: &mut Case) -> Result<(), Stop> {
    let answer = measured!(case, meets(&mut walk, wanted));
    match answer {
        Err(TreeError::OutOfMemory) => refused(walk.next().is_none()),
        _ => value(answer?),
    }
}

// Whether a walk meets these numbers, and then ends.
fn meets(walk: &mut Walk<'_, '_>, wanted: &[u32]) -> Result<bool, TreeError> {
    let mut left = wanted;
    while let Some(event) = walk.next() {
        if let WalkEvent::Meets(handle, _) = event? {
            let Some((number, rest)) = left.split_first() else {
                return Ok(false);
            };
            if handle != NodeHandle::new(*number) {
                return Ok(false);
            }
            left = rest;
        }
    }
    Ok(left.is_empty())
}

fn call_on_node<'a>(
    document: &VDom<'a>,
    node: &Node<'a>,
    row: &Row,
    case: &mut Case,
) -> Result<(), Stop> {
    let (_, call, _, _, wanted) = *row;
    match call {
        NumberCall::Find(walk) => find(document.parser(), node, walk, wanted, case),
        _ => match node.as_tag() {
            Some(tag) => call_on_tag(document, tag, row, case),
            None => Err(Stop::WrongValue),
        },
    }
}

// What a search has still to show, of which the first bytes are known, and whether all was right
// until now.
#[derive(Drop)]
struct Seen<'w> {
    left: &'w [u8],
    in_order: bool,
}

impl<'w> Seen<'w> {
    fn new(walk: &'w [u8]) -> Self {
        Seen {
            left: walk,
            in_order: true,
        }
    }

    // Whether it is the last.
    fn see(&mut self, node: &Node<'_>) -> bool {
        match self.left.split_first() {
            Some((first, left)) => {
                self.in_order = self.in_order && first_byte(node) == Some(*first);
                self.left = left;
            }
            None => self.in_order = false,
        }
        self.left.is_empty()
    }

    fn is_whole(&self) -> bool {
        self.in_order && self.left.is_empty()
    }
}

// The first byte of a name, a text or a comment.
fn first_byte(node: &Node<'_>) -> Option<u8> {
    let bytes = match node {
        Node::Tag(tag) => tag.name(),
        Node::Raw(bytes) => bytes,
        Node::Comment(bytes) => bytes,
    };
    bytes.as_bytes().first().copied()
}

fn find<'a>(
    parser: &Parser<'a>,
    node: &Node<'a>,
    walk: &[u8],
    wanted: &[u32],
    case: &mut Case,
) -> Result<(), Stop> {
    let mut seen = Seen::new(walk);
    let answer = measured!(case, node.find_node(parser, &mut |shown| seen.see(shown)));
    is_found(answer, &seen, wanted)
}

fn find_child<'a>(
    parser: &Parser<'a>,
    tag: &HTMLTag<'a>,
    walk: &[u8],
    wanted: &[u32],
    case: &mut Case,
) -> Result<(), Stop> {
    let mut seen = Seen::new(walk);
    let answer = measured!(case, tag.find_node(parser, &mut |shown| seen.see(shown)));
    is_found(answer, &seen, wanted)
}

// Where memory was refused, a beginning of the walk was shown.
fn is_found(
    answer: Result<Option<NodeHandle>, TreeError>,
    seen: &Seen<'_>,
    wanted: &[u32],
) -> Result<(), Stop> {
    match answer {
        Ok(Some(handle)) => value(seen.is_whole() && wanted == [handle.get_inner()].as_slice()),
        Ok(None) => Err(Stop::WrongValue),
        Err(TreeError::OutOfMemory) => refused(seen.in_order),
        Err(_) => Err(Stop::WrongError),
    }
}

fn call_on_tag<'a>(
    document: &VDom<'a>,
    tag: &HTMLTag<'a>,
    row: &Row,
    case: &mut Case,
) -> Result<(), Stop> {
    let (_, call, _, _, wanted) = *row;
    match call {
        NumberCall::FindChild(walk) => find_child(document.parser(), tag, walk, wanted, case),
        NumberCall::QueryBelow(text) => query_below(document.parser(), tag, text, wanted, case),
        NumberCall::NewBelow(text) => new(document, tag, text, wanted, case),
        NumberCall::WalkBelow => {
            let below = tag.walk(case.alloc(), document.parser());
            walk(below, wanted, case)
        }
        NumberCall::LenOfTag => {
            let answer = measured!(case, tag.len(document.parser()));
            value(are(&[answer?], wanted))
        }
        _ => range(document.parser(), tag, row, case),
    }
}

fn query_below<'x, 'a>(
    parser: &'x Parser<'a>,
    tag: &'x HTMLTag<'a>,
    text: &'x str,
    wanted: &[u32],
    case: &mut Case,
) -> Result<(), Stop> {
    let answer = measured!(case, tag.query_selector(case.alloc(), parser, text));
    call_on_query(answer, wanted)
}

fn range<'a>(
    parser: &Parser<'a>,
    tag: &HTMLTag<'a>,
    row: &Row,
    case: &mut Case,
) -> Result<(), Stop> {
    let (_, call, _, _, wanted) = *row;
    match call {
        NumberCall::End => end(parser, tag, wanted, case),
        NumberCall::Boundaries => boundaries(parser, tag, wanted, case),
        _ => all(parser, tag, wanted, case),
    }
}

fn end(
    parser: &Parser<'_>,
    tag: &HTMLTag<'_>,
    wanted: &[u32],
    case: &mut Case,
) -> Result<(), Stop> {
    let children = tag.children();
    let answer = measured!(case, children.end(parser));
    is_end(answer?, wanted)
}

fn boundaries(
    parser: &Parser<'_>,
    tag: &HTMLTag<'_>,
    wanted: &[u32],
    case: &mut Case,
) -> Result<(), Stop> {
    let children = tag.children();
    let answer = measured!(case, children.boundaries(parser));
    are_boundaries(answer?, wanted)
}

fn all<'a>(
    parser: &Parser<'a>,
    tag: &HTMLTag<'a>,
    wanted: &[u32],
    case: &mut Case,
) -> Result<(), Stop> {
    let children = tag.children();
    let answer = measured!(case, children.all(parser).map(|nodes| nodes.len()));
    value(are(&[answer?], wanted))
}

fn is_end(end: Option<u32>, wanted: &[u32]) -> Result<(), Stop> {
    match end {
        Some(end) => value(wanted == [end].as_slice()),
        None => Err(Stop::WrongValue),
    }
}

fn are_boundaries(boundaries: Option<(u32, u32)>, wanted: &[u32]) -> Result<(), Stop> {
    match boundaries {
        Some((first, end)) => value(wanted == [first, end].as_slice()),
        None => Err(Stop::WrongValue),
    }
}
