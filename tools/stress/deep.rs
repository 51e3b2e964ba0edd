//! Tables that are very deep or very wide, and handles that fall, dangle and go in a circle.
use crate::wrong::{Wrong, expect};
use std::alloc::{AllocError, Global};
use tl::errors::TreeError;
use tl::queryselector::QuerySelectorIterator;
use tl::{Bytes, HTMLTag, Node, NodeHandle, ParserOptions, VDom, parse, parse_owned};
use tl_program::script::{Step, run};

// The tag that is sought.
const SOUGHT: &str = "<p id=i class=k>";

// What its print has and that of `<p>` has not.
const OF_SOUGHT: usize = 17;

// What is printed of `<p>`.
const OF_TAG: usize = 7;

/// A text so many times, and what stands after it.
pub fn repeat(alloc: Global, text: &str, count: u32, end: &str) -> Result<String, AllocError> {
    let mut made = String::new(alloc);
    for _ in 0..count {
        made.push_str(text)?;
    }
    made.push_str(end)?;
    Ok(made)
}

/// A page of so many tags, each in the one before it.
pub fn check_nested(alloc: Global, count: u32) -> Result<(), Wrong> {
    let page = repeat(alloc, "<p>", count.saturating_sub(1), SOUGHT)?;
    check_page(alloc, page.as_str(), count)
}

/// A page of so many tags, all but the first in that one.
pub fn check_wide(alloc: Global, count: u32) -> Result<(), Wrong> {
    let mut page = String::from_str(alloc, "<p>")?;
    let others = repeat(alloc, "<p></p>", count.saturating_sub(2), SOUGHT)?;
    page.push_str(others.as_str())?;
    check_page(alloc, page.as_str(), count)
}

// A page of so many tags, of which the first has all others below it and the last is the one that
// is sought: it is read, printed, and its print is read again and is edited.
fn check_page(alloc: Global, page: &str, count: u32) -> Result<(), Wrong> {
    let mut print = String::new(alloc);
    check_borrowed(alloc, page, count, &mut print)?;
    let tags = (count as usize).saturating_mul(OF_TAG);
    expect(
        print.len() == tags.saturating_add(OF_SOUGHT),
        "the print is as long as its tags are",
    )?;
    let mut again = String::new(alloc);
    check_kept(alloc, print.as_str(), count, &mut again)?;
    expect(
        again.as_str() == print.as_str(),
        "the print is read as a document that prints the same",
    )?;
    check_edits(alloc, page, count)
}

// A document that borrows its text and tracks nothing.
fn check_borrowed(alloc: Global, text: &str, count: u32, print: &mut String) -> Result<(), Wrong> {
    let document = parse(alloc, text, ParserOptions::new())?;
    check_search(alloc, &document, count, print)
}

// A document that keeps its text, and tracks ids and classes.
fn check_kept(alloc: Global, text: &str, count: u32, print: &mut String) -> Result<(), Wrong> {
    let options = ParserOptions::new().track_ids().track_classes();
    let guard = parse_owned(alloc, String::from_str(alloc, text)?, options)?;
    check_search(alloc, guard.get_ref(), count, print)
}

// What is looked for in a document is found. Writes its print.
fn check_search(
    alloc: Global,
    document: &VDom<'_>,
    count: u32,
    print: &mut String,
) -> Result<(), Wrong> {
    let last = count.saturating_sub(1);
    let below = last as usize;
    expect(
        document.nodes().len() == count as usize && document.children().len() == 1,
        "each tag is a node, and one stands at the top",
    )?;
    check_lookup(document, NodeHandle::new(last))?;
    check_first(alloc, document, last)?;
    walks(alloc, document, 0, below)?;
    queries(alloc, document, below)?;
    let made = document.outer_html(alloc)?;
    print.push_str(made.as_str())?;
    Ok(())
}

// The range of the first tag is all others, up to the last, and a query of it finds them.
fn check_first(alloc: Global, document: &VDom<'_>, last: u32) -> Result<(), Wrong> {
    let first = tag_of(document, 0)?;
    ranges(document, first, last)?;
    let found = first.query_selector(alloc, document.parser(), "p")?;
    expect(
        count(found) == last as usize,
        "a query of the first tag finds all others",
    )
}

// The tag of a number.
fn tag_of<'d, 'a>(document: &'d VDom<'a>, number: u32) -> Result<&'d HTMLTag<'a>, Wrong> {
    match NodeHandle::new(number).get(document.parser()) {
        Some(Node::Tag(tag)) => Ok(tag),
        _ => Err(Wrong::Answer("the number is that of a tag")),
    }
}

// The tag that is sought is found by its id and by its class.
fn check_lookup(document: &VDom<'_>, sought: NodeHandle) -> Result<(), Wrong> {
    expect(
        document.get_element_by_id(Bytes::from("i")) == Some(sought),
        "the tag of the id is found",
    )?;
    expect(
        document.get_element_by_id(Bytes::from("z")) == None,
        "no tag is found of another id",
    )?;
    let mut found = document.get_elements_by_class_name("k");
    expect(
        found.next() == Some(sought) && found.next() == None,
        "the tag of the class is found",
    )
}

// The last node is the end of the first tag's range.
fn ranges<'a>(document: &VDom<'a>, tag: &HTMLTag<'a>, last: u32) -> Result<(), Wrong> {
    let parser = document.parser();
    let children = tag.children();
    let end = children.end(parser)?;
    let count = children.all(parser).map(|nodes| nodes.len())?;
    expect(
        end == Some(last) && count == last as usize,
        "the range of the first tag is all others",
    )
}

// How many nodes a search below the node of a number is shown.
fn shown_below(document: &VDom<'_>, number: u32) -> Result<usize, Wrong> {
    let Some(node) = NodeHandle::new(number).get(document.parser()) else {
        return Err(Wrong::Answer("the number is that of a node"));
    };
    let mut shown = 0usize;
    node.find_node(
        document.parser(),
        &mut |_| {
            shown = shown.saturating_add(1);
            false
        },
    )?;
    Ok(shown)
}

// A search below the node of a number is shown so many nodes, and there is no text.
fn walks(alloc: Global, document: &VDom<'_>, number: u32, below: usize) -> Result<(), Wrong> {
    expect(
        shown_below(document, number)? == below,
        "a search is shown all nodes below",
    )?;
    let text = tag_of(document, number)?.inner_text(alloc, document.parser())?;
    expect(text.is_empty(), "there is no text")
}

// How many nodes a query finds.
fn count(found: Option<QuerySelectorIterator<'_, '_>>) -> usize {
    let mut count = 0usize;
    if let Some(found) = found {
        for _ in found {
            count = count.saturating_add(1);
        }
    }
    count
}

// How many of the tags a query finds, where the first has all others below it.
#[derive(Clone, Copy)]
enum Found {
    All,
    AllBelow,
    One,
    Nothing,
}

static QUERIES: [(&str, Found); 6] = [
    ("p", Found::All),
    ("p p", Found::AllBelow),
    ("p > p", Found::AllBelow),
    ("p > p, p p", Found::AllBelow),
    ("p.k#i", Found::One),
    ("q p", Found::Nothing),
];

// So many, where so many tags stand below the first.
fn wanted_count(found: Found, below: usize) -> usize {
    match found {
        Found::All => below.saturating_add(1),
        Found::AllBelow => below,
        Found::One => 1,
        Found::Nothing => 0,
    }
}

fn queries(alloc: Global, document: &VDom<'_>, below: usize) -> Result<(), Wrong> {
    for (selector, tags) in &QUERIES {
        let found = document.query_selector(alloc, selector)?;
        expect(
            count(found) == wanted_count(*tags, below),
            "a query of the document finds as many nodes as there are",
        )?;
    }
    Ok(())
}

// The page is edited: its last tag gets the first as a child, or a handle that dangles.
fn check_edits(alloc: Global, page: &str, count: u32) -> Result<(), Wrong> {
    let last = count.saturating_sub(1);
    let name = Step::Name(0, b"b");
    let first = NodeHandle::new(0);
    let steps = [name, Step::Push(last, 0)];
    faulty(alloc, page, &steps, TreeError::Cycle(first))?;
    let dangling = NodeHandle::new(count);
    let steps = [name, Step::Push(last, count)];
    faulty(alloc, page, &steps, TreeError::Dangling(dangling))
}

// After these steps the print of the page has this fault, and there is no range of the first tag.
fn faulty(alloc: Global, page: &str, steps: &[Step<'_>], fault: TreeError) -> Result<(), Wrong> {
    let mut document = parse(alloc, page, ParserOptions::new())?;
    expect_taken(run(alloc, &mut document, steps).is_ok())?;
    expect(
        document.outer_html(alloc) == Err(fault) && document.inner_text(alloc) == Err(fault),
        "the fault of the edited table is met",
    )?;
    let tag = tag_of(&document, 0)?;
    expect(
        tag.name().eq_str("b") && tag.children().end(document.parser()).is_err(),
        "the edited table has no range",
    )
}

fn expect_taken(ok: bool) -> Result<(), Wrong> {
    expect(ok, "the steps are taken")
}

/// A table of so many tags, each the child of the one after it.
pub fn check_falling(alloc: Global, count: u32) -> Result<(), Wrong> {
    let page = repeat(alloc, "<p></p>", count, "")?;
    let mut document = parse(alloc, page.as_str(), ParserOptions::new())?;
    let mut steps = Vec::new(alloc);
    for number in 1..count {
        steps.push(Step::Push(number, number - 1))?;
    }
    expect_taken(run(alloc, &mut document, steps.as_slice()).is_ok())?;
    check_last(alloc, &document, count.saturating_sub(1))
}

// The last tag has all others below it, and no range.
fn check_last(alloc: Global, document: &VDom<'_>, last: u32) -> Result<(), Wrong> {
    let below = last as usize;
    let tag = tag_of(document, last)?;
    let children = tag.children();
    let end = children.end(document.parser())?;
    expect(end == Some(0), "the way falls to the first tag")?;
    walks(alloc, document, last, below)?;
    let print = tag.outer_html(alloc, document.parser())?;
    expect(
        print.len() == below.saturating_add(1).saturating_mul(OF_TAG),
        "the print of the last tag has all others",
    )?;
    let found = document.query_selector(alloc, "p p")?;
    expect(count(found) == below, "all but the last have ancestors")
}
