//! Selectors of very many parts.
use crate::deep::repeat;
use crate::wrong::{Wrong, expect};
use std::alloc::Global;
use tl::queryselector::{QuerySelectorIterator, Selector};
use tl::{NodeHandle, ParserOptions, VDom, parse, parse_query_selector};
use tl_program::script::{Step, run};

// What is repeated, what stands after it, and the nodes that are found where the first tag is its
// own child and has the second as a child too: none where the text is no selector.
type Row = (&'static str, &'static str, Option<&'static [u32]>);

static ROWS: [Row; 16] = [
    ("*", "b", Some(&[1])),
    (".k", "", Some(&[])),
    ("* ", "b", Some(&[1])),
    ("a ", "*", Some(&[0, 1])),
    ("b ", "*", Some(&[])),
    ("* > ", "b", Some(&[1])),
    ("a>", "*", Some(&[0, 1])),
    ("*,", "b", Some(&[0, 1])),
    ("q, ", "b", Some(&[1])),
    ("a > a *, ", "q", Some(&[0, 1])),
    ("[a*=\"\"]", "", Some(&[])),
    ("*", "!", None),
    ("* ", "!", None),
    ("* > ", "", None),
    ("*,", "", None),
    ("* ", ",", None),
];

/// Selectors that repeat a part so many times are read, shown, cloned, asked and dropped.
pub fn all(alloc: Global, count: u32) -> Result<(), Wrong> {
    let mut document = parse(alloc, "<a></a><b></b>", ParserOptions::new())?;
    let steps = [Step::Push(0, 0), Step::Push(0, 1)];
    expect(
        run(alloc, &mut document, &steps).is_ok(),
        "the steps are taken",
    )?;
    for row in &ROWS {
        check_row(alloc, &document, row, count)?;
    }
    Ok(())
}

fn check_row(alloc: Global, document: &VDom<'_>, row: &Row, count: u32) -> Result<(), Wrong> {
    let (part, end, wanted) = *row;
    let text = repeat(alloc, part, count, end)?;
    match (parse_query_selector(alloc, text.as_str())?, wanted) {
        (Some(selector), Some(wanted)) => check_selector(alloc, document, selector, wanted),
        (None, None) => Ok(()),
        _ => Err(Wrong::Answer("a text says a selector, or none")),
    }
}

fn check_selector<'b>(
    alloc: Global,
    document: &'b VDom<'_>,
    selector: Selector<'b>,
    wanted: &[u32],
) -> Result<(), Wrong> {
    let twin = selector.clone()?;
    shown_alike(alloc, &selector, &twin)?;
    check_matches(document, &twin, wanted)?;
    check_query(document, twin, wanted)?;
    check_query(document, selector, wanted)
}

fn shown_alike(alloc: Global, first: &Selector<'_>, second: &Selector<'_>) -> Result<(), Wrong> {
    let shown = format!(in alloc; "{first:?}")?;
    let twin = format!(in alloc; "{second:?}")?;
    expect(
        shown.as_str() == twin.as_str(),
        "a clone has the same debug text",
    )
}

// It holds at these nodes of the document.
fn check_matches(
    document: &VDom<'_>,
    selector: &Selector<'_>,
    wanted: &[u32],
) -> Result<(), Wrong> {
    for number in 0..2 {
        let holds = selector.matches_in(document.parser(), NodeHandle::new(number))?;
        expect(
            holds == wanted.contains(&number),
            "a selector holds where it must",
        )?;
    }
    Ok(())
}

// A query gives these nodes, and so does a clone of it.
fn check_query<'b>(
    document: &'b VDom<'_>,
    selector: Selector<'b>,
    wanted: &[u32],
) -> Result<(), Wrong> {
    let found = QuerySelectorIterator::new(selector, document.parser(), document)?;
    let twin = found.clone()?;
    check_nodes(found, wanted)?;
    check_nodes(twin, wanted)
}

fn check_nodes(mut found: QuerySelectorIterator<'_, '_>, wanted: &[u32]) -> Result<(), Wrong> {
    for number in wanted {
        expect(
            found.next() == Some(NodeHandle::new(*number)),
            "a query finds the nodes where the selector holds",
        )?;
    }
    expect(found.next() == None, "a query finds no other nodes")
}
