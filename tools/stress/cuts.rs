//! Pages that are cut at each character boundary.
use crate::wrong::{Wrong, expect};
use std::alloc::Global;
use tl::{Attributes, Bytes, Node, ParserOptions, VDom, parse, parse_owned};

// Nodes and attributes together.
fn size(document: &VDom<'_>) -> usize {
    let mut size = document.nodes().len();
    for node in document.nodes() {
        if let Node::Tag(tag) = node {
            size = size.saturating_add(tag.attributes().len());
        }
    }
    size
}

// Whether a key isn't empty and its value has no `"` in it.
fn is_tame(key: &Bytes<'_>, value: Option<&Bytes<'_>>) -> bool {
    let is_quoted = match value {
        Some(value) => value.as_bytes().contains(&b'"'),
        None => false,
    };
    !key.as_bytes().is_empty() && !is_quoted
}

fn are_tame(attributes: &Attributes<'_>) -> bool {
    for pair in attributes.iter() {
        if !is_tame(&pair.0, pair.1) {
            return false;
        }
    }
    true
}

// Whether a document that was just read is clean.
fn is_clean(document: &VDom<'_>) -> bool {
    for node in document.nodes() {
        if let Node::Tag(tag) = node {
            if tag.name().eq_str("command") || !are_tame(tag.attributes()) {
                return false;
            }
        }
    }
    true
}

// Writes the print of a document that was read of so many bytes, and answers whether it is clean.
fn look(
    alloc: Global,
    document: &VDom<'_>,
    bytes: usize,
    print: &mut String,
) -> Result<bool, Wrong> {
    expect(
        size(document) <= bytes,
        "nodes and attributes together are at most the bytes",
    )?;
    let made = document.outer_html(alloc)?;
    print.push_str(made.as_str())?;
    Ok(is_clean(document))
}

fn read_borrowed(
    alloc: Global,
    text: &str,
    options: ParserOptions,
    print: &mut String,
) -> Result<bool, Wrong> {
    let document = parse(alloc, text, options)?;
    look(alloc, &document, text.len(), print)
}

fn read_kept(
    alloc: Global,
    text: &str,
    options: ParserOptions,
    print: &mut String,
) -> Result<bool, Wrong> {
    let guard = parse_owned(alloc, String::from_str(alloc, text)?, options)?;
    look(alloc, guard.get_ref(), text.len(), print)
}

// A text is read both ways, with these options, and what is printed of it is read again.
fn read(alloc: Global, text: &str, options: ParserOptions) -> Result<(), Wrong> {
    let mut print = String::new(alloc);
    let clean = read_borrowed(alloc, text, options, &mut print)?;
    let mut kept_print = String::new(alloc);
    let kept_clean = read_kept(alloc, text, options, &mut kept_print)?;
    expect(
        clean == kept_clean && print.as_str() == kept_print.as_str(),
        "a document that borrows its text and one that keeps it print alike",
    )?;
    let mut again = String::new(alloc);
    read_borrowed(alloc, print.as_str(), options, &mut again)?;
    expect(
        !clean || again.as_str() == print.as_str(),
        "the print of a clean document is read as one that prints the same",
    )
}

// A page is cut at each character boundary. Answers in how many places, or the place and what is
// wrong there.
fn cut(alloc: Global, page: &str) -> Result<usize, (usize, Wrong)> {
    let mut places = 0usize;
    for at in 0..=page.len() {
        let Some(text) = page.get(..at) else {
            continue;
        };
        let options = ParserOptions::from_raw_checked((at % 4) as u8).unwrap_or_default();
        if let Err(wrong) = read(alloc, text, options) {
            return Err((at, wrong));
        }
        places = places.saturating_add(1);
    }
    Ok(places)
}

// Reads each cut of a page, and says what is wrong.
fn cut_or_report(rt: &HostRuntime, page: &str) -> Result<usize, Wrong> {
    match cut(rt.alloc(), page) {
        Ok(places) => Ok(places),
        Err((at, wrong)) => {
            eprintln!(rt; "the page {page:?}, cut at byte {at}:")?;
            Err(wrong)
        }
    }
}

/// Pages are cut.
pub fn all(rt: &HostRuntime, pages: &[&str]) -> Result<(), Wrong> {
    let mut places = 0usize;
    for page in pages {
        places = places.saturating_add(cut_or_report(rt, page)?);
    }
    println!(rt;
        "{} pages, cut at {places} places: as it must be",
        pages.len()
    )?;
    Ok(())
}

/// The pages of a text are cut.
pub fn cut_text(rt: &HostRuntime, text: &str) -> Result<(), Wrong> {
    let mut pages = Vec::new(rt.alloc());
    for page in text.split_terminator('\u{1e}') {
        pages.push(page)?;
    }
    all(rt, pages.as_slice())
}
