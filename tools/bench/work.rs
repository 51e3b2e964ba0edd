//! What is timed, and how it is done.
use crate::failure::Failed;
use std::alloc::{AllocError, Global};
use tl::errors::TreeError;
use tl::{Bytes, ParserOptions, VDom};
use tl_program::script::{Step, run, steps};

/// What is done with a document.
#[derive(Drop)]
pub enum Work<'w> {
    Read,
    ReadOwned,
    Print,
    Text,
    Again,
    Edit(Vec<Step<'w>>),
    Select(&'w str),
    Id(&'w str, ParserOptions),
    Class(&'w str, ParserOptions),
}

// The work of a word that needs no text.
fn plain_work<'w>(word: &str) -> Option<Work<'w>> {
    match word {
        "parse" => Some(Work::Read),
        "parse_owned" => Some(Work::ReadOwned),
        "print" => Some(Work::Print),
        "text" => Some(Work::Text),
        "again" => Some(Work::Again),
        _ => None,
    }
}

// The work of a word that asks for what a text names.
fn named_work<'w>(word: &str, name: &'w str) -> Option<Work<'w>> {
    let options = ParserOptions::new();
    match word {
        "select" => Some(Work::Select(name)),
        "id" => Some(Work::Id(name, options.track_ids())),
        "id_scan" => Some(Work::Id(name, options)),
        "class" => Some(Work::Class(name, options.track_classes())),
        "class_scan" => Some(Work::Class(name, options)),
        _ => None,
    }
}

/// The work that a word and a text say, or None where they say none.
pub fn work_of<'w>(
    alloc: Global,
    word: &str,
    text: &'w str,
) -> Result<Option<Work<'w>>, AllocError> {
    if word == "edit" {
        return Ok(steps(alloc, text)?.map(Work::Edit));
    }
    match plain_work(word) {
        Some(work) => Ok(Some(work)),
        None => Ok(named_work(word, text)),
    }
}

// The bytes of the texts of the top nodes.
fn text_len(alloc: Global, document: &VDom<'_>) -> Result<usize, TreeError> {
    let mut bytes = 0usize;
    for handle in document.children() {
        if let Some(node) = handle.get(document.parser()) {
            let text = node.inner_text(alloc, document.parser())?;
            bytes = bytes.wrapping_add(text.len());
        }
    }
    Ok(bytes)
}

// The bytes of the print of the document that the print is read as.
fn again_len(alloc: Global, document: &VDom<'_>) -> Result<usize, Failed> {
    let print = document.outer_html(alloc)?;
    let document = tl::parse(alloc, print.as_str(), ParserOptions::new())?;
    Ok(document.outer_html(alloc)?.len())
}

// How many nodes a selector finds.
fn count_selected(alloc: Global, document: &VDom<'_>, selector: &str) -> Result<usize, TreeError> {
    let Some(found) = document.query_selector(alloc, selector)? else {
        return Ok(0);
    };
    let mut count = 0usize;
    for _ in found {
        count = count.wrapping_add(1);
    }
    Ok(count)
}

// How many tags have a class.
fn count_class(document: &VDom<'_>, member: &str) -> usize {
    let mut count = 0usize;
    for _ in document.get_elements_by_class_name(member) {
        count = count.wrapping_add(1);
    }
    count
}

// How many nodes the document has after the steps.
fn edit_and_count(
    alloc: Global,
    document: &mut VDom<'_>,
    steps: &[Step<'_>],
) -> Result<usize, Failed> {
    if run(alloc, document, steps).is_err() {
        return Err(Failed::Refused);
    }
    Ok(document.nodes().len())
}

impl Work<'_> {
    /// What is tracked while the page is read.
    pub fn options(&self) -> ParserOptions {
        match self {
            Work::Id(_, options) | Work::Class(_, options) => *options,
            _ => ParserOptions::new(),
        }
    }

    /// Does it once, and answers a number that depends on all that it gives.
    pub fn run(&self, alloc: Global, document: &mut VDom<'_>) -> Result<usize, Failed> {
        match self {
            Work::Read | Work::ReadOwned => Ok(document.nodes().len()),
            Work::Print => Ok(document.outer_html(alloc)?.len()),
            Work::Text => Ok(text_len(alloc, document)?),
            Work::Again => again_len(alloc, document),
            Work::Edit(steps) => edit_and_count(alloc, document, steps),
            Work::Select(selector) => Ok(count_selected(alloc, document, selector)?),
            Work::Id(id, _) => match document.get_element_by_id(Bytes::from(*id)) {
                Some(handle) => Ok(handle.get_inner() as usize),
                None => Ok(0),
            },
            Work::Class(member, _) => Ok(count_class(document, member)),
        }
    }
}
