//! Nodes as JSON, headings, and fields of nodes in columns.

use crate::lines::NoRoom;
use json::Writer;
use std::alloc::Global;
use tl_css::Selector;
use tl_tree::Tree;
use tl_tree_extract::{
    Columns, Field, JsonForm, Spans, json_of, write_fields, write_json_document, write_json_lines,
    write_node_outline, write_outline, write_table,
};

/// What is asked of a page.
#[derive(Clone, Copy, PartialEq, Eq)]
pub enum Answer {
    Json,
    Flat,
    Nested,
    Outline,
    Nodes,
    Numbered,
    Tabs,
    Commas,
    Filled,
    Once,
}

/// Writes an answer: as JSON what a selector found, or else the document; in columns the name, the
/// id, the class and the text of what it found.
pub fn put_answer(
    alloc: Global,
    out: &mut Vec<u8>,
    tree: &Tree<'_>,
    answer: Answer,
    selector: Option<&Selector>,
) -> Result<(), NoRoom> {
    match answer {
        Answer::Json => put_json(alloc, out, tree, selector),
        Answer::Flat => put_lines(alloc, out, tree, JsonForm::Flat, selector),
        Answer::Nested => put_lines(alloc, out, tree, JsonForm::Nested, selector),
        Answer::Outline => Ok(write_outline(alloc, tree, out)?),
        Answer::Nodes => Ok(write_node_outline(alloc, tree, false, out)?),
        Answer::Numbered => Ok(write_node_outline(alloc, tree, true, out)?),
        Answer::Tabs => put_fields(alloc, out, tree, Columns::Tabs, selector),
        Answer::Commas => put_fields(alloc, out, tree, Columns::Commas, selector),
        Answer::Filled => put_tables(alloc, out, tree, Spans::Filled, selector),
        Answer::Once => put_tables(alloc, out, tree, Spans::Once, selector),
    }
}

// The nodes that a selector found.
fn found(
    alloc: Global,
    tree: &Tree<'_>,
    selector: Option<&Selector>,
) -> Result<Vec<usize>, NoRoom> {
    match selector {
        Some(selector) => Ok(tl_tree_select::select(alloc, tree, selector)?),
        None => Ok(Vec::new(alloc)),
    }
}

fn put_json(
    alloc: Global,
    out: &mut Vec<u8>,
    tree: &Tree<'_>,
    selector: Option<&Selector>,
) -> Result<(), NoRoom> {
    let text = if selector.is_some() {
        json_of(alloc, tree, found(alloc, tree, selector)?.as_slice())?
    } else {
        let mut writer = Writer::new(Vec::new(alloc));
        write_json_document(alloc, tree, &mut writer)?;
        writer.into_inner()
    };
    out.extend_from_slice(text.as_slice())?;
    Ok(())
}

fn put_lines(
    alloc: Global,
    out: &mut Vec<u8>,
    tree: &Tree<'_>,
    form: JsonForm,
    selector: Option<&Selector>,
) -> Result<(), NoRoom> {
    let numbers = found(alloc, tree, selector)?;
    write_json_lines(alloc, tree, numbers.as_slice(), form, Some("a.html"), out)?;
    Ok(())
}

fn put_fields(
    alloc: Global,
    out: &mut Vec<u8>,
    tree: &Tree<'_>,
    columns: Columns,
    selector: Option<&Selector>,
) -> Result<(), NoRoom> {
    let numbers = found(alloc, tree, selector)?;
    let fields =
        [Field::Name, Field::Attribute(b"id"), Field::Attribute(b"class"), Field::Text];
    write_fields(alloc, tree, numbers.as_slice(), &fields, columns, out)?;
    Ok(())
}

fn put_tables(
    alloc: Global,
    out: &mut Vec<u8>,
    tree: &Tree<'_>,
    spans: Spans,
    selector: Option<&Selector>,
) -> Result<(), NoRoom> {
    let numbers = found(alloc, tree, selector)?;
    for number in &numbers {
        write_table(alloc, tree, *number, Columns::Commas, spans, usize::MAX, out)?;
    }
    Ok(())
}
