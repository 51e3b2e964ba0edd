//! A tree as the standard's own tests write it down: a line for each node, that begins with `| ` and
//! two blanks for each node that it is below; attributes below their element, in the order of their
//! keys; `content` for the contents of a template. A text may have line feeds.

use std::alloc::{AllocError, AllocFailed, Global};
use tl_tree::{Attribute, AttributeSpace, Doctype, Kind, Namespace, Tree};
use tl_tree_extract::TableError;

/// Memory ran out.
#[derive(Clone, Copy, Debug)]
pub(crate) struct NoRoom;

// No table is longer than all numbers.
impl From<TableError> for NoRoom {
    fn from(_: TableError) -> Self {
        NoRoom
    }
}

impl From<AllocError> for NoRoom {
    fn from(_: AllocError) -> Self {
        NoRoom
    }
}

impl<T: Drop> From<AllocFailed<T>> for NoRoom {
    fn from(_: AllocFailed<T>) -> Self {
        NoRoom
    }
}

/// Puts the lines of a tree behind what is there.
pub(crate) fn put_tree(alloc: Global, out: &mut Vec<u8>, tree: &Tree<'_>) -> Result<(), NoRoom> {
    let mut ends = Vec::new(alloc);
    for number in 0..tree.len() {
        while ends.last().is_some_and(|end| *end <= number) {
            ends.pop();
        }
        put_node(alloc, out, tree, number, ends.len())?;
        ends.push(tree.end(number).unwrap_or(number))?;
    }
    Ok(())
}

fn put_node(
    alloc: Global,
    out: &mut Vec<u8>,
    tree: &Tree<'_>,
    number: usize,
    depth: usize,
) -> Result<(), NoRoom> {
    match tree.kind(number) {
        Some(Kind::Element) => {
            let name = tree.name(number).unwrap_or(b"");
            put_line(out, depth, &[b"<", space_of(tree.namespace(number)), name, b">"])?;
            put_attributes(alloc, out, tree, number, depth + 1)
        }
        Some(Kind::Contents) => put_line(out, depth, &[b"content"]),
        Some(Kind::Text) => put_line(out, depth, &[b"\"", said(tree, number), b"\""]),
        Some(Kind::Comment) => put_line(out, depth, &[b"<!-- ", said(tree, number), b" -->"]),
        Some(Kind::Doctype) => match tree.doctype(number) {
            Some(doctype) => put_doctype(out, depth, doctype),
            None => Ok(()),
        },
        None => Ok(()),
    }
}

fn said<'t>(tree: &'t Tree<'_>, number: usize) -> &'t [u8] {
    tree.text(number).unwrap_or(b"")
}

fn put_line(out: &mut Vec<u8>, depth: usize, parts: &[&[u8]]) -> Result<(), NoRoom> {
    out.extend_from_slice(b"| ")?;
    for _ in 0..depth {
        out.extend_from_slice(b"  ")?;
    }
    for part in parts {
        out.extend_from_slice(part)?;
    }
    out.push(b'\n')?;
    Ok(())
}

fn put_attributes(
    alloc: Global,
    out: &mut Vec<u8>,
    tree: &Tree<'_>,
    number: usize,
    depth: usize,
) -> Result<(), NoRoom> {
    let mut lines = Vec::new(alloc);
    for attribute in tree.attributes(number) {
        lines.push((key_of(alloc, attribute)?, attribute.value))?;
    }
    lines.sort()?;
    for (key, value) in &lines {
        put_line(out, depth, &[key.as_slice(), b"=\"", *value, b"\""])?;
    }
    Ok(())
}

// A key with the word for its namespace.
fn key_of(alloc: Global, attribute: Attribute<'_>) -> Result<Vec<u8>, NoRoom> {
    let space: &[u8] = match attribute.space {
        AttributeSpace::Plain => b"",
        AttributeSpace::Xlink => b"xlink ",
        AttributeSpace::Xml => b"xml ",
        AttributeSpace::Xmlns => b"xmlns ",
    };
    let mut key = Vec::new(alloc);
    key.extend_from_slice(space)?;
    key.extend_from_slice(attribute.key)?;
    Ok(key)
}

fn space_of(space: Option<Namespace>) -> &'static [u8] {
    match space {
        Some(Namespace::Svg) => b"svg ",
        Some(Namespace::Math) => b"math ",
        _ => b"",
    }
}

// Both identifiers are written where one is there.
fn put_doctype(out: &mut Vec<u8>, depth: usize, doctype: Doctype<'_>) -> Result<(), NoRoom> {
    if doctype.public_id.is_none() && doctype.system_id.is_none() {
        return put_line(out, depth, &[b"<!DOCTYPE ", doctype.name, b">"]);
    }
    let public = doctype.public_id.unwrap_or(b"");
    let system = doctype.system_id.unwrap_or(b"");
    let ids: [&[u8]; 7] = [b"<!DOCTYPE ", doctype.name, b" \"", public, b"\" \"", system, b"\">"];
    put_line(out, depth, &ids)
}
