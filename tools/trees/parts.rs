//! The table of a number, and the links, of a page.

use crate::lines::NoRoom;
use std::alloc::Global;
use tl_tree::{AttributeSpace, Tree};
use tl_tree_extract::{Cell, Link, base, links, table_of};

/// Writes the table of a number among the `table` elements of the document, from 1: a line with its
/// columns and rows, and then one for each cell, with its number among the cells of the document,
/// where it begins and ends from left to right, and from above.
pub fn put_table(
    alloc: Global,
    out: &mut Vec<u8>,
    tree: &Tree<'_>,
    number: usize,
) -> Result<(), NoRoom> {
    let tables = numbers(alloc, tree, "table")?;
    if number == 0 || number > tables.len() {
        out.extend_from_slice(b"none\n")?;
        return Ok(());
    }
    let table = table_of(alloc, tree, tables[number - 1])?;
    let elements = numbers(alloc, tree, "td, th")?;
    let line = format!(in alloc; "{} {}\n", table.width, table.rows.len())?;
    out.extend_from_slice(line.as_bytes())?;
    for cell in &table.cells {
        put_cell(alloc, out, &elements, cell)?;
    }
    Ok(())
}

fn numbers(alloc: Global, tree: &Tree<'_>, selector: &str) -> Result<Vec<usize>, NoRoom> {
    let selector = tl_css::parse(alloc, selector).map_err(|_| NoRoom)?;
    Ok(tl_tree_select::select(alloc, tree, &selector)?)
}

fn put_cell(
    alloc: Global,
    out: &mut Vec<u8>,
    elements: &Vec<usize>,
    cell: &Cell,
) -> Result<(), NoRoom> {
    let number = match elements.binary_search(&cell.node) {
        Ok(number) | Err(number) => number,
    };
    let line = format!(
        in alloc; "{} {} {} {} {}\n", number, cell.left, cell.right, cell.top, cell.bottom
    )?;
    out.extend_from_slice(line.as_bytes())?;
    Ok(())
}

/// Writes the number of the `base` among the elements of the document, or `none`, and a line for
/// each link: the number of its element, the key, where the URL begins in the value, and the URL.
pub fn put_links(alloc: Global, out: &mut Vec<u8>, tree: &Tree<'_>) -> Result<(), NoRoom> {
    let elements = numbers(alloc, tree, "*")?;
    match base(tree) {
        Some(node) => put_place(alloc, out, &elements, node)?,
        None => out.extend_from_slice(b"none")?,
    }
    out.push(b'\n')?;
    for link in &links(alloc, tree)? {
        put_link(alloc, out, &elements, link)?;
    }
    Ok(())
}

fn put_place(
    alloc: Global,
    out: &mut Vec<u8>,
    elements: &Vec<usize>,
    node: usize,
) -> Result<(), NoRoom> {
    let number = match elements.binary_search(&node) {
        Ok(number) | Err(number) => number,
    };
    let text = format!(in alloc; "{}", number)?;
    out.extend_from_slice(text.as_bytes())?;
    Ok(())
}

fn put_link(
    alloc: Global,
    out: &mut Vec<u8>,
    elements: &Vec<usize>,
    link: &Link<'_>,
) -> Result<(), NoRoom> {
    put_place(alloc, out, elements, link.node)?;
    out.push(b' ')?;
    if link.attribute.space == AttributeSpace::Xlink {
        out.extend_from_slice(b"xlink:")?;
    }
    out.extend_from_slice(link.attribute.key)?;
    let start = format!(in alloc; " {} ", link.part.start)?;
    out.extend_from_slice(start.as_bytes())?;
    for byte in link.part.bytes {
        out.push(if *byte == b'\n' { b' ' } else { *byte })?;
    }
    out.push(b'\n')?;
    Ok(())
}
