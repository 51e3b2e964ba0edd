//! The numbers of the elements where a selector holds.

use crate::lines::NoRoom;
use std::alloc::Global;
use tl_css::Selector;
use tl_tree::Tree;

/// What is searched: the document, or from an element of it, whose number is the rest by how many
/// there are.
#[derive(Clone, Copy)]
pub enum Search {
    Document,
    Below(usize),
    Behind(usize),
    Closest(usize),
}

// The numbers of the nodes that are found.
fn found(
    alloc: Global,
    tree: &Tree<'_>,
    elements: &[usize],
    selector: &Selector,
    search: Search,
) -> Result<Vec<usize>, NoRoom> {
    match search {
        Search::Document => Ok(tl_tree_select::select(alloc, tree, selector)?),
        Search::Below(number) => {
            let from = elements[number % elements.len()];
            Ok(tl_tree_select::below(alloc, tree, from, selector)?)
        }
        Search::Behind(number) => {
            let from = elements[number % elements.len()];
            Ok(tl_tree_select::behind(alloc, tree, from, selector)?)
        }
        Search::Closest(number) => {
            let mut numbers = Vec::new(alloc);
            let from = elements[number % elements.len()];
            if let Some(element) = tl_tree_select::closest(alloc, tree, from, selector)? {
                numbers.push(element)?;
            }
            Ok(numbers)
        }
    }
}

/// Writes the numbers of the elements where a selector holds among those of the document, with a
/// space between them, and a line end.
pub fn put_numbers(
    alloc: Global,
    out: &mut Vec<u8>,
    tree: &Tree<'_>,
    selector: &Selector,
    search: Search,
) -> Result<(), NoRoom> {
    let all = tl_css::parse(alloc, "*").map_err(|_| NoRoom)?;
    let elements = tl_tree_select::select(alloc, tree, &all)?;
    let found = found(alloc, tree, &elements, selector, search)?;
    let mut at = 0;
    for (number, element) in elements.iter().enumerate() {
        if at < found.len() && found[at] == *element {
            let before = if at == 0 { "" } else { " " };
            let text = format!(in alloc; "{}{}", before, number)?;
            out.extend_from_slice(text.as_bytes())?;
            at += 1;
        }
    }
    out.push(b'\n')?;
    Ok(())
}
