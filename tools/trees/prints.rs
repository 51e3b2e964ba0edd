//! Prints of a tree: that of the document, and then of each node the outer one and the inner one, with
//! the byte 0x1F before each.

use crate::lines::NoRoom;
use tl_html_print::{write_document, write_inner, write_outer};
use tl_tree::Tree;

// What stands between two prints.
const SEPARATOR: u8 = 0x1F;

/// Puts the prints of a tree behind what is there.
pub(crate) fn put_prints(out: &mut Vec<u8>, tree: &Tree<'_>, is_scripting: bool) -> Result<(), NoRoom> {
    write_document(tree, is_scripting, out)?;
    for number in 0..tree.len() {
        out.push(SEPARATOR)?;
        write_outer(tree, number, is_scripting, out)?;
        out.push(SEPARATOR)?;
        write_inner(tree, number, is_scripting, out)?;
    }
    Ok(())
}
