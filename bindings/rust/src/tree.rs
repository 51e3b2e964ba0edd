//! What stands in the nodes of a document, as the library says it of all of them at once.
use crate::calls::{self, Handle};
use std::str;

/// Of each node what it is, where it stands, and what it says.
pub(crate) struct Tree {
    // Of each node four numbers: of its kind and its namespace, that of the node that it stands in, and the one behind the last node
    // below it.
    numbers: Vec<u32>,
    // What stands in each node itself.
    parts: Vec<u8>,
    // Where each of these begins, and behind the last.
    starts: Vec<usize>,
}

// What stands behind a part: no byte of UTF-8.
const END: u8 = 255;

impl Tree {
    /// The tree of a document that was read.
    pub(crate) fn read(document: *mut Handle, page_len: usize) -> Result<Tree, u8> {
        let count = unsafe { calls::tl_node_count(document) } as usize;
        let numbers = calls::items(4 * count, |numbers, room, needed| unsafe {
            calls::tl_nodes(document, numbers, room, needed)
        })?;
        let parts: Vec<u8> = calls::items(page_len + 2 * count + 64, |out, room, needed| unsafe {
            calls::tl_parts(document, out, room, needed)
        })?;
        let mut starts = calls::with_room(count + 1)?;
        starts.push(0);
        let ends = parts.iter().enumerate().filter(|(_, byte)| **byte == END);
        starts.extend(ends.map(|(at, _)| at + 1).take(count));
        Ok(Tree {
            numbers,
            parts,
            starts,
        })
    }

    /// Whether these are the same nodes at the same places.
    pub(crate) fn is_alike(&self, other: &Tree) -> bool {
        self.numbers == other.numbers
    }

    pub(crate) fn len(&self) -> usize {
        self.numbers.len() / 4
    }

    fn number(&self, node: u32, place: usize) -> u32 {
        self.numbers[4 * node as usize + place]
    }

    pub(crate) fn kind(&self, node: u32) -> u32 {
        self.number(node, 0)
    }

    pub(crate) fn namespace(&self, node: u32) -> u32 {
        self.number(node, 1)
    }

    /// The node that a node stands in.
    pub(crate) fn parent(&self, node: u32) -> Option<u32> {
        Some(self.number(node, 2)).filter(|it| *it != calls::NO_NODE)
    }

    /// The number behind the last node below a node.
    pub(crate) fn end(&self, node: u32) -> u32 {
        self.number(node, 3)
    }

    /// The node behind a node in what it stands in.
    pub(crate) fn next_sibling(&self, node: u32) -> Option<u32> {
        let outer = self
            .parent(node)
            .map_or(self.len() as u32, |it| self.end(it));
        Some(self.end(node)).filter(|it| *it < outer)
    }

    /// The node before a node there: what the node before it in the page stands in, from the innermost out, up to what has the same parent.
    pub(crate) fn previous_sibling(&self, node: u32) -> Option<u32> {
        let parent = self.parent(node);
        let mut at = node.checked_sub(1).filter(|it| Some(*it) != parent)?;
        while self.parent(at) != parent {
            at = self.parent(at)?;
        }
        Some(at)
    }

    /// What stands in a node itself: of a text and a comment what they say, of an element its name, and its keys and values with a byte 0
    /// before each.
    pub(crate) fn part(&self, node: u32) -> &str {
        let node = node as usize;
        match (self.starts.get(node), self.starts.get(node + 1)) {
            // (those that come out are UTF-8)
            (Some(start), Some(end)) => {
                str::from_utf8(&self.parts[*start..*end - 1]).unwrap_or_default()
            }
            _ => "",
        }
    }
}
