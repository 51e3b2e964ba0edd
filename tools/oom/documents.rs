//! Documents that are read, and the attributes and children of a tag.
use crate::case::Case;
use crate::stop::{Stop, refused, value};
use crate::{Named, measured};
use std::alloc::{AllocError, Global};
use tl::{
    Attributes, Bytes, Children, ElementsByClassName, HTMLTag, Node, NodeHandle, ParserOptions,
    RawChildren, SummaryOf, TagOf, VDom, parse, parse_owned,
};

const PAGE: &str =
    "<!doctype html><p a=1 b=2 c=3 id=i class='k l'>x<b class=k>y<!-- z --></b><br>w</p>v";

const PRINT: &str =
    "<p a=\"1\" b=\"2\" c=\"3\" id=\"i\" class=\"k l\">x<b class=\"k\">y<!-- z --></b><br>w</p>v";

/// A call that reads a document, or of attributes or children, if there is one of this number.
pub fn call(number: usize, case: &mut Case) -> Option<Named> {
    match number {
        0 => Some(("parse", read(0, case))),
        1 => Some(("parse that tracks ids", read(1, case))),
        2 => Some(("parse that tracks classes", read(2, case))),
        3 => Some(("parse that tracks both", read(3, case))),
        4 => Some(("parse_owned", keep(0, case))),
        5 => Some(("parse_owned that tracks ids", keep(1, case))),
        6 => Some(("parse_owned that tracks classes", keep(2, case))),
        7 => Some(("parse_owned that tracks both", keep(3, case))),
        _ => call_on_tag(number, case),
    }
}

fn call_on_tag(number: usize, case: &mut Case) -> Option<Named> {
    match number {
        8 => Some(("insert of a third key", insert_other(case))),
        9 => Some(("insert of a key that is there", insert_known(case))),
        10 => Some(("insert of an id", insert_id(case))),
        11 => Some(("clone of attributes", clone_attributes(case))),
        12 => Some(("push of a third child", push(case))),
        13 => Some((
            "clone of the tags of a class",
            clone_tags(ParserOptions::new(), case),
        )),
        14 => Some((
            "clone of the tracked tags of a class",
            clone_tags(ParserOptions::new().track_classes(), case),
        )),
        15 => Some(("insert of a seventh key", insert_seventh(case))),
        16 => Some(("clone of the children of a tag", clone_children(case))),
        _ => None,
    }
}

// The options of a number.
fn options(number: u8) -> Result<ParserOptions, Stop> {
    ParserOptions::from_raw_checked(number).ok_or(Stop::WrongValue)
}

fn read(number: u8, case: &mut Case) -> Result<(), Stop> {
    let options = options(number)?;
    let answer = measured!(case, parse(case.alloc(), PAGE, options));
    is_page(case.alloc(), &answer?)
}

fn keep(number: u8, case: &mut Case) -> Result<(), Stop> {
    let options = options(number)?;
    let text = String::from_str(case.alloc(), PAGE)?;
    let answer = measured!(case, parse_owned(case.alloc(), text, options));
    is_page(case.alloc(), answer?.get_ref())
}

fn is_page(alloc: Global, document: &VDom<'_>) -> Result<(), Stop> {
    let print = document.outer_html(alloc)?;
    value(
        print.as_str() == PRINT
            && document.nodes().len() == 8
            && document.version().is_some()
            && is_looked_up(document),
    )
}

fn is_looked_up(document: &VDom<'_>) -> bool {
    let mut found = document.get_elements_by_class_name("k");
    document.get_element_by_id(Bytes::from("i")) == Some(NodeHandle::new(0))
        && found.next() == Some(NodeHandle::new(0))
        && found.next() == Some(NodeHandle::new(2))
        && found.next() == None
}

#[rattlefmt::skip]
static PAIRS: [(&'static str, &'static str); 6] = [
    ("a", "1"),
    ("b", "2"),
    ("c", "3"),
    ("d", "4"),
    ("e", "5"),
    ("f", "6"),
];

// The first two lie inline.
const TWO: usize = 2;

// Attributes with so many of the pairs.
fn with_pairs(alloc: Global, count: usize) -> Result<Attributes<'static>, Stop> {
    let mut attributes = Attributes::new(alloc);
    for (key, value) in PAIRS.iter().take(count) {
        attributes.insert(Bytes::from(*key), Some(Bytes::from(*value)))?;
    }
    Ok(attributes)
}

fn insert_other(case: &mut Case) -> Result<(), Stop> {
    insert(TWO, "c", 3, case)
}

fn insert_known(case: &mut Case) -> Result<(), Stop> {
    insert(TWO, "b", 2, case)
}

fn insert_id(case: &mut Case) -> Result<(), Stop> {
    insert(TWO, "id", 3, case)
}

fn insert_seventh(case: &mut Case) -> Result<(), Stop> {
    insert(PAIRS.len(), "g", 7, case)
}

// A refused key is not there, and the others are, where they were.
fn insert(count: usize, key: &'static str, wanted: usize, case: &mut Case) -> Result<(), Stop> {
    let attributes = &mut with_pairs(case.alloc(), count)?;
    let answer = measured!(
        case,
        attributes.insert(Bytes::from(key), Some(Bytes::from("9")))
    );
    match answer {
        Ok(()) => value(
            is_at(attributes, key, "9")
                && is_at(attributes, "a", "1")
                && attributes.len() == wanted,
        ),
        Err(_) => refused(are_pairs(attributes, count)),
    }
}

fn is_at(attributes: &Attributes<'static>, key: &'static str, wanted: &str) -> bool {
    match attributes.get(Bytes::from(key)) {
        Some(Some(value)) => value.eq_str(wanted),
        _ => false,
    }
}

// Whether they are so many of the pairs, and lie where their number says.
fn are_pairs(attributes: &Attributes<'static>, count: usize) -> bool {
    for (key, value) in PAIRS.iter().take(count) {
        if !is_at(attributes, *key, value) {
            return false;
        }
    }
    attributes.len() == count && attributes.unstable_raw().is_heap_allocated() == (count > TWO)
}

fn clone_attributes(case: &mut Case) -> Result<(), Stop> {
    let attributes = with_pairs(case.alloc(), 3)?;
    let answer = measured!(case, attributes.clone());
    value(are_pairs(&answer?, 3))
}

fn push(case: &mut Case) -> Result<(), Stop> {
    let mut document = parse(case.alloc(), "<b>x<i></i></b>", ParserOptions::new())?;
    match document.parser_mut().resolve_node_id_mut(0) {
        Some(node) => push_to_node(node, case),
        None => Err(Stop::WrongValue),
    }
}

fn push_to_node(node: &mut Node<'_>, case: &mut Case) -> Result<(), Stop> {
    match node.as_tag_mut() {
        Some(tag) => push_to_tag(tag, case),
        None => Err(Stop::WrongValue),
    }
}

fn push_to_tag<A, B, O: SummaryOf<A>>(
    tag: &mut TagOf<A, B, O>,
    case: &mut Case,
) -> Result<(), Stop> {
    let mut children = tag.children_mut();
    push_child(children.top_mut(), case)
}

// A refused handle comes back, and the others stay where they are.
fn push_child(handles: &mut RawChildren, case: &mut Case) -> Result<(), Stop> {
    let answer = measured!(case, handles.push(NodeHandle::new(5)));
    let are_there = handles.get(0) == Some(&NodeHandle::new(1))
        && handles.get(1) == Some(&NodeHandle::new(2));
    match answer {
        Ok(()) => value(are_there && handles.len() == 3 && handles.is_heap_allocated()),
        Err(back) => {
            let is_inline = handles.len() == 2 && !handles.is_heap_allocated();
            refused(are_there && is_inline && back.get_inner() == 5)
        }
    }
}

fn clone_tags(options: ParserOptions, case: &mut Case) -> Result<(), Stop> {
    let document = parse(case.alloc(), PAGE, options)?;
    clone_found(document.get_elements_by_class_name("k"), case)
}

fn clone_found<'s, 'a>(
    mut found: ElementsByClassName<'s, 'a>,
    case: &mut Case,
) -> Result<(), Stop> {
    let first = found.next();
    let answer = measured!(case, found.clone() => Result<ElementsByClassName<'s, 'a>, AllocError>);
    let mut twin = answer?;
    value(
        first == Some(NodeHandle::new(0))
            && twin.next() == Some(NodeHandle::new(2))
            && twin.next() == None
            && found.next() == Some(NodeHandle::new(2)),
    )
}

fn clone_children(case: &mut Case) -> Result<(), Stop> {
    let document = parse(case.alloc(), "<b>x<i></i></b>", ParserOptions::new())?;
    match document.parser().resolve_node_id(0) {
        Some(Node::Tag(tag)) => clone_handles(tag, case),
        _ => Err(Stop::WrongValue),
    }
}

fn clone_handles<'a, 'b>(tag: &'b HTMLTag<'a>, case: &mut Case) -> Result<(), Stop> {
    let children: Children<'a, 'b> = tag.children();
    let answer = measured!(case, children.clone() => Result<Children<'a, 'b>, AllocError>);
    let twin = answer?;
    value(twin.top().len() == 2 && twin.top().get(1) == Some(&NodeHandle::new(2)))
}
