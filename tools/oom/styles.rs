//! Selectors of CSS: their texts, and where they hold in the tree of a page.
use crate::case::Case;
use crate::stop::{Stop, value};
use crate::{Named, measured};
use std::alloc::{AllocError, Global};
use tl_css::Selector;
use tl_tree::{Flags, Tree};
use tl_tree_select::{behind, below, closest, first, matches, select};

// What is called, at a node of this number.
#[derive(Clone, Copy)]
enum StyleCall {
    Parse,
    ParseRelative,
    Select,
    First,
    Matches(usize),
    Below(usize),
    Behind(usize),
    Closest(usize),
}

// The name of a call, the call, the selector, and the numbers of the nodes of the page where it
// holds.
type Row = (&'static str, StyleCall, &'static str, &'static [usize]);

// A page with tags of three names, an id, a class, and a value with a reference.
const PAGE: &str = "<ul id=i><li class=k>x</li><li>y<b></b></li></ul><p title=\"&amp;\">z</p>";

// `html`, `head` and `body` stand before what the page has, and its ids and classes are in any case.
#[rattlefmt::skip]
static ROWS: [Row; 15] = [
    ("parse of a selector of CSS, one part", StyleCall::Parse, "li", &[4, 6]),
    ("parse of a selector of CSS, two parts and a joint", StyleCall::Parse, "ul#i > li", &[4, 6]),
    ("parse of a selector of CSS, a list", StyleCall::Parse, "b, p, ul", &[3, 8, 9]),
    ("parse of a selector of CSS, with arguments", StyleCall::Parse, "li:not(.k, :has(p)):nth-child(2n)", &[6]),
    ("select of a tree, one part", StyleCall::Select, ".K", &[4]),
    ("select of a tree, a joint", StyleCall::Select, "li > b, ul + [title='&']", &[8, 9]),
    ("select of a tree, siblings of a name", StyleCall::Select, "li:nth-of-type(2)", &[6]),
    ("first of a tree, one part", StyleCall::First, "li", &[4]),
    ("first of a tree, a joint", StyleCall::First, "li + li", &[6]),
    ("matches of a tree, one part", StyleCall::Matches(9), "[title='&' i]", &[9]),
    ("matches of a tree, a joint", StyleCall::Matches(9), "ul ~ p", &[9]),
    ("parse_relative", StyleCall::ParseRelative, "> li, b", &[4, 6, 8]),
    ("below of a tree", StyleCall::Below(3), "> li", &[4, 6]),
    ("behind of a tree", StyleCall::Behind(3), "+ p", &[9]),
    ("closest of a tree", StyleCall::Closest(8), "ul > li", &[6]),
];

/// A call with a selector of CSS, if there is one of this number.
pub fn call(number: usize, case: &mut Case) -> Option<Named> {
    let row = ROWS.get(number)?;
    let (name, call, _, _) = *row;
    let answer = match call {
        StyleCall::Parse => parse(row, case),
        StyleCall::ParseRelative => parse_relative(row, case),
        _ => call_on_tree(row, case),
    };
    Some((name, answer))
}

fn read(alloc: Global) -> Result<Tree<'static>, Stop> {
    let flags = Flags {
        is_scripting: false,
        counts_search: true,
    };
    Ok(Tree::read(alloc, PAGE.as_bytes(), flags)?)
}

fn parse(row: &Row, case: &mut Case) -> Result<(), Stop> {
    let (_, _, text, wanted) = *row;
    let answer = measured!(case, tl_css::parse(case.alloc(), text));
    let selector = answer?;
    let tree = read(case.alloc())?;
    let numbers = select(case.alloc(), &tree, &selector)?;
    value(numbers.as_slice() == wanted)
}

fn parse_relative(row: &Row, case: &mut Case) -> Result<(), Stop> {
    let (_, _, text, wanted) = *row;
    let answer = measured!(case, tl_css::parse_relative(case.alloc(), text));
    let selector = answer?;
    let tree = read(case.alloc())?;
    let numbers = below(case.alloc(), &tree, 3, &selector)?;
    value(numbers.as_slice() == wanted)
}

fn call_on_tree(row: &Row, case: &mut Case) -> Result<(), Stop> {
    let (_, call, text, wanted) = *row;
    let selector = tl_css::parse_relative(case.alloc(), text)?;
    let tree = read(case.alloc())?;
    case.begin()?;
    let answer = found(case.alloc(), &tree, &selector, call);
    case.end();
    value(answer?.as_slice() == wanted)
}

// What a call finds, as a list.
fn found(
    alloc: Global,
    tree: &Tree<'_>,
    selector: &Selector,
    call: StyleCall,
) -> Result<Vec<usize>, AllocError> {
    match call {
        StyleCall::First => listed(alloc, first(alloc, tree, selector)?),
        StyleCall::Closest(at) => listed(alloc, closest(alloc, tree, at, selector)?),
        StyleCall::Matches(at) => {
            let holds = matches(alloc, tree, at, selector)?;
            listed(alloc, holds.then_some(at))
        }
        StyleCall::Below(at) => below(alloc, tree, at, selector),
        StyleCall::Behind(at) => behind(alloc, tree, at, selector),
        _ => select(alloc, tree, selector),
    }
}

fn listed(alloc: Global, number: Option<usize>) -> Result<Vec<usize>, AllocError> {
    let mut numbers = Vec::new(alloc);
    if let Some(number) = number {
        numbers.push(number)?;
    }
    Ok(numbers)
}
