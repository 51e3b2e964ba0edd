//! Prints, texts and clones of what stands in a document.
use crate::case::Case;
use crate::stop::{Stop, value};
use crate::{Named, measured};
use std::alloc::{AllocError, Global};
use tl::errors::TreeError;
use tl::{HTMLTag, Node, Parser, ParserOptions, VDom, parse};
use tl_program::script::{Step, run};

/// What is called of a document, of a node of it, or of its tag.
#[derive(Clone, Copy)]
pub enum TextCall {
    DocumentHtml,
    DocumentText,
    OuterHtml,
    InnerHtml,
    InnerText,
    TagHtml,
    TagInside,
    TagText,
    CloneNode,
    CloneTag,
}

/// The name of a call, the call, how the document is made, the number of the node, and the text.
pub type Row = (&'static str, TextCall, Page, u32, &'static str);

/// A text, and the steps that are taken with its document.
pub struct Page {
    pub text: &'static str,
    pub steps: &'static [Step<'static>],
}

/// Pieces that are as they were read.
pub const PLAIN: Page = Page {
    text: "<p a=1 b=2 c=3 id=i class=k>x<b>y<!-- z --></b><br>w</p>v",
    steps: &[],
};

/// Handles that don't rise: below the second tag stands the first.
pub const FALLS: Page = Page {
    text: "<a>x</a><b>y<i></i></b>",
    steps: &[Step::Push(2, 0)],
};

/// Pieces that are owned, and as many attributes and children as lie on the heap.
pub const OWNED: Page = Page {
    text: "<p a=1 b=2>x<b>y</b></p>",
    steps: &[
        Step::Name(0, b"q"),
        Step::Set(0, b"c", b"3"),
        Step::Set(0, b"id", b"i"),
        Step::Text(1, b"t"),
        Step::Comment(3, b"<!---->"),
        Step::Push(0, 1),
    ],
};

#[rattlefmt::skip]
static ROWS: [Row; 22] = [
    ("outer_html of a document", TextCall::DocumentHtml, PLAIN, 0, "<p a=\"1\" b=\"2\" c=\"3\" id=\"i\" class=\"k\">x<b>y<!-- z --></b><br>w</p>v"),
    ("outer_html of a document with marks", TextCall::DocumentHtml, FALLS, 0, "<a>x</a><b>y<i></i><a>x</a></b>"),
    ("inner_text of a document", TextCall::DocumentText, PLAIN, 0, "xywv"),
    ("inner_text of a document with marks", TextCall::DocumentText, FALLS, 0, "xyx"),
    ("outer_html of a node", TextCall::OuterHtml, PLAIN, 0, "<p a=\"1\" b=\"2\" c=\"3\" id=\"i\" class=\"k\">x<b>y<!-- z --></b><br>w</p>"),
    ("outer_html of a node with marks", TextCall::OuterHtml, FALLS, 2, "<b>y<i></i><a>x</a></b>"),
    ("outer_html of a text", TextCall::OuterHtml, PLAIN, 1, "x"),
    ("inner_html of a node", TextCall::InnerHtml, PLAIN, 0, "x<b>y<!-- z --></b><br>w"),
    ("inner_html of a node with marks", TextCall::InnerHtml, FALLS, 2, "y<i></i><a>x</a>"),
    ("inner_text of a node", TextCall::InnerText, PLAIN, 0, "xyw"),
    ("inner_text of a node with marks", TextCall::InnerText, FALLS, 2, "yx"),
    ("outer_html of a tag", TextCall::TagHtml, PLAIN, 0, "<p a=\"1\" b=\"2\" c=\"3\" id=\"i\" class=\"k\">x<b>y<!-- z --></b><br>w</p>"),
    ("outer_html of a tag with marks", TextCall::TagHtml, FALLS, 2, "<b>y<i></i><a>x</a></b>"),
    ("inner_html of a tag", TextCall::TagInside, PLAIN, 0, "x<b>y<!-- z --></b><br>w"),
    ("inner_html of a tag with marks", TextCall::TagInside, FALLS, 2, "y<i></i><a>x</a>"),
    ("inner_text of a tag", TextCall::TagText, PLAIN, 0, "xyw"),
    ("inner_text of a tag with marks", TextCall::TagText, FALLS, 2, "yx"),
    ("clone of a node, a tag", TextCall::CloneNode, OWNED, 0, "<q a=\"1\" b=\"2\" c=\"3\" id=\"i\">t<b><!----></b>t</q>"),
    ("clone of a node, a text", TextCall::CloneNode, OWNED, 1, "t"),
    ("clone of a node, a comment", TextCall::CloneNode, OWNED, 3, "<!---->"),
    ("clone of a tag", TextCall::CloneTag, OWNED, 0, "<q a=\"1\" b=\"2\" c=\"3\" id=\"i\">t<b><!----></b>t</q>"),
    ("clone of a tag that borrows", TextCall::CloneTag, PLAIN, 2, "<b>y<!-- z --></b>"),
];

/// A call that answers a text or a clone, if there is one of this number.
pub fn call(number: usize, case: &mut Case) -> Option<Named> {
    let row = ROWS.get(number)?;
    let (name, _, _, _, _) = *row;
    Some((name, call_on_page(row, case)))
}

fn call_on_page(row: &Row, case: &mut Case) -> Result<(), Stop> {
    let (_, _, page, _, _) = row;
    let mut document = parse(case.alloc(), page.text, ParserOptions::new())?;
    steps(case.alloc(), &mut document, page.steps)?;
    call_on_document(&document, row, case)
}

/// Takes steps that none refuses.
pub fn steps(alloc: Global, document: &mut VDom<'_>, steps: &[Step<'_>]) -> Result<(), Stop> {
    match run(alloc, document, steps) {
        Ok(()) => Ok(()),
        Err(_) => Err(Stop::WrongError),
    }
}

/// The call of a row on a document that was made as it says.
pub fn call_on_document(document: &VDom<'_>, row: &Row, case: &mut Case) -> Result<(), Stop> {
    let (_, call, _, number, wanted) = *row;
    match call {
        TextCall::DocumentHtml => {
            let answer = measured!(case, document.outer_html(case.alloc()));
            is_text(answer, wanted)
        }
        TextCall::DocumentText => {
            let answer = measured!(case, document.inner_text(case.alloc()));
            is_text(answer, wanted)
        }
        _ => match document.parser().resolve_node_id(number) {
            Some(node) => call_on_node(document.parser(), node, row, case),
            None => Err(Stop::WrongValue),
        },
    }
}

fn is_text(answer: Result<String, TreeError>, wanted: &str) -> Result<(), Stop> {
    value(answer?.as_str() == wanted)
}

fn call_on_node<'a>(
    parser: &Parser<'a>,
    node: &Node<'a>,
    row: &Row,
    case: &mut Case,
) -> Result<(), Stop> {
    let (_, call, _, _, _) = *row;
    match call {
        TextCall::OuterHtml | TextCall::InnerHtml | TextCall::InnerText => {
            text_of_node(parser, node, row, case)
        }
        TextCall::CloneNode => clone_node(parser, node, row, case),
        _ => match node.as_tag() {
            Some(tag) => call_on_tag(parser, tag, row, case),
            None => Err(Stop::WrongValue),
        },
    }
}

fn text_of_node<'a>(
    parser: &Parser<'a>,
    node: &Node<'a>,
    row: &Row,
    case: &mut Case,
) -> Result<(), Stop> {
    let (_, call, _, _, wanted) = *row;
    case.begin()?;
    let alloc = case.alloc();
    let answer = match call {
        TextCall::OuterHtml => node.outer_html(alloc, parser),
        TextCall::InnerHtml => node.inner_html(alloc, parser),
        _ => node.inner_text(alloc, parser),
    };
    case.end();
    is_text(answer, wanted)
}

fn clone_node<'a>(
    parser: &Parser<'a>,
    node: &Node<'a>,
    row: &Row,
    case: &mut Case,
) -> Result<(), Stop> {
    let (_, _, _, _, wanted) = *row;
    let answer = measured!(case, node.clone() => Result<Node<'a>, AllocError>);
    let print = answer?.outer_html(case.alloc(), parser);
    is_text(print, wanted)
}

fn call_on_tag<'a>(
    parser: &Parser<'a>,
    tag: &HTMLTag<'a>,
    row: &Row,
    case: &mut Case,
) -> Result<(), Stop> {
    let (_, call, _, _, _) = *row;
    match call {
        TextCall::CloneTag => clone_tag(parser, tag, row, case),
        _ => text_of_tag(parser, tag, row, case),
    }
}

fn text_of_tag<'a>(
    parser: &Parser<'a>,
    tag: &HTMLTag<'a>,
    row: &Row,
    case: &mut Case,
) -> Result<(), Stop> {
    let (_, call, _, _, wanted) = *row;
    case.begin()?;
    let alloc = case.alloc();
    let answer = match call {
        TextCall::TagHtml => tag.outer_html(alloc, parser),
        TextCall::TagInside => tag.inner_html(alloc, parser),
        _ => tag.inner_text(alloc, parser),
    };
    case.end();
    is_text(answer, wanted)
}

fn clone_tag<'a>(
    parser: &Parser<'a>,
    tag: &HTMLTag<'a>,
    row: &Row,
    case: &mut Case,
) -> Result<(), Stop> {
    let (_, _, _, _, wanted) = *row;
    let answer = measured!(case, tag.clone() => Result<HTMLTag<'a>, AllocError>);
    let twin = answer?;
    let lies_alike = twin.children().top().is_heap_allocated()
        == tag.children().top().is_heap_allocated()
        && twin.attributes().unstable_raw().is_heap_allocated()
            == tag.attributes().unstable_raw().is_heap_allocated();
    let print = twin.outer_html(case.alloc(), parser)?;
    value(lies_alike && print.as_str() == wanted)
}
