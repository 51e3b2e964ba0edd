//! The calls on documents that keep their text: prints, texts and clones, searches and queries.
use crate::Named;
use crate::case::Case;
use crate::numbers::{self, NumberCall};
use crate::stop::Stop;
use crate::texts::{self, FALLS, OWNED, PLAIN, Page, TextCall, steps};
use tl::{ParserOptions, VDomGuard, parse_owned};

#[rattlefmt::skip]
static TEXTS: [texts::Row; 11] = [
    ("outer_html of an owned document", TextCall::DocumentHtml, PLAIN, 0, "<p a=\"1\" b=\"2\" c=\"3\" id=\"i\" class=\"k\">x<b>y<!-- z --></b><br>w</p>v"),
    ("outer_html of an owned document with marks", TextCall::DocumentHtml, FALLS, 0, "<a>x</a><b>y<i></i><a>x</a></b>"),
    ("inner_text of an owned document", TextCall::DocumentText, PLAIN, 0, "xywv"),
    ("outer_html of a node of an owned document", TextCall::OuterHtml, PLAIN, 0, "<p a=\"1\" b=\"2\" c=\"3\" id=\"i\" class=\"k\">x<b>y<!-- z --></b><br>w</p>"),
    ("inner_html of a node of an owned document", TextCall::InnerHtml, PLAIN, 0, "x<b>y<!-- z --></b><br>w"),
    ("inner_text of a node of an owned document", TextCall::InnerText, PLAIN, 0, "xyw"),
    ("outer_html of a tag of an owned document", TextCall::TagHtml, PLAIN, 0, "<p a=\"1\" b=\"2\" c=\"3\" id=\"i\" class=\"k\">x<b>y<!-- z --></b><br>w</p>"),
    ("clone of a node of an owned document, a tag", TextCall::CloneNode, PLAIN, 0, "<p a=\"1\" b=\"2\" c=\"3\" id=\"i\" class=\"k\">x<b>y<!-- z --></b><br>w</p>"),
    ("clone of a node of an owned document, a text", TextCall::CloneNode, PLAIN, 1, "x"),
    ("clone of a tag of an owned document", TextCall::CloneTag, PLAIN, 0, "<p a=\"1\" b=\"2\" c=\"3\" id=\"i\" class=\"k\">x<b>y<!-- z --></b><br>w</p>"),
    ("clone of a tag of an owned document, edited", TextCall::CloneTag, OWNED, 0, "<q a=\"1\" b=\"2\" c=\"3\" id=\"i\">t<b><!----></b>t</q>"),
];

#[rattlefmt::skip]
static NUMBERS: [numbers::Row; 9] = [
    ("find_node of a node of an owned document", NumberCall::Find(b"bxcb"), numbers::PLAIN, 0, &[4]),
    ("find_node of an owned document with marks", NumberCall::Find(b"acb"), numbers::FALLS, 3, &[1]),
    ("all of a tag of an owned document with marks", NumberCall::All, numbers::FALLS, 3, &[2]),
    ("query_selector of an owned document, one part", NumberCall::Query("b"), numbers::PLAIN, 0, &[1, 4]),
    ("query_selector of an owned document, ancestors", NumberCall::Query("a > b, b c"), numbers::PLAIN, 0, &[1, 3, 4]),
    ("query_selector of a tag of an owned document, ancestors", NumberCall::QueryBelow("a > b"), numbers::PLAIN, 0, &[1, 4]),
    ("clone of a query of an owned document, ancestors", NumberCall::Clone("a > b, b c"), numbers::PLAIN, 0, &[1, 3, 4]),
    ("QuerySelectorIterator::new over an owned document", NumberCall::New("a b"), numbers::PLAIN, 0, &[1, 4]),
    ("matches_in of an owned document, ancestors", NumberCall::MatchesIn("a > b, b c"), numbers::PLAIN, 3, &[1]),
];

/// A call on a document that keeps its text, if there is one of this number.
pub fn call(number: usize, case: &mut Case) -> Option<Named> {
    if let Some(row) = TEXTS.get(number) {
        let (name, _, _, _, _) = *row;
        return Some((name, text(row, case)));
    }
    let row = NUMBERS.get(number - TEXTS.len())?;
    let (name, _, _, _, _) = *row;
    Some((name, answer(row, case)))
}

fn text(row: &texts::Row, case: &mut Case) -> Result<(), Stop> {
    let (_, _, page, _, _) = row;
    let document = read(page, case)?;
    texts::call_on_document(document.get_ref(), row, case)
}

fn answer(row: &numbers::Row, case: &mut Case) -> Result<(), Stop> {
    let (_, _, page, _, _) = row;
    let document = read(page, case)?;
    numbers::call_on_document(document.get_ref(), row, case)
}

fn read(page: &Page, case: &Case) -> Result<VDomGuard, Stop> {
    let text = String::from_str(case.alloc(), page.text)?;
    let mut document = parse_owned(case.alloc(), text, ParserOptions::new())?;
    steps(case.alloc(), document.get_mut_ref(), page.steps)?;
    Ok(document)
}
