//! Selector texts.
use crate::case::Case;
use crate::stop::{Stop, refused, value};
use crate::{Named, measured};
use std::alloc::{AllocError, Global};
use tl::parse_query_selector;
use tl::queryselector::{Parser, Selector};

// What is called.
#[derive(Clone, Copy)]
enum SelectorCall {
    Parse,
    Read,
    Clone,
}

// The name of a call, the call, the text, and what it stands for.
type Row = (&'static str, SelectorCall, &'static str, &'static str);

#[rattlefmt::skip]
static ROWS: [Row; 9] = [
    ("parse_query_selector, one part", SelectorCall::Parse, "a", "Tag([97])"),
    ("parse_query_selector, two parts", SelectorCall::Parse, "a.b", "And { second: Class([98]), first: Tag([97]) }"),
    ("parse_query_selector, three parts", SelectorCall::Parse, "a b, c", "Or { second: Tag([99]), first: Descendant { second: Tag([98]), first: Tag([97]) } }"),
    ("parse_query_selector, five parts", SelectorCall::Parse, "a > b, c, d#e", "Or { second: And { second: Id([101]), first: Tag([100]) }, first: Or { second: Tag([99]), first: Parent { second: Tag([98]), first: Tag([97]) } } }"),
    ("selector of a reader, one part", SelectorCall::Read, "a", "Tag([97])"),
    ("selector of a reader, three parts", SelectorCall::Read, "a b, c", "Or { second: Tag([99]), first: Descendant { second: Tag([98]), first: Tag([97]) } }"),
    ("clone of a selector, one part", SelectorCall::Clone, "a", "Tag([97])"),
    ("clone of a selector, three parts", SelectorCall::Clone, "a b, c", "Or { second: Tag([99]), first: Descendant { second: Tag([98]), first: Tag([97]) } }"),
    ("clone of a selector, five parts", SelectorCall::Clone, "a > b, c, d#e", "Or { second: And { second: Id([101]), first: Tag([100]) }, first: Or { second: Tag([99]), first: Parent { second: Tag([98]), first: Tag([97]) } } }"),
];

/// A call of a selector or of its reader, if there is one of this number.
pub fn call(number: usize, case: &mut Case) -> Option<Named> {
    let (name, call, text, wanted) = *ROWS.get(number)?;
    let answer = match call {
        SelectorCall::Parse => parse(text, wanted, case),
        SelectorCall::Read => read(text, wanted, case),
        SelectorCall::Clone => clone(text, wanted, case),
    };
    Some((name, answer))
}

fn parse(text: &str, wanted: &str, case: &mut Case) -> Result<(), Stop> {
    let answer = measured!(case, parse_query_selector(case.alloc(), text));
    match answer? {
        Some(selector) => is_shown(case.alloc(), &selector, wanted),
        None => Err(Stop::WrongValue),
    }
}

fn is_shown(alloc: Global, selector: &Selector<'_>, wanted: &str) -> Result<(), Stop> {
    let shown = format!(in alloc; "{selector:?}")?;
    value(shown.as_str() == wanted)
}

// A refused text is there again.
fn read(text: &str, wanted: &str, case: &mut Case) -> Result<(), Stop> {
    let mut parser = Parser::new(text.as_bytes());
    let answer = measured!(case, parser.selector(case.alloc()));
    match answer {
        Ok(Some(selector)) => is_shown(case.alloc(), &selector, wanted),
        Ok(None) => Err(Stop::WrongValue),
        Err(_) => refused(reads_again(&mut parser, wanted, case.alloc())),
    }
}

fn reads_again(parser: &mut Parser<'_>, wanted: &str, alloc: Global) -> bool {
    match parser.selector(alloc) {
        Ok(Some(selector)) => is_shown(alloc, &selector, wanted).is_ok(),
        _ => false,
    }
}

fn clone(text: &str, wanted: &str, case: &mut Case) -> Result<(), Stop> {
    match parse_query_selector(case.alloc(), text)? {
        Some(selector) => clone_selector(&selector, wanted, case),
        None => Err(Stop::WrongValue),
    }
}

fn clone_selector<'t>(selector: &Selector<'t>, wanted: &str, case: &mut Case) -> Result<(), Stop> {
    let answer = measured!(case, selector.clone() => Result<Selector<'t>, AllocError>);
    is_shown(case.alloc(), &answer?, wanted)
}
