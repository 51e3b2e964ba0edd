//! Tags with a change, bytes with splices, and the elements of a page.
use crate::case::Case;
use crate::stop::{Stop, value};
use crate::{Named, measured};
use std::alloc::{AllocError, Global};
use tl_patch::{
    Splice, with_attribute, with_end_name, with_name, with_splices, with_start_name, with_value,
    without_key,
};
use tl_patch_elements::elements;

// What is called.
#[derive(Clone, Copy)]
enum TagCall {
    WithSplices(&'static [Splice<'static>]),
    WithAttribute(&'static [u8], &'static [u8]),
    WithStartName(&'static [u8]),
    WithEndName(&'static [u8]),
    WithValue(&'static [u8], &'static [u8]),
    WithoutKey(&'static [u8]),
    WithName(&'static [u8]),
    Elements,
}

// The name of a call, the call, the bytes, and what is made; of a page the name of the element that
// ends first.
type Row = (&'static str, TagCall, &'static [u8], &'static [u8]);

#[rattlefmt::skip]
static ROWS: [Row; 14] = [
    ("with_splices, none", TagCall::WithSplices(&[]), b"<p>", b"<p>"),
    ("with_splices, two", TagCall::WithSplices(&[Splice { from: 1, until: 2, put: b"li" }, Splice { from: 3, until: 3, put: b"x" }]), b"<p>", b"<li>x"),
    ("with_attribute", TagCall::WithAttribute(b"id", b"a\"b"), b"<p class=k>", b"<p id=\"a&quot;b\" class=k>"),
    ("with_start_name", TagCall::WithStartName(b"li"), b"<p class=k>", b"<li class=k>"),
    ("with_end_name", TagCall::WithEndName(b"li"), b"</p >", b"</li >"),
    ("with_value, a key with another value", TagCall::WithValue(b"class", b"l"), b"<p ID=i class=k>", b"<p ID=i class=\"l\">"),
    ("with_value, a key without a value", TagCall::WithValue(b"b", b"1"), b"<p a b>", b"<p a b=\"1\">"),
    ("with_value, a new key", TagCall::WithValue(b"title", b"a&b"), b"<p class=k>", b"<p title=\"a&amp;b\" class=k>"),
    ("without_key, the last one", TagCall::WithoutKey(b"class"), b"<p ID=i class=k>", b"<p ID=i>"),
    ("without_key, one of none", TagCall::WithoutKey(b"title"), b"<p class=k>", b"<p class=k>"),
    ("with_name", TagCall::WithName(b"li"), b"<p class=k>", b"<li class=k>"),
    ("elements of a page without tags", TagCall::Elements, b"x", b""),
    ("elements of a page", TagCall::Elements, b"<p>x<p>y", b"p"),
    ("elements of a page with names in upper case", TagCall::Elements, b"<DIV><UL><LI>x</UL></DIV>", b"LI"),
];

/// A call that changes a tag or finds elements, if there is one of this number.
pub fn call(number: usize, case: &mut Case) -> Option<Named> {
    let row = ROWS.get(number)?;
    let (name, call, _, _) = *row;
    let answer = match call {
        TagCall::Elements => find(row, case),
        _ => change(row, case),
    };
    Some((name, answer))
}

fn change(row: &Row, case: &mut Case) -> Result<(), Stop> {
    let (_, call, bytes, wanted) = *row;
    let answer = measured!(case, changed(case.alloc(), call, bytes));
    match answer? {
        Some(new) => value(new.as_slice() == wanted),
        None => Err(Stop::WrongValue),
    }
}

fn changed(alloc: Global, call: TagCall, bytes: &[u8]) -> Result<Option<Vec<u8>>, AllocError> {
    match call {
        TagCall::WithSplices(splices) => with_splices(alloc, bytes, splices),
        TagCall::WithAttribute(key, value) => with_attribute(alloc, bytes, key, value),
        TagCall::WithStartName(name) => with_start_name(alloc, bytes, name),
        TagCall::WithEndName(name) => with_end_name(alloc, bytes, name),
        TagCall::WithValue(key, value) => with_value(alloc, bytes, key, value),
        TagCall::WithoutKey(key) => without_key(alloc, bytes, key),
        TagCall::WithName(name) => with_name(alloc, bytes, name),
        TagCall::Elements => Ok(None),
    }
}

fn find(row: &Row, case: &mut Case) -> Result<(), Stop> {
    let (_, _, page, wanted) = *row;
    let answer = measured!(case, elements(case.alloc(), page));
    let found = answer?;
    value(match found.elements.first() {
        Some(element) => element.name == wanted,
        None => wanted.is_empty(),
    })
}
