//! What is written behind bytes that are there.
use crate::case::Case;
use crate::stop::{Stop, refused, value};
use crate::Named;
use std::alloc::AllocError;
use tl_patch::{write_attribute, write_text, write_value};

// What is called.
#[derive(Clone, Copy)]
enum WriteCall {
    Text,
    Value,
    Attribute(&'static [u8]),
}

// The name of a call, the call, what is written, and what then stands there.
type Row = (&'static str, WriteCall, &'static [u8], &'static [u8]);

// What stands there before.
const BEFORE: &[u8] = b"x";

#[rattlefmt::skip]
static ROWS: [Row; 3] = [
    ("write_text of an edit", WriteCall::Text, b"a<b\r", b"xa&lt;b&#13;"),
    ("write_value of an edit", WriteCall::Value, b"a\"b\r", b"xa&quot;b&#13;"),
    ("write_attribute of an edit", WriteCall::Attribute(b"id"), b"a\"b", b"x id=\"a&quot;b\""),
];

/// A call that writes, if there is one of this number.
pub fn call(number: usize, case: &mut Case) -> Option<Named> {
    let row = ROWS.get(number)?;
    let (name, _, _, _) = *row;
    Some((name, write_row(row, case)))
}

fn write_row(row: &Row, case: &mut Case) -> Result<(), Stop> {
    let mut out = Vec::from_slice(case.alloc(), BEFORE)?;
    write_behind(row, &mut out, case)
}

// Once memory ran out, what stood there still does, with a beginning of the rest behind it.
fn write_behind(row: &Row, out: &mut Vec<u8>, case: &mut Case) -> Result<(), Stop> {
    let (_, call, bytes, wanted) = *row;
    case.begin()?;
    let answer = write(call, bytes, out);
    case.end();
    match answer {
        Ok(()) => value(out.as_slice() == wanted),
        Err(_) => refused(out.starts_with(BEFORE) && wanted.starts_with(out.as_slice())),
    }
}

fn write(call: WriteCall, bytes: &[u8], out: &mut Vec<u8>) -> Result<(), AllocError> {
    match call {
        WriteCall::Text => write_text(bytes, out),
        WriteCall::Value => write_value(bytes, out),
        WriteCall::Attribute(key) => write_attribute(key, bytes, out),
    }
}
