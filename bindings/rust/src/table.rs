//! Tables, as the library writes them.
use crate::calls;

/// The rows of lines of CSV.
pub(crate) fn rows_in(lines: &[u8]) -> Result<Vec<Vec<String>>, u8> {
    let mut rows = Vec::new();
    let mut rest = lines;
    while !rest.is_empty() {
        let (row, later) = row_in(rest)?;
        calls::push(&mut rows, row)?;
        rest = later;
    }
    Ok(rows)
}

// The row that a line is, and what stands behind it.
fn row_in(line: &[u8]) -> Result<(Vec<String>, &[u8]), u8> {
    let mut row = Vec::new();
    let mut rest = line;
    loop {
        let (value, later) = value_in(rest);
        calls::push(&mut row, calls::text_in(&value?)?)?;
        match later.split_first() {
            Some((b',', later)) => rest = later,
            Some((_, later)) => return Ok((row, later)),
            None => return Ok((row, later)),
        }
    }
}

// The value that stands first, and what stands behind it: in quotes two `"` are one.
fn value_in(line: &[u8]) -> (Result<Vec<u8>, u8>, &[u8]) {
    let Some(mut rest) = line.strip_prefix(b"\"") else {
        let end = line.iter().position(|it| matches!(it, b',' | b'\n'));
        let (value, rest) = line.split_at(end.unwrap_or(line.len()));
        return (calls::copy_of(value), rest);
    };
    let mut value = Ok(Vec::new());
    loop {
        let end = rest.iter().position(|it| *it == b'"').unwrap_or(rest.len());
        value = value.and_then(|it| calls::with_more(it, &rest[..end]));
        rest = rest.get(end + 1..).unwrap_or_default();
        match rest.strip_prefix(b"\"") {
            Some(later) => {
                value = value.and_then(|it| calls::with_more(it, b"\""));
                rest = later;
            }
            None => return (value, rest),
        }
    }
}
