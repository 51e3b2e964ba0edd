//! What is asked of trees: their texts, tables, links, headings, JSON and fields, and where links
//! lead.
use crate::case::Case;
use crate::stop::{Stop, value};
use crate::{Named, measured};
use json::Writer;
use std::alloc::Global;
use tl_tree::{Flags, Tree};
use tl_tree_extract::text::{write_readable_document, write_readable_text};
use tl_tree_extract::{
    Columns, Field, JsonForm, Spans, comments, document_base, headings, json_of, links, marks_of,
    resolved, table_of, table_rows, write_fields, write_json_document, write_json_flat,
    write_json_lines, write_node_outline, write_outline, write_table,
};
use url::Url;

// What is called.
#[derive(Clone, Copy)]
enum AskedCall {
    Document,
    Node(usize),
    Table,
    TableRows,
    Links,
    Headings,
    Comments,
    Marks,
    Outline,
    NodeOutline,
    Sheet,
    JsonDocument,
    JsonNodes(usize),
    JsonFlat(usize),
    JsonLines(usize),
    Fields(usize),
    Resolved,
    Base,
}

// The name of a call, the call, the page, and what is written; of tables, links and headings how
// many there are. Of a link the page is the link.
type Row = (&'static str, AskedCall, &'static [u8], &'static [u8]);

#[rattlefmt::skip]
static ROWS: [Row; 23] = [
    ("write_readable_document", AskedCall::Document, b"<p>a<p>b", b"a\n\nb"),
    ("write_readable_document, no text", AskedCall::Document, b"<p>", b""),
    ("write_readable_text", AskedCall::Node(3), b"<p>a <b> b</b><p>c", b"a b"),
    ("table_of", AskedCall::Table, b"<table><tr><td rowspan=2>a<td>b<tr><td>c", b"3"),
    ("table_rows", AskedCall::TableRows, b"<table><tr><td>a<tr><td>b", b"2"),
    ("links", AskedCall::Links, b"<a href=a></a><img srcset='b, c'>", b"3"),
    ("links, none", AskedCall::Links, b"<a>a", b"0"),
    ("headings", AskedCall::Headings, b"<h1>a</h1><h2>b", b"2"),
    ("headings, none", AskedCall::Headings, b"<p>a", b"0"),
    ("write_outline", AskedCall::Outline, b"<h1>a</h1><h2>b", b"h1 a\n  h2 b\n"),
    ("write_json_document", AskedCall::JsonDocument, b"<!--a-->", b"[{\"attributes\":{},\"name\":null,\"node\":0,\"start\":0,\"end\":8,\"comment\":\"a\"},{\"attributes\":{},\"name\":\"html\",\"node\":1,\"children\":[{\"attributes\":{},\"name\":\"head\",\"node\":2,\"children\":[]},{\"attributes\":{},\"name\":\"body\",\"node\":3,\"children\":[]}]}]"),
    ("json_of", AskedCall::JsonNodes(3), b"<p id='a\"'>", b"[{\"attributes\":{\"id\":\"a\\\"\"},\"name\":\"p\",\"node\":3,\"start\":0,\"end\":11,\"children\":[]}]"),
    ("json_of, a prefix and no UTF-8", AskedCall::JsonNodes(3), b"<svg xlink:href='\xFF'>", b"[{\"attributes\":{\"xlink:href\":\"\xEF\xBF\xBD\"},\"name\":\"svg\",\"namespace\":\"svg\",\"node\":3,\"start\":0,\"end\":20,\"children\":[]}]"),
    ("write_json_flat", AskedCall::JsonFlat(3), b"<p>a<b>b", b"[{\"attributes\":{},\"name\":\"p\",\"node\":3,\"start\":0,\"end\":3,\"text\":\"ab\"}]"),
    ("write_json_lines", AskedCall::JsonLines(4), b"<p>a", b"{\"file\":\"f\",\"attributes\":{},\"name\":null,\"node\":4,\"start\":3,\"end\":4,\"text\":\"a\"}\n"),
    ("write_node_outline", AskedCall::NodeOutline, b"<!--a--><p id=b class='c d'>e\nf", b"<!-- a -->\nhtml\n  head\n  body\n    p#b.c.d\n      \"e\"\n"),
    ("write_table", AskedCall::Sheet, b"<table><tr><td colspan=2>a<td>b,<tr><td>c", b"a,a,\"b,\"\nc,,\n"),
    ("comments", AskedCall::Comments, b"<!--a--><!--b-->", b"2"),
    ("marks_of", AskedCall::Marks, b"<p>", b"4"),
    ("write_fields", AskedCall::Fields(3), b"<p class='a\"'>b  c", b"p,\"a\"\"\",b c\n"),
    ("resolved", AskedCall::Resolved, b"c?d", b"http://a/c?d"),
    ("resolved, no URL", AskedCall::Resolved, b"http://[", b""),
    ("document_base, refused", AskedCall::Base, b"data:a", b"http://a/b"),
];

static FLAGS: Flags = Flags {
    is_scripting: false,
    counts_search: true,
};

static FIELDS: [Field<'static>; 3] = [Field::Name, Field::Attribute(b"class"), Field::Text];

/// A call that asks a tree, or where a link leads, if there is one of this number.
pub fn call(number: usize, case: &mut Case) -> Option<Named> {
    let row = ROWS.get(number)?;
    let (name, call, _, _) = *row;
    let answer = match call {
        AskedCall::Resolved | AskedCall::Base => lead(row, case),
        AskedCall::Table
        | AskedCall::TableRows
        | AskedCall::Links
        | AskedCall::Headings
        | AskedCall::Comments
        | AskedCall::Marks => ask_count(row, case),
        _ => ask(row, case),
    };
    Some((name, answer))
}

fn ask(row: &Row, case: &mut Case) -> Result<(), Stop> {
    let (_, call, page, wanted) = *row;
    let tree = Tree::read(case.alloc(), page, FLAGS)?;
    let answer = measured!(case, written(case.alloc(), &tree, call));
    value(answer?.as_slice() == wanted)
}

fn written(alloc: Global, tree: &Tree<'_>, call: AskedCall) -> Result<Vec<u8>, Stop> {
    let mut out = Vec::new(alloc);
    match call {
        AskedCall::Document => write_readable_document(tree, &[], &mut out)?,
        AskedCall::Node(number) => write_readable_text(tree, number, &[], &mut out)?,
        AskedCall::Outline => write_outline(alloc, tree, &mut out)?,
        AskedCall::JsonDocument => {
            let mut writer = Writer::new(out);
            write_json_document(alloc, tree, &mut writer)?;
            return Ok(writer.into_inner());
        }
        AskedCall::JsonNodes(number) => return Ok(json_of(alloc, tree, &[number])?),
        AskedCall::JsonFlat(number) => {
            let mut writer = Writer::new(out);
            write_json_flat(alloc, tree, &[number], &mut writer)?;
            return Ok(writer.into_inner());
        }
        AskedCall::JsonLines(number) => {
            write_json_lines(alloc, tree, &[number], JsonForm::Flat, Some("f"), &mut out)?;
        }
        AskedCall::NodeOutline => write_node_outline(alloc, tree, false, &mut out)?,
        AskedCall::Sheet => {
            let limit = usize::MAX;
            write_table(
                alloc,
                tree,
                3,
                Columns::Commas,
                Spans::Filled,
                limit,
                &mut out,
            )?;
        }
        AskedCall::Fields(number) => {
            write_fields(alloc, tree, &[number], &FIELDS, Columns::Commas, &mut out)?;
        }
        _ => return Err(Stop::WrongValue),
    }
    Ok(out)
}

fn ask_count(row: &Row, case: &mut Case) -> Result<(), Stop> {
    let (_, call, page, wanted) = *row;
    let tree = Tree::read(case.alloc(), page, FLAGS)?;
    let answer = measured!(case, count(case.alloc(), &tree, call));
    value(wanted == [b'0' + answer? as u8].as_slice())
}

fn count(alloc: Global, tree: &Tree<'_>, call: AskedCall) -> Result<usize, Stop> {
    match call {
        AskedCall::Table => Ok(table_of(alloc, tree, 3)?.cells.len()),
        AskedCall::TableRows => Ok(table_rows(alloc, tree, 3)?.len()),
        AskedCall::Links => Ok(links(alloc, tree)?.len()),
        AskedCall::Headings => Ok(headings(alloc, tree)?.len()),
        AskedCall::Comments => Ok(comments(alloc, tree)?.len()),
        AskedCall::Marks => Ok(marks_of(alloc, tree, &[1])?.len()),
        _ => Err(Stop::WrongValue),
    }
}

fn lead(row: &Row, case: &mut Case) -> Result<(), Stop> {
    let (_, call, link, wanted) = *row;
    let page = Url::parse(case.alloc(), "http://a/b")?;
    let answer = measured!(case, target(case.alloc(), &page, call, link));
    match answer? {
        Some(url) => value(url.as_str().as_bytes() == wanted),
        None => value(wanted.is_empty()),
    }
}

fn target(
    alloc: Global,
    page: &Url,
    call: AskedCall,
    link: &[u8],
) -> Result<Option<Url>, Stop> {
    match call {
        AskedCall::Base => Ok(Some(document_base(alloc, page, Some(link))?)),
        _ => Ok(resolved(alloc, page, link)?),
    }
}
