//! What texts, names and tags of HTML say, documents and trees of pages, and pages in an encoding.
use crate::case::Case;
use crate::stop::{Stop, value};
use crate::{Named, measured};
use std::alloc::Global;
use tl::ParserOptions;
use tl_encoding::{
    EncodeError, Encoding, SingleByte, decode, encode, with_marks, with_references, without_marks,
};
use tl_html_parts::{characters, comment, lower_name, tag_parts};
use tl_html_print::{write_document, write_pretty};
use tl_html_tokens::{Mode, tokens};
use tl_lines::LineIndex;
use tl_page::read;
use tl_text::{unescape_text, unescape_value};
use tl_tree::{Context, Flags, Namespace, Tree};

// What is called.
#[derive(Clone, Copy)]
enum PageCall {
    Read,
    UnescapeText,
    UnescapeValue,
    Comment,
    Characters,
    LowerName,
    TagParts,
    Tokens,
    Tree,
    Fragment,
    OwnedTree,
    Print,
    Pretty,
    Lines,
    Decode(Encoding),
    Encode(Encoding),
    References(Encoding),
    WithMarks,
    WithoutMarks,
}

// The name of a call, the call, the bytes, and what is made; of a tag its name, of tokens the last
// one, of a tree the last text, and of lines the line and the column of the end.
type Row = (&'static str, PageCall, &'static [u8], &'static [u8]);

#[rattlefmt::skip]
static ROWS: [Row; 28] = [
    ("read of a page", PageCall::Read, b"<p id=i class=k>x &lt;", b"x &lt;"),
    ("unescape_text", PageCall::UnescapeText, b"a&lt;b", b"a<b"),
    ("unescape_value", PageCall::UnescapeValue, b"?a&lt=1&quot;", b"?a&lt=1\""),
    ("comment, as it is", PageCall::Comment, b"<!--a-->", b"a"),
    ("comment with a line end", PageCall::Comment, b"<!--a\r\nb-->", b"a\nb"),
    ("comment with a line end and a NUL", PageCall::Comment, b"<!--\r\x00-->", b"\n\xEF\xBF\xBD"),
    ("characters, as they are", PageCall::Characters, b"a", b"a"),
    ("characters with a reference", PageCall::Characters, b"a&lt;\r\nb", b"a<\nb"),
    ("lower_name, as it is", PageCall::LowerName, b"div", b"div"),
    ("lower_name", PageCall::LowerName, b"DIV", b"div"),
    ("tag_parts, no attribute", PageCall::TagParts, b"<p>", b"p"),
    ("tag_parts", PageCall::TagParts, b"<p class=k id>", b"p"),
    ("tokens", PageCall::Tokens, b"<p>x<!-- y -->z", b"z"),
    ("Tree::read", PageCall::Tree, b"<p>a", b"a"),
    ("Tree::read, all kinds of nodes", PageCall::Tree, b"<!DOCTYPE html PUBLIC 'x'><!--a\r--><body class=k><table>a&lt;<tr><td><b>b<p>c</b>d<svg viewbox=x><![CDATA[e]]></svg></table><template><td></template><body id=l>f", b"f"),
    ("Tree::read_fragment, a template with an attribute", PageCall::Fragment, b"<td>a&lt;", b"a<"),
    ("Tree::into_owned", PageCall::OwnedTree, b"<p class=k>a&lt;", b"a<"),
    ("write_document", PageCall::Print, b"<!DOCTYPE html><p a='<&\"'>b &nbsp;<br><script>c<d", b"<!DOCTYPE html><html><head></head><body><p a=\"&lt;&amp;&quot;\">b &nbsp;<br><script>c<d</script></p></body></html>"),
    ("decode, UTF-8", PageCall::Decode(Encoding::Utf8), b"caf\xC3\xA9", b"caf\xC3\xA9"),
    ("decode, windows-1252", PageCall::Decode(Encoding::SingleByte(SingleByte::Windows1252)), b"caf\xE9 \x80", b"caf\xC3\xA9 \xE2\x82\xAC"),
    ("write_pretty", PageCall::Pretty, b"<!DOCTYPE html><div> <p>b <i>c</i></p><pre>d</pre></div>", b"<!DOCTYPE html>\n<html>\n  <head></head>\n  <body>\n    <div>\n      <p>b <i>c</i></p>\n      <pre>d</pre>\n    </div>\n  </body>\n</html>\n"),
    ("LineIndex::new", PageCall::Lines, b"a\nb\xC3\xA9", b"\x02\x03"),
    ("encode, windows-1252", PageCall::Encode(Encoding::SingleByte(SingleByte::Windows1252)), b"caf\xC3\xA9 \xE2\x82\xAC", b"caf\xE9 \x80"),
    ("encode, a character that the encoding lacks", PageCall::Encode(Encoding::SingleByte(SingleByte::Windows1252)), b"caf\xE4\xB8\x80", b""),
    ("with_references", PageCall::References(Encoding::SingleByte(SingleByte::Windows1252)), b"caf\xE4\xB8\x80", b"caf&#19968;"),
    ("with_marks", PageCall::WithMarks, b"caf\xE9", b"caf\xF4\x8F\xBF\xA9"),
    ("with_marks, a page that has marks", PageCall::WithMarks, b"caf\xF4\x8F\xBF\xA9", b""),
    ("without_marks", PageCall::WithoutMarks, b"caf\xF4\x8F\xBF\xA9", b"caf\xE9"),
];

/// A call that reads or writes bytes of a page, if there is one of this number.
pub fn call(number: usize, case: &mut Case) -> Option<Named> {
    let row = ROWS.get(number)?;
    let (name, call, _, _) = *row;
    let answer = match call {
        PageCall::Read => read_page(row, case),
        PageCall::Comment | PageCall::Characters => read_text(row, case),
        PageCall::LowerName => lower(row, case),
        PageCall::TagParts => read_tag(row, case),
        PageCall::Tokens => read_tokens(row, case),
        PageCall::Tree => read_tree(row, case),
        PageCall::Fragment => read_fragment(row, case),
        PageCall::OwnedTree => own_tree(row, case),
        PageCall::Decode(encoding) => decode_page(encoding, row, case),
        _ => make(row, case),
    };
    Some((name, answer))
}

fn read_page(row: &Row, case: &mut Case) -> Result<(), Stop> {
    let (_, _, page, wanted) = *row;
    let answer = measured!(case, read(case.alloc(), page, ParserOptions::new()));
    let text = answer?.inner_text(case.alloc())?;
    value(text.as_bytes() == wanted)
}

fn make(row: &Row, case: &mut Case) -> Result<(), Stop> {
    let (_, call, bytes, wanted) = *row;
    let answer = measured!(case, made(case.alloc(), call, bytes));
    value(answer?.as_slice() == wanted)
}

fn made(alloc: Global, call: PageCall, bytes: &[u8]) -> Result<Vec<u8>, Stop> {
    match call {
        PageCall::UnescapeText => Ok(unescape_text(alloc, bytes)?),
        PageCall::UnescapeValue => Ok(unescape_value(alloc, bytes)?),
        PageCall::Print => print(alloc, bytes),
        PageCall::Pretty => pretty(alloc, bytes),
        PageCall::Lines => lines(alloc, bytes),
        PageCall::Encode(_)
        | PageCall::References(_)
        | PageCall::WithMarks
        | PageCall::WithoutMarks => coded(alloc, call, bytes),
        _ => Err(Stop::WrongValue),
    }
}

fn coded(alloc: Global, call: PageCall, bytes: &[u8]) -> Result<Vec<u8>, Stop> {
    let text = str::from_utf8(bytes).unwrap_or("");
    match call {
        PageCall::Encode(encoding) => bytes_or_none(alloc, encode(alloc, encoding, text)),
        PageCall::References(encoding) => {
            Ok(with_references(alloc, encoding, text)?.into_bytes())
        }
        PageCall::WithMarks => match with_marks(alloc, bytes)? {
            Some(marked) => Ok(marked.into_bytes()),
            None => Ok(Vec::new(alloc)),
        },
        PageCall::WithoutMarks => match without_marks(alloc, text, "caf\u{FFFD}")? {
            Some(own) => Ok(own),
            None => Err(Stop::WrongValue),
        },
        _ => Err(Stop::WrongValue),
    }
}

// None where the encoding lacks a character.
fn bytes_or_none(
    alloc: Global,
    encoded: Result<Vec<u8>, EncodeError>,
) -> Result<Vec<u8>, Stop> {
    match encoded {
        Ok(bytes) => Ok(bytes),
        Err(EncodeError::NoCharacter(_)) => Ok(Vec::new(alloc)),
        Err(EncodeError::OutOfMemory) => Err(Stop::NoMemory),
    }
}

fn pretty(alloc: Global, page: &[u8]) -> Result<Vec<u8>, Stop> {
    let tree = Tree::read(alloc, page, FLAGS)?;
    let mut out = Vec::new(alloc);
    write_pretty(&tree, FLAGS.is_scripting, &mut out)?;
    Ok(out)
}

fn lines(alloc: Global, text: &[u8]) -> Result<Vec<u8>, Stop> {
    let position = LineIndex::new(alloc, text)?.position(text.len());
    Ok(Vec::from_slice(alloc, &[position.line as u8, position.column as u8])?)
}

fn print(alloc: Global, page: &[u8]) -> Result<Vec<u8>, Stop> {
    let tree = Tree::read(alloc, page, FLAGS)?;
    let mut out = Vec::new(alloc);
    write_document(&tree, FLAGS.is_scripting, &mut out)?;
    Ok(out)
}

fn read_text(row: &Row, case: &mut Case) -> Result<(), Stop> {
    let (_, call, bytes, wanted) = *row;
    case.begin()?;
    let answer = match call {
        PageCall::Comment => comment(case.alloc(), bytes),
        _ => characters(case.alloc(), Mode::Data, bytes),
    };
    case.end();
    value(answer?.as_bytes() == wanted)
}

fn lower(row: &Row, case: &mut Case) -> Result<(), Stop> {
    let (_, _, name, wanted) = *row;
    let answer = measured!(case, lower_name(case.alloc(), name));
    value(answer?.as_bytes() == wanted)
}

fn read_tag(row: &Row, case: &mut Case) -> Result<(), Stop> {
    let (_, _, bytes, wanted) = *row;
    let answer = measured!(case, tag_parts(case.alloc(), bytes));
    value(answer?.name == wanted)
}

static FLAGS: Flags = Flags {
    is_scripting: false,
    counts_search: true,
};

fn read_tree(row: &Row, case: &mut Case) -> Result<(), Stop> {
    let (_, _, page, wanted) = *row;
    let answer = measured!(case, Tree::read(case.alloc(), page, FLAGS));
    let tree = answer?;
    value(tree.text(tree.len() - 1) == Some(wanted))
}

static TEMPLATE: Context<'static> = Context {
    namespace: Namespace::Html,
    name: b"template",
    attributes: &[(b"id", b"x")],
    is_in_form: true,
    is_quirks: false,
};

fn read_fragment(row: &Row, case: &mut Case) -> Result<(), Stop> {
    let (_, _, text, wanted) = *row;
    let answer = measured!(
        case,
        Tree::read_fragment(case.alloc(), text, TEMPLATE, FLAGS)
    );
    let tree = answer?;
    value(tree.text(tree.len() - 1) == Some(wanted))
}

fn own_tree(row: &Row, case: &mut Case) -> Result<(), Stop> {
    let (_, _, page, wanted) = *row;
    let lent = Tree::read(case.alloc(), page, FLAGS)?;
    let answer = measured!(case, lent.into_owned(case.alloc()));
    let tree = answer?;
    value(tree.text(tree.len() - 1) == Some(wanted))
}

fn read_tokens(row: &Row, case: &mut Case) -> Result<(), Stop> {
    let (_, _, page, wanted) = *row;
    let answer = measured!(case, tokens(case.alloc(), page));
    let read = answer?;
    match read.last() {
        Some(token) => {
            let len = token.end.saturating_sub(token.start);
            value(token.end == page.len() && len == wanted.len() && page.ends_with(wanted))
        }
        None => Err(Stop::WrongValue),
    }
}

fn decode_page(encoding: Encoding, row: &Row, case: &mut Case) -> Result<(), Stop> {
    let (_, _, bytes, wanted) = *row;
    let page = Vec::from_slice(case.alloc(), bytes)?;
    let answer = measured!(case, decode(case.alloc(), page, encoding));
    value(answer?.as_bytes() == wanted)
}
