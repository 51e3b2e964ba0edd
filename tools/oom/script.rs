//! Steps, and the lines that say them.
use crate::case::Case;
use crate::stop::{Stop, refused, value};
use crate::{Named, measured};
use std::alloc::Global;
use tl::{Node, ParserOptions, VDom, parse};
use tl_program::script::{Step, StepError, run, steps};

// The name of a call, the page, the steps, and the prints after none of them, after the first, and
// so on.
type RunRow = (
    &'static str,
    &'static str,
    &'static [Step<'static>],
    &'static [&'static str],
);

#[rattlefmt::skip]
static RUNS: [RunRow; 14] = [
    ("run of Name", "<p>x</p>", &[Step::Name(0, b"q")], &["<p>x</p>", "<q>x</q>"]),
    ("run of Text", "<p>x</p>", &[Step::Text(0, b"t")], &["<p>x</p>", "t"]),
    ("run of Comment", "<p>x</p>", &[Step::Comment(1, b"<!-->")], &["<p>x</p>", "<p><!--></p>"]),
    ("run of Set", "<p>x</p>", &[Step::Set(0, b"a", b"1")], &["<p>x</p>", "<p a=\"1\">x</p>"]),
    ("run of Set of a third key", "<p a=1 b=2>x</p>", &[Step::Set(0, b"c", b"3")], &["<p a=\"1\" b=\"2\">x</p>", "<p a=\"1\" b=\"2\" c=\"3\">x</p>",]),
    ("run of Set of a key that is there", "<p a=1 b=2>x</p>", &[Step::Set(0, b"a", b"3")], &["<p a=\"1\" b=\"2\">x</p>", "<p a=\"3\" b=\"2\">x</p>"]),
    ("run of Set of an id", "<p>", &[Step::Set(0, b"id", b"i")], &["<p></p>", "<p id=\"i\"></p>"]),
    ("run of Flag", "<p>x</p>", &[Step::Flag(0, b"a")], &["<p>x</p>", "<p a>x</p>"]),
    ("run of Unset", "<p a=1>x</p>", &[Step::Unset(0, b"a")], &["<p a=\"1\">x</p>", "<p>x</p>"]),
    ("run of Bare", "<p a=1>x</p>", &[Step::Bare(0, b"a")], &["<p a=\"1\">x</p>", "<p a>x</p>"]),
    ("run of Push", "<p>x</p>", &[Step::Push(0, 1)], &["<p>x</p>", "<p>xx</p>"]),
    ("run of Push of a third child", "<p>x<b></b></p>", &[Step::Push(0, 1)], &["<p>x<b></b></p>", "<p>x<b></b>x</p>"]),
    ("run of Pull and Root", "<p>x</p>y", &[Step::Pull(0, 0), Step::Root(1, 0)], &["<p>x</p>y", "<p></p>y", "<p></p><p></p>"]),
    ("run of several steps", "<p a=1 b=2>x<b>y</b></p>", &[Step::Name(0, b"q"), Step::Set(0, b"c", b"3"), Step::Pull(0, 0), Step::Text(3, b"t"), Step::Flag(0, b"d"),], &["<p a=\"1\" b=\"2\">x<b>y</b></p>", "<q a=\"1\" b=\"2\">x<b>y</b></q>", "<q a=\"1\" b=\"2\" c=\"3\">x<b>y</b></q>", "<q a=\"1\" b=\"2\" c=\"3\"><b>y</b></q>", "<q a=\"1\" b=\"2\" c=\"3\"><b>t</b></q>", "<q a=\"1\" b=\"2\" c=\"3\" d><b>t</b></q>",]),
];

// The name of a call, the text, and the steps that it says.
type TextRow = (&'static str, &'static str, &'static [Step<'static>]);

#[rattlefmt::skip]
static TEXTS: [TextRow; 3] = [
    ("steps of no line", "", &[]),
    ("steps of one line", "set 0 a b c", &[Step::Set(0, b"a", b"b c")]),
    ("steps of six lines", "pull 0 0\npush 0 2\n\npush 0 1\nroot 7 1\nflag 0 id\ntext 2", &[Step::Pull(0, 0), Step::Push(0, 2), Step::Push(0, 1), Step::Root(7, 1), Step::Flag(0, b"id"), Step::Text(2, b""),]),
];

/// A call on steps, if there is one of this number.
pub fn call(number: usize, case: &mut Case) -> Option<Named> {
    match RUNS.get(number) {
        Some(row) => {
            let (name, _, _, _) = *row;
            Some((name, call_on_page(row, case)))
        }
        None => {
            let (name, text, wanted) = *TEXTS.get(number - RUNS.len())?;
            Some((name, call_on_text(text, wanted, case)))
        }
    }
}

fn call_on_page(row: &RunRow, case: &mut Case) -> Result<(), Stop> {
    let (_, page, script, wanted) = *row;
    let mut document = parse(case.alloc(), page, ParserOptions::new())?;
    let lay = lies(&document);
    let answer = measured!(case, run(case.alloc(), &mut document, script));
    let lies_alike = lies(&document) == lay;
    match answer {
        Ok(()) => value(prints(case.alloc(), &document, wanted, script.len())),
        Err((place, StepError::OutOfMemory)) => refused(
            (place != 0 || lies_alike)
                && place < script.len()
                && prints(case.alloc(), &document, wanted, place),
        ),
        Err(_) => Err(Stop::WrongError),
    }
}

// Whether the attributes and the children of the first node lie on the heap.
fn lies(document: &VDom<'_>) -> (bool, bool) {
    match document.nodes().first() {
        Some(Node::Tag(tag)) => (
            tag.attributes().unstable_raw().is_heap_allocated(),
            tag.children().top().is_heap_allocated(),
        ),
        _ => (false, false),
    }
}

// Whether a document prints as it is to after so many steps.
fn prints(alloc: Global, document: &VDom<'_>, wanted: &[&str], place: usize) -> bool {
    match (document.outer_html(alloc), wanted.get(place)) {
        (Ok(print), Some(wanted)) => print.as_str() == *wanted,
        _ => false,
    }
}

fn call_on_text(text: &str, wanted: &[Step<'_>], case: &mut Case) -> Result<(), Stop> {
    let answer = measured!(case, steps(case.alloc(), text));
    match answer? {
        Some(read) => value(read.as_slice() == wanted),
        None => Err(Stop::WrongValue),
    }
}
