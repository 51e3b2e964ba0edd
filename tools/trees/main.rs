//! Writes the tree of each page on standard input, as the standard's own tests write trees down
//! (`lines`). The byte 0x1E stands between two pages, and is written after each tree. In the place
//! of a tree that isn't read stands a line that says why.
//!
//! | Word | Says |
//! |---|---|
//! | `scripting` | that scripting is on |
//! | `without-search` | that `search` isn't counted as a special element |
//! | `fragment CONTEXT` | that each is a fragment, and its context element: the name of an HTML element, or `svg NAME` or `math NAME` as one word |
//! | `print` | that prints are written in the place of trees (`prints`) |
//! | `pretty` | that the print with a tag on each line is written in the place of trees |
//! | `text` | that the readable text is written in the place of trees |
//! | `select SELECTOR` | that the elements are asked for where the selector holds: in the place of a tree stands a line with their numbers among the elements of the document, from 0 |
//! | `table NUMBER` | that the table of this number among those of the document is asked for, from 1 (`parts`) |
//! | `links` | that the links are asked for (`parts`) |
//! | `json` | that the nodes where the selector holds are written as JSON, or else the document (`answers`) |
//! | `flat`, `nested` | that each of the nodes where the selector holds is written as JSON on a line, with the text below it or with what is below it |
//! | `nodes`, `numbered` | that each node is written on a line as CSS would name it, with its number before it |
//! | `outline` | that the headings are asked for |
//! | `tabs`, `commas` | that fields of the nodes where the selector holds are asked for in columns (`answers`) |
//! | `filled`, `once` | that the tables where the selector holds are written in columns, by commas: a cell in each of its slots, or where it begins |
//! | `below NUMBER`, `behind NUMBER`, `closest NUMBER` | before `select`: that they are asked for below the element of this number or behind it, or that the innermost one from it outwards is |
//! | `relative` | before `select`: that its selectors are relative |
//! | `time` | that one page is on standard input, which is read alone: what is written is how many nodes it has, or `refused`, and how long the reading and the drop took, in microseconds; with `print`, `pretty`, `text`, `json` or another before it how many bytes that has of the document, and how long it took to write; with `select` alone how long the search took |
//! | `again` | with `time`: that the page is read and dropped once before, so that the second reading can be counted alone |
//!
//! The status is 1 where a word or the selector is not understood, 3 where memory runs out, and 4 where reading or
//! writing fails.
#![tactic(auto)]

mod answers;
mod lines;
mod numbers;
mod parts;
mod prints;

use answers::{Answer, put_answer};
use lines::{NoRoom, put_tree};
use numbers::{Search, put_numbers};
use parts::{put_links, put_table};
use prints::put_prints;
use std::alloc::Global;
use std::process::ExitCode;
use std::io::{Read, Write};
use std::time::Instant;
use std::{env, io, mem};
use tl_css::{Selector, SelectorError};
use tl_html_print::{write_document, write_pretty};
use tl_tree::{Context, Flags, Namespace, ReadError, Tree};
use tl_tree_extract::text::write_readable_document;

// What stands between two pages.
const SEPARATOR: u8 = 0x1E;

// Why nothing was written. Its number is the status.
#[derive(Clone, Copy)]
enum Failed {
    NotUnderstood = 1,
    NoRoom = 3,
    Io = 4,
}

impl From<NoRoom> for Failed {
    fn from(_: NoRoom) -> Self {
        Failed::NoRoom
    }
}

impl From<SelectorError> for Failed {
    fn from(error: SelectorError) -> Self {
        match error {
            SelectorError::OutOfMemory => Failed::NoRoom,
            SelectorError::Text { .. } => Failed::NotUnderstood,
        }
    }
}

impl From<io::Error> for Failed {
    fn from(_: io::Error) -> Self {
        Failed::Io
    }
}

// What the words ask for.
#[derive(Drop)]
struct Asked {
    flags: Flags,
    is_printed: bool,
    is_pretty: bool,
    is_text: bool,
    is_timed: bool,
    is_read_twice: bool,
    /// The context element of fragments.
    context: Option<String>,
    /// Whose elements are asked for.
    selector: Option<Selector>,
    /// The number of the table that is asked for.
    table: Option<usize>,
    are_links: bool,
    answer: Option<Answer>,
    search: Search,
    /// Whether the selectors are relative.
    is_relative: bool,
}

fn main(rt: HostRuntime) -> ExitCode {
    match run(&rt) {
        Ok(()) => ExitCode::SUCCESS,
        Err(failed) => ExitCode::from(failed as u8),
    }
}

fn run(rt: &HostRuntime) -> Result<(), Failed> {
    let asked = asked(rt)?;
    let mut pages = Vec::new(rt.alloc());
    rt.stdin().read_to_end(&mut pages)?;
    if asked.is_timed && is_written(&asked) {
        return time_written(rt, pages.as_slice(), &asked);
    }
    if asked.is_timed {
        return time(rt, pages.as_slice(), &asked);
    }
    let trees = trees_of(rt.alloc(), pages.as_slice(), &asked)?;
    let mut out = rt.stdout();
    out.write_all(trees.as_slice())?;
    out.flush()?;
    Ok(())
}

// Whether something is asked of a page that is read.
fn is_written(asked: &Asked) -> bool {
    asked.is_printed
        || asked.is_pretty
        || asked.is_text
        || asked.answer.is_some()
        || asked.selector.is_some()
}

fn asked(rt: &HostRuntime) -> Result<Asked, Failed> {
    let mut asked = Asked {
        flags: Flags {
            is_scripting: false,
            counts_search: true,
        },
        is_printed: false,
        is_pretty: false,
        is_text: false,
        is_timed: false,
        is_read_twice: false,
        context: None,
        selector: None,
        table: None,
        are_links: false,
        answer: None,
        search: Search::Document,
        is_relative: false,
    };
    let mut words = env::args(rt)?.skip(1);
    while let Some(word) = words.next() {
        match word.as_str() {
            "scripting" => asked.flags.is_scripting = true,
            "without-search" => asked.flags.counts_search = false,
            "print" => asked.is_printed = true,
            "pretty" => asked.is_pretty = true,
            "text" => asked.is_text = true,
            "links" => asked.are_links = true,
            "json" => asked.answer = Some(Answer::Json),
            "flat" => asked.answer = Some(Answer::Flat),
            "nested" => asked.answer = Some(Answer::Nested),
            "nodes" => asked.answer = Some(Answer::Nodes),
            "numbered" => asked.answer = Some(Answer::Numbered),
            "outline" => asked.answer = Some(Answer::Outline),
            "tabs" => asked.answer = Some(Answer::Tabs),
            "commas" => asked.answer = Some(Answer::Commas),
            "filled" => asked.answer = Some(Answer::Filled),
            "once" => asked.answer = Some(Answer::Once),
            "table" => match words.next() {
                Some(number) => asked.table = number.as_str().parse::<usize>().ok(),
                None => return Err(Failed::NotUnderstood),
            },
            "time" => asked.is_timed = true,
            "again" => asked.is_read_twice = true,
            "fragment" => match words.next() {
                Some(context) => asked.context = Some(context),
                None => return Err(Failed::NotUnderstood),
            },
            "below" => asked.search = Search::Below(number(words.next())?),
            "behind" => asked.search = Search::Behind(number(words.next())?),
            "relative" => asked.is_relative = true,
            "closest" => asked.search = Search::Closest(number(words.next())?),
            "select" => {
                let Some(text) = words.next() else {
                    return Err(Failed::NotUnderstood);
                };
                asked.selector = Some(if asked.is_relative {
                    tl_css::parse_relative(rt.alloc(), text.as_str())?
                } else {
                    tl_css::parse(rt.alloc(), text.as_str())?
                });
            }
            _ => return Err(Failed::NotUnderstood),
        }
    }
    Ok(asked)
}

// The number that a word says.
fn number(word: Option<String>) -> Result<usize, Failed> {
    let Some(word) = word else {
        return Err(Failed::NotUnderstood);
    };
    word.as_str().parse::<usize>().map_err(|_| Failed::NotUnderstood)
}

// Reads a page, and says how long that took.
fn time(rt: &HostRuntime, page: &[u8], asked: &Asked) -> Result<(), Failed> {
    if asked.is_read_twice {
        mem::drop(Tree::read(rt.alloc(), page, asked.flags));
    }
    let start = Instant::now(rt)?;
    let read = Tree::read(rt.alloc(), page, asked.flags);
    let count = match &read {
        Ok(tree) => Some(tree.len()),
        Err(_) => None,
    };
    mem::drop(read);
    let taken = start.elapsed(rt)?.as_micros();
    match count {
        Some(count) => println!(rt; "{} {}", count, taken)?,
        None => println!(rt; "refused {}", taken)?,
    }
    Ok(())
}

// The context element that a word names, whose document is not in quirks mode.
fn context_of(word: &str) -> Context<'_> {
    let (namespace, name) = match (word.strip_prefix("svg "), word.strip_prefix("math ")) {
        (Some(name), _) => (Namespace::Svg, name),
        (None, Some(name)) => (Namespace::Math, name),
        (None, None) => (Namespace::Html, word),
    };
    Context {
        namespace,
        name: name.as_bytes(),
        attributes: &[],
        is_in_form: word == "form",
        is_quirks: false,
    }
}

fn read<'p>(alloc: Global, page: &'p [u8], asked: &Asked) -> Result<Tree<'p>, ReadError> {
    match &asked.context {
        Some(word) => Tree::read_fragment(alloc, page, context_of(word.as_str()), asked.flags),
        None => Tree::read(alloc, page, asked.flags),
    }
}

// Writes the document of a page or its readable text, and says how long that took.
fn time_written(rt: &HostRuntime, page: &[u8], asked: &Asked) -> Result<(), Failed> {
    let Ok(tree) = Tree::read(rt.alloc(), page, asked.flags) else {
        return Ok(println!(rt; "refused 0")?);
    };
    let mut out = Vec::new(rt.alloc());
    let start = Instant::now(rt)?;
    put_timed(rt.alloc(), &mut out, &tree, asked)?;
    let taken = start.elapsed(rt)?.as_micros();
    println!(rt; "{} {}", out.len(), taken)?;
    Ok(())
}

fn put_timed(
    alloc: Global,
    out: &mut Vec<u8>,
    tree: &Tree<'_>,
    asked: &Asked,
) -> Result<(), NoRoom> {
    if let Some(answer) = asked.answer {
        return put_answer(alloc, out, tree, answer, asked.selector.as_ref());
    }
    match &asked.selector {
        Some(selector) => put_count(alloc, out, tree, selector),
        None if asked.is_text => Ok(write_readable_document(tree, &[], out)?),
        None if asked.is_pretty => Ok(write_pretty(tree, asked.flags.is_scripting, out)?),
        None => Ok(write_document(tree, asked.flags.is_scripting, out)?),
    }
}

// Writes how many nodes a selector finds.
fn put_count(
    alloc: Global,
    out: &mut Vec<u8>,
    tree: &Tree<'_>,
    selector: &Selector,
) -> Result<(), NoRoom> {
    let found = tl_tree_select::select(alloc, tree, selector)?;
    let line = format!(in alloc; "{}", found.len())?;
    out.extend_from_slice(line.as_bytes())?;
    Ok(())
}

// What is asked for of each page, with the separator after it.
fn trees_of(alloc: Global, pages: &[u8], asked: &Asked) -> Result<Vec<u8>, NoRoom> {
    let mut out = Vec::new(alloc);
    for page in pages.split(|byte| *byte == SEPARATOR) {
        match read(alloc, page, asked) {
            Ok(tree) => put_asked(alloc, &mut out, &tree, asked)?,
            Err(error) => put_error(alloc, &mut out, error)?,
        }
        out.push(SEPARATOR)?;
    }
    Ok(out)
}

fn put_asked(
    alloc: Global,
    out: &mut Vec<u8>,
    tree: &Tree<'_>,
    asked: &Asked,
) -> Result<(), NoRoom> {
    if let Some(answer) = asked.answer {
        return put_answer(alloc, out, tree, answer, asked.selector.as_ref());
    }
    match &asked.selector {
        Some(selector) => put_numbers(alloc, out, tree, selector, asked.search),
        None if asked.is_text => Ok(write_readable_document(tree, &[], out)?),
        None if asked.is_pretty => Ok(write_pretty(tree, asked.flags.is_scripting, out)?),
        None if asked.is_pretty => Ok(write_pretty(tree, asked.flags.is_scripting, out)?),
        None if asked.are_links => put_links(alloc, out, tree),
        None if asked.table.is_some() => put_table(alloc, out, tree, asked.table.unwrap_or(0)),
        None if asked.is_printed => put_prints(out, tree, asked.flags.is_scripting),
        None => put_tree(alloc, out, tree),
    }
}

fn put_error(alloc: Global, out: &mut Vec<u8>, error: ReadError) -> Result<(), NoRoom> {
    let line = format!(in alloc; "not read: {error}\n")?;
    out.extend_from_slice(line.as_bytes())?;
    Ok(())
}
