//! The commands of the program.
use crate::case::Case;
use crate::stop::{Stop, refused, value};
use crate::{Named, measured};
use std::alloc::{AllocError, Global};
use tl_program::program::{Command, Failure, Marked, command, output, run, run_words};
use tl_program::script::Step;

const PAGE: &[u8] = b"<p a=1 b=2 c=3>x<b>y</b>\xc3\xa9<!-- z --><br></p>";

const PRINT: &[u8] = b"<p a=\"1\" b=\"2\" c=\"3\">x<b>y</b>\xc3\xa9<!-- z --><br></p>";

const NAMED: &[u8] = b"<p id=i class=\"k l\"><b class=k></b><i id=j class=\"l k\"></i></p>";

// The names of the four calls of a command, its words, the page, and what is written.
type Row = (
    [&'static str; 4],
    &'static [&'static str],
    &'static [u8],
    &'static [u8],
);

// Those of the edit.
#[rattlefmt::skip]
static STEPS: [Step<'static>; 5] = [
    Step::Set(0, b"d", b"4"),
    Step::Unset(0, b"a"),
    Step::Name(2, b"i"),
    Step::Text(4, b"w"),
    Step::Push(0, 1),
];

#[rattlefmt::skip]
static ROWS: [Row; 8] = [
    (["command print", "output of print", "run of print", "run_words of print",], &["print"], PAGE, PRINT),
    (["command text", "output of text", "run of text", "run_words of text",], &["text"], PAGE, b"xy\xc3\xa9"),
    (["command again", "output of again", "run of again", "run_words of again",], &["again"], PAGE, PRINT),
    (["command edit", "output of edit", "run of edit", "run_words of edit",], &["edit", "set 0 d 4\nunset 0 a\nname 2 i\ntext 4 w\npush 0 1"], PAGE, b"<p d=\"4\" b=\"2\" c=\"3\">x<i>y</i>w<!-- z --><br>x</p>"),
    (["command id", "output of id", "run of id", "run_words of id"], &["id", "j"], NAMED, b"2\n"),
    (["command class", "output of class", "run of class", "run_words of class",], &["class", "k"], NAMED, b"0\n1\n2\n"),
    (["command select", "output of select", "run of select", "run_words of select",], &["select", "b"], NAMED, b"1\n"),
    (["command select, ancestors", "output of select, ancestors", "run of select, ancestors", "run_words of select, ancestors",], &["select", "p > .k, p i"], NAMED, b"1\n2\n"),
];

/// A call of the program, if there is one of this number.
pub fn call(number: usize, case: &mut Case) -> Option<Named> {
    let row = ROWS.get(number / 4)?;
    let (names, _, _, _) = row;
    let name = names.get(number % 4)?;
    Some((name, call_on_words(number % 4, row, case)))
}

fn call_on_words(call: usize, row: &Row, case: &mut Case) -> Result<(), Stop> {
    let (_, words, _, _) = *row;
    let words = owned(case.alloc(), words)?;
    match call {
        0 => call_on_command(&words, row, case),
        3 => call_on_run_words(&words, row, case),
        _ => match command(case.alloc(), &words)? {
            Some(asked) if call == 1 => call_on_output(&asked, row, case),
            Some(asked) => call_on_run(&asked, row, case),
            None => Err(Stop::WrongValue),
        },
    }
}

fn owned(alloc: Global, words: &[&str]) -> Result<Vec<String>, AllocError> {
    let mut owned = Vec::new(alloc);
    for word in words {
        owned.push(String::from_str(alloc, *word)?)?;
    }
    Ok(owned)
}

fn call_on_command(words: &[String], row: &Row, case: &mut Case) -> Result<(), Stop> {
    let (_, wanted, _, _) = *row;
    let answer = measured!(case, command(case.alloc(), words));
    match answer? {
        Some(asked) => value(is_asked(&asked, wanted)),
        None => Err(Stop::WrongValue),
    }
}

// Whether it is the command of these words.
fn is_asked(asked: &Command<'_>, words: &[&str]) -> bool {
    match (asked, words) {
        (Command::Print, [word]) => *word == "print",
        (Command::Text, [word]) => *word == "text",
        (Command::Again, [word]) => *word == "again",
        (Command::Edit(steps), [word, _]) => *word == "edit"
            && steps.as_slice() == STEPS.as_slice(),
        (Command::Id(id), [word, wanted]) => *word == "id" && *id == *wanted,
        (Command::Class(member), [word, wanted]) => *word == "class" && *member == *wanted,
        (Command::Select(text), [word, wanted]) => *word == "select" && *text == *wanted,
        _ => false,
    }
}

fn call_on_output(asked: &Command<'_>, row: &Row, case: &mut Case) -> Result<(), Stop> {
    let (_, _, page, wanted) = *row;
    let answer = measured!(case, output(case.alloc(), asked, page));
    match answer {
        Ok(text) => value(text.as_bytes() == wanted),
        Err(Failure::OutOfMemory) => Err(Stop::NoMemory),
        Err(_) => Err(Stop::WrongError),
    }
}

// The writer has room for the page, so that it makes no request of its own. Without memory nothing
// is written.
fn call_on_run(asked: &Command<'_>, row: &Row, case: &mut Case) -> Result<(), Stop> {
    let (_, _, page, wanted) = *row;
    let mut written = Vec::with_capacity(case.alloc(), wanted.len())?;
    let mut reader = Marked::new(page);
    case.begin()?;
    let status = {
        let mut writer = Marked::new(&mut written);
        run(case.alloc(), asked, &mut reader, &mut writer)
    };
    case.end();
    is_written(status, &written, wanted)
}

fn call_on_run_words(words: &[String], row: &Row, case: &mut Case) -> Result<(), Stop> {
    let (_, _, page, wanted) = *row;
    let mut written = Vec::with_capacity(case.alloc(), wanted.len())?;
    let mut reader = Marked::new(page);
    case.begin()?;
    let status = {
        let mut writer = Marked::new(&mut written);
        run_words(case.alloc(), words, &mut reader, &mut writer)
    };
    case.end();
    is_written(status, &written, wanted)
}

fn is_written(status: u8, written: &Vec<u8>, wanted: &[u8]) -> Result<(), Stop> {
    match status {
        0 => value(written.as_slice() == wanted),
        3 => refused(written.is_empty()),
        _ => Err(Stop::WrongError),
    }
}
