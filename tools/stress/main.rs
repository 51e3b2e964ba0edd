//! Hostile use of the library, and whether it answers as it must: pages that are cut anywhere,
//! tables that are very deep or very wide, handles that fall, selectors of very many parts and very
//! many steps. Each thing that is asked ends in a line, with status 0; where an answer is wrong the
//! line says which, with status 1. `./x stress` goes through all of them.
//!
//! | Words | What is done |
//! |---|---|
//! | `cuts` | the pages of standard input, which the character U+001E ends, are cut at each character boundary and read |
//! | `pages` | so are broken pages of its own |
//! | `nested N` | a page of so many tags, each in the one before it, is read, printed, searched, edited and dropped |
//! | `wide N` | a page of so many tags, all but the first in that one |
//! | `falling N` | a table of so many tags, each the child of the one after it |
//! | `parts N` | selectors of so many parts |
//! | `lines N` | so many lines that say steps |
//! | none | `pages`, and the others with 2000 |
#![tactic(auto)]

mod cuts;
mod deep;
mod lines;
mod pages;
mod parts;
mod wrong;

use std::process::ExitCode;
use std::{env, io};
use wrong::Wrong;

fn main(rt: HostRuntime) -> ExitCode {
    match run(&rt) {
        Ok(()) => ExitCode::SUCCESS,
        Err(wrong) => {
            let _ = eprintln!(rt; "stress: {}", wrong.line());
            ExitCode::from(wrong.status())
        }
    }
}

// The words after the program's name.
fn arguments(rt: &HostRuntime) -> Result<Vec<String>, Wrong> {
    let mut words = Vec::new(rt.alloc());
    for word in env::args(rt)?.skip(1) {
        words.push(word)?;
    }
    Ok(words)
}

// Does what the words ask for.
fn run(rt: &HostRuntime) -> Result<(), Wrong> {
    let words = arguments(rt)?;
    match words.as_slice() {
        [] => all(rt),
        [word] => run_word(rt, word.as_str()),
        [word, count] => match count.as_str().parse::<u32>() {
            Ok(count) => run_count(rt, word.as_str(), count),
            Err(_) => Err(Wrong::NotUnderstood),
        },
        _ => Err(Wrong::NotUnderstood),
    }
}

fn all(rt: &HostRuntime) -> Result<(), Wrong> {
    run_word(rt, "pages")?;
    run_count(rt, "nested", 2000)?;
    run_count(rt, "wide", 2000)?;
    run_count(rt, "falling", 2000)?;
    run_count(rt, "parts", 2000)?;
    run_count(rt, "lines", 2000)
}

// What a word asks for that stands alone.
fn run_word(rt: &HostRuntime, word: &str) -> Result<(), Wrong> {
    match word {
        "pages" => cuts::all(rt, &pages::PAGES),
        "cuts" => {
            let pages = io::read_to_string(rt.alloc(), rt.stdin())?;
            cuts::cut_text(rt, pages.as_str())
        }
        _ => Err(Wrong::NotUnderstood),
    }
}

// What a word asks for with a number.
fn run_count(rt: &HostRuntime, word: &str, count: u32) -> Result<(), Wrong> {
    match word {
        "nested" => deep::check_nested(rt.alloc(), count)?,
        "wide" => deep::check_wide(rt.alloc(), count)?,
        "falling" => deep::check_falling(rt.alloc(), count)?,
        "parts" => parts::all(rt.alloc(), count)?,
        "lines" => lines::all(rt.alloc(), count)?,
        _ => return Err(Wrong::NotUnderstood),
    }
    println!(rt; "{word} {count}: as it must be")?;
    Ok(())
}
