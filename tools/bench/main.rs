//! Times the library on a page: `WORD TEXT FILE TIMES` reads the file's page and does what the word
//! says, so many times, and prints the least time of reading, of that work and of the document's
//! drop, in nanoseconds.
//!
//! | Word | Work | The answer, a number that depends on it |
//! |---|---|---|
//! | `parse` | none | the nodes |
//! | `parse_owned` | none; the page is read into a document that keeps its text | the nodes |
//! | `print` | the document is printed | the bytes of the print |
//! | `text` | the texts of the top nodes | their bytes |
//! | `again` | the print is read and printed | the bytes of that print |
//! | `edit` | the steps that TEXT says | the nodes |
//! | `select` | the nodes where the selector TEXT holds | how many |
//! | `id`, `id_scan` | the tag with the id TEXT, with tracked ids and without | its number |
//! | `class`, `class_scan` | the tags with the class TEXT, with tracked classes and without | how many |
#![tactic(auto)]

mod failure;
mod times;
mod work;

use failure::Failed;
use std::process::ExitCode;
use std::{env, fs};
use times::{Times, least_times};
use work::work_of;

fn main(rt: HostRuntime) -> ExitCode {
    match bench(&rt) {
        Ok(()) => ExitCode::SUCCESS,
        Err(failed) => {
            let _ = eprintln!(rt; "bench: {}", failed.line());
            ExitCode::from(failed as u8)
        }
    }
}

// The words after the program's name.
fn arguments(rt: &HostRuntime) -> Result<Vec<String>, Failed> {
    let mut words = Vec::new(rt.alloc());
    for word in env::args(rt)?.skip(1) {
        if words.push(word).is_err() {
            return Err(Failed::Refused);
        }
    }
    Ok(words)
}

// Does what the words say, and prints the times.
fn bench(rt: &HostRuntime) -> Result<(), Failed> {
    let words = arguments(rt)?;
    let [word, text, file, times] = words.as_slice() else {
        return Err(Failed::NotUnderstood);
    };
    let Some(work) = work_of(rt.alloc(), word.as_str(), text.as_str())? else {
        return Err(Failed::NotUnderstood);
    };
    let Ok(times) = times.as_str().parse::<u32>() else {
        return Err(Failed::NotUnderstood);
    };
    let page = fs::read_to_string(rt, file.as_str())?;
    let best = least_times(rt, page.as_str(), &work, times)?;
    print(rt, page.len(), &best)
}

fn print(rt: &HostRuntime, bytes: usize, best: &Times) -> Result<(), Failed> {
    println!(rt;
        "bytes={} parse={} op={} drop={} answer={}",
        bytes,
        best.read.as_nanos(),
        best.work.as_nanos(),
        best.drop.as_nanos(),
        best.answer
    )?;
    Ok(())
}
