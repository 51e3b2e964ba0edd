//! One call that takes memory, or promises to take none, in a run in which one request for memory
//! is refused.
//!
//! Standard input says which call, and how many requests are made right before it, so that the one
//! that is refused is one of its own; without that number the case ends right before the call. One
//! line is written: the name of the call, and before it how it ended. `./x oom` goes through all
//! requests of all calls.
//!
//! | Line begins | Status | Says |
//! |---|---|---|
//! | a number | 0 | the call took as much memory as it wanted and answered the right value; so many requests were made then until one was refused |
//! | `refused` | 3 | a request of the call was refused, and it answered want of memory and left what it promises |
//! | else | 1 | the call did something else, which the line names |
//!
//! There is no line, and the status is 2, where there is no such call.
#![tactic(auto)]

mod asked;
mod byte_strings;
mod case;
mod containers;
mod documents;
mod guards;
mod large;
mod numbers;
mod pages;
mod patches;
mod policies;
mod program;
mod script;
mod selectors;
mod stop;
mod styles;
mod tags;
mod texts;
mod tracking;
mod writes;

use case::{Case, Point};
use std::alloc::Global;
use std::io::Read;
use std::process::ExitCode;
use stop::Stop;

// Each module has room for so many calls.
const CALLS: usize = 32;

/// The name of a call, and how its case ended.
pub type Named = (&'static str, Result<(), Stop>);

fn main(rt: HostRuntime) -> ExitCode {
    let (number, before) = case_numbers(&rt);
    let mut case = Case::new(rt.alloc(), before);
    match call(number, &mut case) {
        Some((name, answer)) => report(&rt, name, ending_of(answer, case.point())),
        None => ExitCode::from(2),
    }
}

// The call of a number.
fn call(number: usize, case: &mut Case) -> Option<Named> {
    let place = number % CALLS;
    match number / CALLS {
        0 => byte_strings::call(place, case),
        1 => containers::call(place, case),
        2 => documents::call(place, case),
        3 => texts::call(place, case),
        4 => numbers::call(place, case),
        5 => selectors::call(place, case),
        6 => script::call(place, case),
        7 => program::call(place, case),
        8 => tracking::call(place, case),
        9 => guards::call(place, case),
        10 => large::call(place, case),
        11 => styles::call(place, case),
        12 => patches::call(place, case),
        13 => tags::call(place, case),
        14 => pages::call(place, case),
        15 => writes::call(place, case),
        16 => policies::call(place, case),
        17 => asked::call(place, case),
        _ => None,
    }
}

// The numbers on standard input.
fn case_numbers(rt: &HostRuntime) -> (usize, Option<u32>) {
    let mut words = [0u8; 16];
    let len = rt.stdin().read(&mut words).unwrap_or(0);
    let text = str::from_utf8(&words[..len]).unwrap_or("");
    match text.split_once(' ') {
        Some((call, before)) => (number(call), before.parse().ok()),
        None => (number(text), None),
    }
}

fn number(digits: &str) -> usize {
    digits.parse().unwrap_or(usize::MAX)
}

// How a case ended.
enum Ending {
    Whole(u32),
    Refused,
    Wrong(&'static str),
}

fn ending_of(answer: Result<(), Stop>, point: Point) -> Ending {
    match (answer, point) {
        (Ok(()), Point::Ended(Some(left))) => Ending::Whole(left),
        (Err(Stop::NoCall), Point::Ended(Some(left))) => Ending::Whole(left),
        (Err(Stop::NoMemory), Point::Ended(None)) => Ending::Refused,
        (Ok(()), _) => Ending::Wrong("answered though memory was refused"),
        (Err(Stop::NoMemory), Point::Ended(_)) => Ending::Wrong(
            "no memory though none was refused",
        ),
        (Err(Stop::NoMemory), _) => Ending::Wrong("no memory before the call"),
        (Err(Stop::NoCall), _) => Ending::Wrong("no request is refused"),
        (Err(Stop::WrongValue), _) => Ending::Wrong("another value"),
        (Err(Stop::WrongError), _) => Ending::Wrong("another error"),
        (Err(Stop::Changed), _) => Ending::Wrong("changed though it was refused"),
    }
}

// Writes the line of a case, and answers its status.
fn report(rt: &HostRuntime, name: &str, ending: Ending) -> ExitCode {
    let (written, status) = match ending {
        Ending::Whole(left) => (println!(rt; "{left} {name}"), 0),
        Ending::Refused => (println!(rt; "refused {name}"), 3),
        Ending::Wrong(what) => (println!(rt; "{what}: {name}"), 1),
    };
    match written {
        Ok(()) => ExitCode::from(status),
        Err(_) => ExitCode::from(4),
    }
}
