//! The least times of some runs.
use crate::failure::Failed;
use crate::work::Work;
use std::mem;
use std::time::{Duration, Instant};
use tl::ParserOptions;

/// How long reading, the work and the drop of a document took, and what the work answered.
#[derive(Clone, Copy)]
pub struct Times {
    pub read: Duration,
    pub work: Duration,
    pub drop: Duration,
    pub answer: usize,
}

impl Times {
    // The shorter one of each time, and the later answer.
    fn and_then(self, later: Times) -> Times {
        Times {
            read: self.read.min(later.read),
            work: self.work.min(later.work),
            drop: self.drop.min(later.drop),
            answer: later.answer,
        }
    }
}

// Reads the page, does the work, and drops the document.
fn once(rt: &HostRuntime, page: &str, work: &Work<'_>) -> Result<Times, Failed> {
    let start = Instant::now(rt)?;
    let mut document = tl::parse(rt.alloc(), page, work.options())?;
    let read = start.elapsed(rt)?;
    let start = Instant::now(rt)?;
    let answer = work.run(rt.alloc(), &mut document)?;
    let done = start.elapsed(rt)?;
    let start = Instant::now(rt)?;
    mem::drop(document);
    let drop = start.elapsed(rt)?;
    Ok(Times {
        read,
        work: done,
        drop,
        answer,
    })
}

// Reads a copy of the page into a document that keeps it, and drops that. The copy is not timed.
fn once_owned(rt: &HostRuntime, page: &str) -> Result<Times, Failed> {
    let text = page.to_string(rt.alloc())?;
    let start = Instant::now(rt)?;
    let document = tl::parse_owned(rt.alloc(), text, ParserOptions::new())?;
    let read = start.elapsed(rt)?;
    let answer = document.get_ref().nodes().len();
    let start = Instant::now(rt)?;
    mem::drop(document);
    let drop = start.elapsed(rt)?;
    Ok(Times {
        read,
        work: Duration::ZERO,
        drop,
        answer,
    })
}

// One run of the work.
fn run(rt: &HostRuntime, page: &str, work: &Work<'_>) -> Result<Times, Failed> {
    match work {
        Work::ReadOwned => once_owned(rt, page),
        _ => once(rt, page, work),
    }
}

/// The least times of so many runs, and of one at least.
pub fn least_times(
    rt: &HostRuntime,
    page: &str,
    work: &Work<'_>,
    times: u32,
) -> Result<Times, Failed> {
    let mut best = run(rt, page, work)?;
    for _ in 1..times {
        best = best.and_then(run(rt, page, work)?);
    }
    Ok(best)
}
