//! Where the call of a case begins and ends, among the requests for memory of its run.
use crate::stop::Stop;
use std::alloc::Global;

// More than a run makes before the request that is refused.
const MOST: u32 = 2000;

/// How far a case is.
#[derive(Clone, Copy)]
pub enum Point {
    /// What the call needs is made.
    Before,
    /// The call is made.
    Begun,
    /// The call has answered. So many requests stand between it and the one that is refused, or
    /// that one came before.
    Ended(Option<u32>),
}

/// A case: one call, and which of its requests is refused. In a run always the request of the same
/// number is refused, so a case makes as many between what the call needs and the call itself as
/// bring that number into the call.
#[derive(Drop)]
pub struct Case {
    alloc: Global,
    before: Option<u32>,
    point: Point,
}

impl Case {
    /// A case with so many requests right before the call, or, where there is no number, one that
    /// ends there.
    pub fn new(alloc: Global, before: Option<u32>) -> Self {
        Case {
            alloc,
            before,
            point: Point::Before,
        }
    }

    /// What the calls take their memory from.
    pub fn alloc(&self) -> Global {
        self.alloc
    }

    /// How far it is.
    pub fn point(&self) -> Point {
        self.point
    }

    /// The call follows.
    pub fn begin(&mut self) -> Result<(), Stop> {
        let Some(before) = self.before else {
            self.end();
            return Err(Stop::NoCall);
        };
        for _ in 0..before {
            Box::new(self.alloc, 0u8)?;
        }
        self.point = Point::Begun;
        Ok(())
    }

    /// The call has answered. What follows may take memory: the request that is refused lies
    /// behind.
    pub fn end(&mut self) {
        self.point = Point::Ended(remaining_requests(self.alloc));
    }
}

// How many requests are met before one is refused, if one is.
fn remaining_requests(alloc: Global) -> Option<u32> {
    (0..MOST).find(|_| Box::new(alloc, 0u8).is_err())
}

/// Makes the call of a case, whose requests for memory are counted, and answers what it answers.
#[macro_export]
macro_rules! measured {
    ($case:ident, $call:expr) => {{
        $case.begin()?;
        let answer = $call;
        $case.end();
        answer
    }};
    ($case:ident, $call:expr => $answer:ty) => {{
        $case.begin()?;
        let answer: $answer = $call;
        $case.end();
        answer
    }};
}
