//! What is measured, as one would write it by hand in Rust: the judge twice, a
//! case at a time, and 63 cases at a time on bit planes; the relevant facts of a
//! run; the search among short plans; following a list; and merging two halls. All
//! have the same reading and the library's answers, and share nothing with it.

pub mod follow;
pub mod merge;
pub mod planes;
pub mod read;
pub mod relevance;
pub mod scalar;
pub mod search;

pub use read::Refusal;

#[derive(Clone, Copy, Debug, PartialEq, Eq)]
pub enum Outcome {
    Reached,
    Missed,
    Blocked { step: usize, part: Part },
}

/// What makes a step not applicable.
#[derive(Clone, Copy, Debug, PartialEq, Eq, PartialOrd, Ord)]
pub enum Part {
    /// The first false member of its precondition if that is an "all", or else 0.
    Member(usize),
    /// The lowest fact with both conditions true, under a true precondition.
    Fact(usize),
}

#[derive(Clone, Copy, Debug, PartialEq, Eq)]
pub enum Verdict {
    Refused {
        number: u8,
        place: usize,
    },
    Right {
        lines: u64,
        visits: u64,
    },
    Wrong {
        state: u64,
        outcome: Outcome,
        visits: u64,
    },
    Undecided {
        visits: u64,
    },
}

impl From<Refusal> for Verdict {
    fn from(Refusal { number, place }: Refusal) -> Verdict {
        Verdict::Refused { number, place }
    }
}
