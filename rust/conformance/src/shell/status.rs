//! The status that the program exits with.

use super::Answer;
use crate::oracle::{Outcome, Refusal, Search, Verdict};

/// Right, passes, reached or found.
pub const YES: i32 = 0;
/// Wrong, a list that does not hold, missed, blocked, or no plan found.
pub const NO: i32 = 1;
pub const UNDECIDED: i32 = 2;
/// A block, a text or a list of names is malformed.
pub const MALFORMED: i32 = 3;
/// A file, or the standard output, cannot be read or written.
pub const UNWRITTEN: i32 = 4;
/// The command line is wrong.
pub const USAGE: i32 = 64;

pub fn status_of(answer: &Result<Answer, Refusal>) -> i32 {
    match answer {
        Ok(answer) => answered(answer),
        Err(refusal) => refused(refusal.number),
    }
}

fn answered(answer: &Answer) -> i32 {
    match answer {
        Answer::Written(_) | Answer::Followed(_) | Answer::Rests(_) => YES,
        Answer::Judged(Verdict::Right { .. }) => YES,
        Answer::Judged(Verdict::Wrong { .. }) => NO,
        Answer::Judged(Verdict::Undecided { .. }) => UNDECIDED,
        Answer::Ran(Outcome::Reached) => YES,
        Answer::Ran(Outcome::Missed | Outcome::Blocked { .. }) => NO,
        Answer::Searched(Search::Found { .. }) => YES,
        Answer::Searched(Search::NoneRight { .. }) => NO,
        Answer::Searched(Search::Undecided { .. }) => UNDECIDED,
    }
}

/// What was asked for on the command line is wrong there; what a well-formed block
/// does not do is a no.
fn refused(number: u64) -> i32 {
    match number {
        40 | 43 | 44 => USAGE,
        41 | 51 | 65..=70 => NO,
        50 => UNDECIDED,
        52 | 53 => UNWRITTEN,
        _ => MALFORMED,
    }
}
