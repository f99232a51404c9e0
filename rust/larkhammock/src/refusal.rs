//! Why a call was turned down.

use std::error::Error;
use std::fmt;

/// A call that was turned down: the first fault met, and where.
///
/// ```
/// let refusal = larkhammock::read_problem(&[1, 0, 0]).unwrap_err();
/// assert_eq!((refusal.number, refusal.place), (11, 3));
/// assert_eq!(
///     refusal.to_string(),
///     "refused 11 at 3: the problem is shorter than five bytes"
/// );
/// ```
#[derive(Clone, Copy, Debug, PartialEq, Eq, Hash)]
pub struct Refusal {
    /// Which fault: 10 to 25 for a problem, 30 to 34 for a plan, 40 for a
    /// state, 41 and 42 for the facts that its run rests on, 43 and 44 for a search,
    /// 50 to 53 for writing a list, 60 to 71 for following one, 82 to 86 for merging
    /// two problems.
    pub number: u64,
    /// Where: a byte's position, or what the fault's description says.
    pub place: u64,
}

impl Refusal {
    /// A state that is none of the problem's.
    pub(crate) const NO_STATE: Refusal = Refusal {
        number: 40,
        place: 0,
    };

    /// What the number means, in words.
    pub fn meaning(&self) -> &'static str {
        match self.number {
            10 => "the problem is longer than 32,768 bytes",
            11 => "the problem is shorter than five bytes",
            12 => "the problem's version is neither 1 nor 2",
            13 => "the problem's length field differs from the bytes that follow",
            14 => "the problem ends inside a field or a formula",
            15 => "the fact count is not 1 to 48 (version 2: 64)",
            16 => "the action count is over 64",
            17 => "the formula's length is not 1 to 1,024",
            18 => "the byte is not allowed there in a formula",
            19 => "the group is nested more than 8 deep",
            20 => "the formula's stated bytes end too soon",
            21 => "the formula is complete with stated bytes left",
            22 => "the effect count is over 96 (version 2: 128)",
            23 => "the effect's literal is not of a declared fact",
            24 => "the effect's literal is not above the one before",
            25 => "bytes follow the last action",
            30 => "the plan is longer than 261 bytes",
            31 => "the plan is shorter than five bytes",
            32 => "the plan's version is not 1",
            33 => "the plan's length field differs from the bytes that follow",
            34 => "the step names no action",
            40 => "the state is none of the problem's: it goes past its facts",
            41 => "the run does not reach the goal",
            42 => "the work area is too short for the states of the run",
            43 => "the longest length is over 4",
            44 => "there are more than 1,000,000 plans of those lengths",
            50 => "the plan is undecided after these visits",
            51 => "the plan is wrong, found after these visits",
            52 => "the list has more than 8,191 lines (version 2: 6,553): this many",
            53 => "the buffer is too short for a list of this many lines",
            60 => "the list is longer than 65,533 bytes (version 2: 65,535)",
            61 => "the list is shorter than five bytes",
            62 => "the list's version is neither 1 nor 2",
            63 => "the list's length field differs from the bytes that follow",
            64 => "the list's body is no multiple of 8 bytes (version 2: 10)",
            65 => "the line's kind is over 1",
            66 => "the line's k is over the fact count",
            67 => "the line has a bit set past its first k",
            68 => "the line does not begin where the one before ended",
            69 => "the line's claim is not so",
            70 => "the list does not end at the last state",
            71 => "the list's version is not its problem's",
            82 => "together they have over 64 facts",
            83 => "together they have over 64 actions",
            84 => "the merged initial formula or goal is over 1,024 bytes, 255 members or 8 deep",
            85 => "the merged problem is longer than 32,768 bytes",
            86 => "the buffer is too short for the merged problem, or the table for its actions",
            _ => "a number that this version does not know",
        }
    }
}

impl fmt::Display for Refusal {
    fn fmt(&self, f: &mut fmt::Formatter<'_>) -> fmt::Result {
        let Refusal { number, place } = self;
        write!(f, "refused {number} at {place}: {}", self.meaning())
    }
}

impl Error for Refusal {}
