//! Refusals in words, as on standard error.

use crate::oracle::Refusal;

/// What a refusal is of.
pub fn subject(number: u64) -> &'static str {
    match number {
        10..=25 => "problem",
        30..=34 => "plan",
        40 => "state",
        41 | 42 => "run",
        43 | 44 => "search",
        _ => "list",
    }
}

/// As in "it ends too early".
pub fn of_number(number: u64) -> &'static str {
    match number {
        10 | 30 | 60 => "it is longer than such a block may be",
        11 | 31 | 61 => "it has no whole header",
        12 | 32 | 62 => "it is of no known version",
        13 | 33 | 63 => "its header states another length",
        14 => "it ends too early",
        15 => "it has too few or too many facts",
        16 => "it has too many actions",
        17 => "a formula is empty or too long",
        18 => "no literal of a declared fact, and no group that may stand here",
        19 => "groups stand too deep in one another",
        20 => "a formula ends too early",
        21 => "a formula has bytes left over",
        22 => "an action has too many effects",
        23 => "an effect is of no declared fact",
        24 => "an effect is out of order",
        25 => "bytes follow the last action",
        34 => "a step names no action",
        40 => "it sets a fact that is not declared",
        41 => "it does not reach the goal",
        42 => "there is no room for its states",
        43 => "plans of so many steps are not searched",
        44 => "there are too many plans to try",
        50 => "the grant does not suffice to judge the plan",
        51 => "the plan is wrong",
        52 => "it would have more lines than a list may have",
        53 => "there is no room for it",
        64 => "its last line is not whole",
        65 => "it is of no known kind",
        66 => "it fixes facts that are not declared",
        67 => "it sets a fact that it does not fix",
        68 => "it does not begin where the line before ended",
        69 => "its claim is not so",
        70 => "the lines do not cover every state",
        71 => "its version is not that of the problem",
        _ => panic!("no command of the program is refused with {number}"),
    }
}

/// The line on standard error.
pub fn of_refusal(refusal: &Refusal) -> String {
    let Refusal { number, place } = *refusal;
    let place = match number {
        40..=53 => String::new(),
        65..=70 => format!(", at line {place}"),
        _ => format!(", at byte {place}"),
    };
    let (subject, words) = (subject(number), of_number(number));
    format!("larkhammock: {subject}: {words} ({number}){place}\n")
}
