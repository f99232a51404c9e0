//! Answers as JSON: an object on a line of its own, with its keys in alphabetical
//! order and no blanks.

use super::Answer;
use crate::oracle::{Outcome, Part, Refusal, Search, Verdict};

/// The name of a field, and its value as it is written.
type Field = (&'static str, String);

pub fn of_answer(answer: &Answer) -> String {
    object(match answer {
        Answer::Judged(verdict) => of_verdict(verdict),
        Answer::Written(bytes) => vec![said("written"), number("length", *bytes)],
        Answer::Followed(lines) => vec![said("passes"), number("lines", *lines)],
        Answer::Ran(outcome) => {
            let (word, fields) = of_outcome(outcome);
            [vec![said(word)], fields].concat()
        }
        Answer::Rests(set) => vec![said("rests"), number("set", *set)],
        Answer::Searched(search) => of_search(search),
    })
}

pub fn of_refusal(refusal: &Refusal) -> String {
    object(vec![
        said("refused"),
        number("number", refusal.number),
        number("place", refusal.place),
    ])
}

/// A text of several lines.
pub fn of_text(text: &str) -> String {
    object(vec![("text", string(text))])
}

/// The blocks that were made of a text.
pub fn of_made(length: u64) -> String {
    object(vec![said("made"), number("length", length)])
}

fn of_verdict(verdict: &Verdict) -> Vec<Field> {
    match verdict {
        Verdict::Right { lines, visits } => vec![
            said("right"),
            number("lines", *lines),
            number("visits", *visits),
        ],
        Verdict::Wrong {
            state,
            outcome,
            visits,
        } => {
            let (word, fields) = of_outcome(outcome);
            let wrong = vec![
                said("wrong"),
                ("outcome", string(word)),
                number("state", *state),
                number("visits", *visits),
            ];
            [wrong, fields].concat()
        }
        Verdict::Undecided { visits } => vec![said("undecided"), number("visits", *visits)],
    }
}

/// Its word, and where it was blocked.
fn of_outcome(outcome: &Outcome) -> (&'static str, Vec<Field>) {
    match outcome {
        Outcome::Reached => ("reached", Vec::new()),
        Outcome::Missed => ("missed", Vec::new()),
        Outcome::Blocked { step, part } => {
            let (part, which) = match part {
                Part::Member(member) => ("member", *member),
                Part::Fact(fact) => ("fact", *fact),
            };
            let fields = vec![
                number("number", which),
                ("part", string(part)),
                number("step", *step),
            ];
            ("blocked", fields)
        }
    }
}

fn of_search(search: &Search) -> Vec<Field> {
    let (word, plan, visits) = match search {
        Search::Found { plan, visits } => ("found", Some(plan), visits),
        Search::NoneRight { visits } => ("none", None, visits),
        Search::Undecided { plan, visits } => ("undecided", Some(plan), visits),
    };
    let steps = plan.map(|plan| {
        let steps: Vec<String> = plan.iter().map(u8::to_string).collect();
        ("steps", format!("[{}]", steps.join(",")))
    });
    let mut fields = vec![said(word), number("visits", *visits)];
    fields.extend(steps);
    fields
}

fn said(word: &str) -> Field {
    ("answer", string(word))
}

fn number(name: &'static str, number: u64) -> Field {
    (name, number.to_string())
}

fn object(mut fields: Vec<Field>) -> String {
    fields.sort();
    let fields: Vec<String> = fields
        .iter()
        .map(|(name, value)| format!("\"{name}\":{value}"))
        .collect();
    format!("{{{}}}\n", fields.join(","))
}

fn string(text: &str) -> String {
    let letters: String = text.chars().map(escaped).collect();
    format!("\"{letters}\"")
}

fn escaped(letter: char) -> String {
    match letter {
        '"' => "\\\"".into(),
        '\\' => "\\\\".into(),
        '\n' => "\\n".into(),
        '\r' => "\\r".into(),
        '\t' => "\\t".into(),
        '\u{8}' => "\\b".into(),
        '\u{c}' => "\\f".into(),
        control @ '\0'..'\u{20}' => format!("\\u{:04x}", u32::from(control)),
        other => other.into(),
    }
}
