//! What the shell's program says: on standard output, on standard error and by its
//! exit status, from the oracle's answers and from trees.
//!
//! [`lines`] are the answers as text, [`json`] as JSON and [`words`] the refusals in
//! words; [`text`] is a problem and a plan as a person reads them, and [`explanation`]
//! a run, told step by step. [`Manner`] puts them together, a method a command.

pub mod explanation;
pub mod json;
pub mod lines;
pub mod names;
pub mod status;
pub mod text;
pub mod words;

use crate::desk;
use crate::model::Problem;
use crate::oracle::{self, Outcome, Refusal, Search, Task, Verdict};
use crate::version::Version;

pub use names::Names;
use status::{status_of, NO, YES};

/// What every command judges with that is not told another grant.
pub const GRANT: u64 = desk::GRANT;

/// What an operation answered that did not refuse.
#[derive(Clone, Debug, PartialEq, Eq)]
pub enum Answer {
    Judged(Verdict),
    /// The bytes of the list.
    Written(u64),
    /// The lines of the list, which passes.
    Followed(u64),
    Ran(Outcome),
    /// The state in which exactly the facts are true that a run rests on.
    Rests(u64),
    Searched(Search),
}

/// All that a program says.
#[derive(Clone, Debug, PartialEq, Eq)]
pub struct Said {
    pub status: i32,
    pub output: String,
    pub error: String,
}

impl Said {
    /// An output, and nothing on standard error.
    pub fn plainly(status: i32, output: String) -> Said {
        let error = String::new();
        Said {
            status,
            output,
            error,
        }
    }

    /// Nothing but words on standard error.
    pub fn failing(status: i32, error: &str) -> Said {
        Said {
            status,
            output: String::new(),
            error: format!("larkhammock: {error}\n"),
        }
    }
}

/// How a command is asked to speak.
#[derive(Clone, Copy, Debug)]
pub struct Manner<'a> {
    pub names: &'a Names,
    pub json: bool,
}

impl Manner<'_> {
    pub fn judge(&self, problem: &[u8], plan: &[u8], grant: u64) -> Said {
        let verdict = oracle::judge(problem, plan, grant);
        self.said(problem, verdict.map(Answer::Judged))
    }

    /// What it says where the list is written whole, or refused.
    pub fn write(&self, problem: &[u8], plan: &[u8], grant: u64) -> Said {
        let written = oracle::write_list(problem, plan, grant, usize::MAX);
        let length = written.map(|list| list.len() as u64);
        self.said(problem, length.map(Answer::Written))
    }

    pub fn follow(&self, problem: &[u8], plan: &[u8], list: &[u8]) -> Said {
        let lines = oracle::follow_list(problem, plan, list);
        self.said(problem, lines.map(Answer::Followed))
    }

    pub fn run(&self, problem: &[u8], plan: &[u8], state: u64) -> Said {
        let outcome = oracle::run(problem, plan, state);
        self.said(problem, outcome.map(Answer::Ran))
    }

    /// The facts that the run rests on, and, where a person reads it, its states.
    pub fn facts(&self, problem: &[u8], plan: &[u8], state: u64) -> Said {
        let reached = oracle::relevant_facts(problem, plan, state, usize::MAX);
        let set = reached.as_ref().map(|run| run.set).map_err(|r| *r);
        let mut said = self.said(problem, set.map(Answer::Rests));
        if let (Ok(run), false) = (reached, self.json) {
            for (number, values) in run.states.iter().enumerate() {
                let state = self.names.state(values);
                said.output += &format!("state {number} {state}\n");
            }
        }
        said
    }

    pub fn search(&self, problem: &[u8], longest: u64, grant: u64) -> Said {
        let search = oracle::search_plans(problem, longest, grant);
        self.said(problem, search.map(Answer::Searched))
    }

    /// The run that makes a plan wrong. Any other verdict is told as judging tells it.
    pub fn explain(&self, problem: &[u8], plan: &[u8], grant: u64) -> Said {
        match oracle::judge(problem, plan, grant) {
            Ok(Verdict::Wrong { state, .. }) => {
                let task = Task::parse(problem, plan).expect("it was judged");
                let told = explanation::explanation(self.names, &task, state);
                self.texts(NO, told)
            }
            _ => self.judge(problem, plan, grant),
        }
    }

    /// The text of a problem, and of a plan where there is one.
    pub fn show(&self, problem: &[u8], plan: Option<&[u8]>) -> Said {
        match shown(self.names, problem, plan) {
            Ok(text) => self.texts(YES, text),
            Err(refusal) => self.refused(refusal),
        }
    }

    fn texts(&self, status: i32, text: String) -> Said {
        let output = match self.json {
            true => json::of_text(&text),
            false => text,
        };
        Said::plainly(status, output)
    }

    fn said(&self, problem: &[u8], answer: Result<Answer, Refusal>) -> Said {
        let answer = match answer {
            Err(refusal) => return self.refused(refusal),
            Ok(answer) => answer,
        };
        let tree = oracle::read_problem(problem).expect("it was answered");
        let output = match self.json {
            true => json::of_answer(&answer),
            false => lines::of_answer(self.names, &tree, &answer),
        };
        Said::plainly(status_of(&Ok(answer)), output)
    }

    fn refused(&self, refusal: Refusal) -> Said {
        let output = match self.json {
            true => json::of_refusal(&refusal),
            false => lines::of_refusal(&refusal),
        };
        Said {
            status: status_of(&Err(refusal)),
            output,
            error: words::of_refusal(&refusal),
        }
    }
}

fn shown(names: &Names, problem: &[u8], plan: Option<&[u8]>) -> Result<String, Refusal> {
    let Some(plan) = plan else {
        return Ok(text::of_problem(names, &oracle::read_problem(problem)?));
    };
    let Task { problem, plan } = Task::parse(problem, plan)?;
    Ok(text::of_problem(names, &problem) + &text::of_plan(names, &plan))
}

/// A state as it is named on the command line: a mark a fact.
pub fn marks(problem: &Problem, state: u64) -> String {
    marked(&problem.version, state, problem.facts)
}

fn marked(version: &Version, state: u64, facts: u8) -> String {
    let values = version.values(state, facts).into_iter();
    values.map(|yes| if yes { '1' } else { '0' }).collect()
}
