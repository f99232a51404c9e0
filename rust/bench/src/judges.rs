//! The three judges: the library's, and the walk in plain Rust, a case at a time and on
//! planes.

use std::collections::BTreeMap;
use std::hint::black_box;

use larkhammock::{Outcome, Part, Verdict};

use crate::figure::{agreed, Figure};
use crate::plain;
use crate::problems::Measured;
use crate::timing::times;

/// What they take on problems and plans. Each is measured once, so that all tables that
/// have it show the same figures.
#[derive(Default)]
pub struct Judges {
    known: BTreeMap<Blocks, Judged>,
}

/// A problem and a plan.
type Blocks = (Vec<u8>, Vec<u8>);

/// The visits of a walk, and the times of whole calls.
#[derive(Clone, Copy)]
pub struct Judged {
    pub visits: u64,
    pub ours: Figure,
    pub scalar: Figure,
    pub planes: Figure,
}

impl Judges {
    /// What they take on each of these.
    pub fn measure(&mut self, all: &[Measured]) -> Vec<Judged> {
        let new: Vec<&Measured> = all
            .iter()
            .filter(|m| !self.known.contains_key(&blocks(m)))
            .collect();
        let figures = agreed(&new, |measured| {
            let Measured { problem, plan, .. } = measured;
            times(&[problem, plan], [&judge, &scalar_judge, &planes_judge])
        });
        for (measured, [ours, scalar, planes]) in new.iter().zip(figures) {
            let judged = Judged {
                visits: visits(measured),
                ours,
                scalar,
                planes,
            };
            self.known.insert(blocks(measured), judged);
        }
        all.iter().map(|m| self.known[&blocks(m)]).collect()
    }
}

fn blocks(measured: &Measured) -> Blocks {
    (measured.problem.clone(), measured.plan.clone())
}

/// The visits of the walk, which all must count alike.
fn visits(measured: &Measured) -> u64 {
    let Measured { problem, plan, .. } = measured;
    let ours = library(problem, plan, u64::MAX);
    let scalar = plain::scalar::judge(problem, plan, u64::MAX);
    let planes = plain::planes::judge(problem, plan, u64::MAX);
    assert!(ours == scalar && ours == planes, "{}", measured.name);
    match ours {
        plain::Verdict::Right { visits, .. } | plain::Verdict::Wrong { visits, .. } => visits,
        other => panic!("{}: {other:?}", measured.name),
    }
}

fn judge(inputs: &[&[u8]]) {
    let _ = black_box(larkhammock::judge(inputs[0], inputs[1], u64::MAX));
}

fn scalar_judge(inputs: &[&[u8]]) {
    black_box(plain::scalar::judge(inputs[0], inputs[1], u64::MAX));
}

fn planes_judge(inputs: &[&[u8]]) {
    black_box(plain::planes::judge(inputs[0], inputs[1], u64::MAX));
}

/// The library's verdict in the words of the others.
pub fn library(problem: &[u8], plan: &[u8], grant: u64) -> plain::Verdict {
    match larkhammock::judge(problem, plan, grant) {
        Err(refusal) => plain::Verdict::Refused {
            number: refusal.number as u8,
            place: refusal.place as usize,
        },
        Ok(Verdict::Right { lines, visits }) => plain::Verdict::Right { lines, visits },
        Ok(Verdict::Undecided { visits }) => plain::Verdict::Undecided { visits },
        Ok(Verdict::Wrong {
            state,
            outcome,
            visits,
        }) => plain::Verdict::Wrong {
            state: state.number(),
            outcome: match outcome {
                Outcome::Reached => plain::Outcome::Reached,
                Outcome::Missed => plain::Outcome::Missed,
                Outcome::Blocked { step, part } => plain::Outcome::Blocked {
                    step: step as usize,
                    part: match part {
                        Part::Member(member) => plain::Part::Member(member as usize),
                        Part::Fact(fact) => plain::Part::Fact(fact as usize),
                        other => panic!("{other:?}"),
                    },
                },
                other => panic!("{other:?}"),
            },
            visits,
        },
        Ok(other) => panic!("{other:?}"),
    }
}
