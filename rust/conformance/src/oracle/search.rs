//! Every short plan, in order.

use super::{verdict, walk, Refusal, Task, Verdict};
use crate::model::Problem;
use crate::version::{LONGEST_SEARCHED, MOST_SEARCHED};

#[derive(Clone, Debug, PartialEq, Eq)]
pub enum Search {
    Found { plan: Vec<u8>, visits: u64 },
    NoneRight { visits: u64 },
    Undecided { plan: Vec<u8>, visits: u64 },
}

/// 43 for too great a length, and then 44 for too many plans.
pub fn refused(actions: usize, longest: u64) -> Result<(), Refusal> {
    if longest > LONGEST_SEARCHED {
        return Refusal::at(43, 0);
    }
    let counts = (0..=longest).map(|length| count(actions as u64, length));
    if counts.sum::<u64>() > MOST_SEARCHED {
        return Refusal::at(44, 0);
    }
    Ok(())
}

/// How many plans of this length there are. Of no action there is the empty one.
fn count(actions: u64, length: u64) -> u64 {
    actions.pow(length as u32)
}

/// All plans up to a length, the shorter first. Those of one length are the numbers of
/// so many digits, counted up, with the actions as digits.
pub fn plans(actions: usize, longest: u64) -> impl Iterator<Item = Vec<u8>> {
    let base = actions as u64;
    (0..=longest).flat_map(move |length| {
        let digit = move |number: u64, place: u64| (number / count(base, place) % base) as u8;
        (0..count(base, length))
            .map(move |number| (0..length).rev().map(|p| digit(number, p)).collect())
    })
}

/// The grant is for all of them: each is judged with the visits that are left.
pub fn search(problem: Problem, longest: u64, grant: u64) -> Search {
    let mut used = 0;
    let plans = plans(problem.actions.len(), longest);
    let plan = Vec::new();
    let mut task = Task { problem, plan };
    for plan in plans {
        task.plan = plan;
        let left = grant - used;
        match verdict(&task, &walk(&task, left)) {
            Verdict::Wrong { visits, .. } => used += visits,
            Verdict::Right { visits, .. } => {
                return Search::Found {
                    plan: task.plan,
                    visits: used + visits,
                }
            }
            Verdict::Undecided { visits } => {
                return Search::Undecided {
                    plan: task.plan,
                    visits: used + visits,
                }
            }
        }
    }
    Search::NoneRight { visits: used }
}
