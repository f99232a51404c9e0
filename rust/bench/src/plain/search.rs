//! The search among short plans: the problem is read once, and each plan is walked
//! in turn with the visits left.

use super::planes::{is_right, Room};
use super::read::{refuse, Refusal, Task};

/// The most steps of a plan that is tried.
const LONGEST: usize = 4;

/// The most plans that are tried.
const MOST: u64 = 1_000_000;

#[derive(Clone, Copy, Debug, PartialEq, Eq)]
pub enum Search {
    Found { plan: Plan, visits: u64 },
    NoneRight { visits: u64 },
    Undecided { plan: Plan, visits: u64 },
}

/// A plan of few steps; those past its length are 0.
#[derive(Clone, Copy, Debug, PartialEq, Eq)]
pub struct Plan {
    pub length: usize,
    pub steps: [u8; LONGEST],
}

impl Plan {
    fn first(length: usize) -> Plan {
        Plan {
            length,
            steps: [0; LONGEST],
        }
    }

    fn steps(&self) -> &[u8] {
        &self.steps[..self.length]
    }

    /// Becomes the next plan of its length, if there is one.
    fn advance(&mut self, actions: u8) -> bool {
        for step in self.steps[..self.length].iter_mut().rev() {
            *step += 1;
            if *step < actions {
                return true;
            }
            *step = 0;
        }
        false
    }
}

pub fn search_plans(problem: &[u8], longest: u64, grant: u64) -> Result<Search, Refusal> {
    let task = Task::of_problem(problem)?;
    if longest > LONGEST as u64 {
        return refuse(43, 0);
    }
    let counts = (0..=longest as u32).map(|length| u64::from(task.count).pow(length));
    if counts.sum::<u64>() > MOST {
        return refuse(44, 0);
    }
    // With no action there is no plan but the empty one.
    let longest = if task.count == 0 { 0 } else { longest as usize };
    Ok(search(&task, longest, grant))
}

fn search(task: &Task, longest: usize, grant: u64) -> Search {
    let mut left = grant;
    let mut room = Room::NEW;
    for length in 0..=longest {
        let mut plan = Plan::first(length);
        loop {
            let (right, visits) = is_right(task, plan.steps(), left, &mut room);
            left -= visits;
            let visits = grant - left;
            match right {
                Some(true) => return Search::Found { plan, visits },
                None => return Search::Undecided { plan, visits },
                Some(false) => {}
            }
            if !plan.advance(task.count) {
                break;
            }
        }
    }
    Search::NoneRight {
        visits: grant - left,
    }
}
