//! Rules for what matters before a step: the one that is specified, and others that one
//! could take for it.

use conformance::model::{Action, Formula};
use conformance::oracle::{conditions, holds, named, Facts, Task};

#[derive(Clone, Copy, Debug, PartialEq, Eq)]
pub enum Rule {
    AsWritten,
    GoalForgotten,
    PreconditionForgotten,
    BothEntriesForgotten,
    /// Both entries are looked at only if the fact matters after the step.
    BothEntriesOfWhatMatters,
    SetIsNeverTrue,
    SetIsAlwaysTrue,
    /// The conditions are read in the state after the step.
    ReadAfterTheStep,
    FactItselfForgotten,
    FactItselfAlwaysKept,
    SetForgotten,
    ClearForgotten,
    /// A clear condition that was true settles the fact as a set condition does.
    ClearSettles,
}

impl Rule {
    /// All but the one that is right.
    pub const WRONG: [Rule; 12] = [
        Rule::GoalForgotten,
        Rule::PreconditionForgotten,
        Rule::BothEntriesForgotten,
        Rule::BothEntriesOfWhatMatters,
        Rule::SetIsNeverTrue,
        Rule::SetIsAlwaysTrue,
        Rule::ReadAfterTheStep,
        Rule::FactItselfForgotten,
        Rule::FactItselfAlwaysKept,
        Rule::SetForgotten,
        Rule::ClearForgotten,
        Rule::ClearSettles,
    ];

    /// The start facts that a run with these states rests on.
    pub fn relevant(self, task: &Task, states: &[Vec<bool>]) -> Facts {
        let mut facts = Facts::new();
        if self != Rule::GoalForgotten {
            facts.extend(named(&task.problem.goal));
        }
        for (step, number) in task.plan.iter().enumerate().rev() {
            let action = &task.problem.actions[usize::from(*number)];
            let state = &states[step + usize::from(self == Rule::ReadAfterTheStep)];
            facts = self.before(action, state, &facts);
        }
        facts
    }

    fn before(self, action: &Action, state: &[bool], after: &Facts) -> Facts {
        let mut facts = Facts::new();
        if self != Rule::PreconditionForgotten {
            facts.extend(named(&action.precondition));
        }
        for fact in 0..state.len() as u8 {
            let conditions = conditions(action, fact);
            let matters = after.contains(&fact);
            let looked_at = match self {
                Rule::BothEntriesForgotten => false,
                Rule::BothEntriesOfWhatMatters => matters,
                _ => true,
            };
            if let ([Some(set), Some(clear)], true) = (conditions, looked_at) {
                facts.extend(named(set));
                facts.extend(named(clear));
            }
            if matters {
                facts.extend(self.in_place_of(fact, conditions, state));
            }
        }
        facts
    }

    fn in_place_of(self, fact: u8, conditions: [Option<&Formula>; 2], state: &[bool]) -> Facts {
        let [set, clear] = conditions.map(|c| c.map(named).unwrap_or_default());
        let [sets, clears] = conditions.map(|c| c.is_some_and(|c| holds(c, state)));
        let itself = Facts::from([fact]);
        let sets = match self {
            Rule::SetIsNeverTrue => false,
            Rule::SetIsAlwaysTrue => conditions[0].is_some(),
            _ => sets,
        };
        match self {
            Rule::FactItselfAlwaysKept if sets => &itself | &set,
            _ if sets => set,
            Rule::ClearSettles if clears => clear,
            Rule::FactItselfForgotten => &set | &clear,
            Rule::SetForgotten => &itself | &clear,
            Rule::ClearForgotten => &itself | &set,
            _ => &(&itself | &set) | &clear,
        }
    }
}
