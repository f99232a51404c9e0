//! Searches among short plans: the one that is specified, and others that one could take
//! for it.

use conformance::answer::{self, words, Answer};
use conformance::oracle::{self, plans, walk, End, Search, Task};

#[derive(Clone, Copy, Debug, PartialEq, Eq)]
pub enum Searcher {
    AsWritten,
    /// Of one length, by the last step first.
    LastStepFirst,
    LongestFirst,
    /// By the first step whatever the length, as words in a dictionary.
    ByStepsAlone,
    EmptyPlanSkipped,
    LengthLeftOut(usize),
    LastOfALengthForgotten,
    /// The plan of action 0 alone comes twice.
    PlanRepeated,
    OneStepTooMany,
    WholeGrantForEach,
    FoundVisitsForgotten,
    WrongVisitsForgotten,
    GrantMustExceedVisits,
    /// Undecided with the visits of the plans before, and not with the grant.
    UsedInsteadOfGrant,
    /// The plan that needs too many visits is passed over, and the next gets them.
    UndecidedSkipped,
    UndecidedNamesTheOneBefore,
    UndecidedIsNone,
    NoneNamesTheLast,
    /// 954,305 plans are too many.
    MostRefused,
    /// No number of plans is too large.
    ManyAccepted,
    /// 44 comes before 43.
    ManyBeforeLong,
    /// A length over 4 is taken for 4.
    LongCutTo4,
}

impl Searcher {
    /// All but the one that is right.
    pub const WRONG: [Searcher; 24] = [
        Searcher::LastStepFirst,
        Searcher::LongestFirst,
        Searcher::ByStepsAlone,
        Searcher::EmptyPlanSkipped,
        Searcher::LengthLeftOut(1),
        Searcher::LengthLeftOut(2),
        Searcher::LengthLeftOut(3),
        Searcher::LengthLeftOut(4),
        Searcher::LastOfALengthForgotten,
        Searcher::PlanRepeated,
        Searcher::OneStepTooMany,
        Searcher::WholeGrantForEach,
        Searcher::FoundVisitsForgotten,
        Searcher::WrongVisitsForgotten,
        Searcher::GrantMustExceedVisits,
        Searcher::UsedInsteadOfGrant,
        Searcher::UndecidedSkipped,
        Searcher::UndecidedNamesTheOneBefore,
        Searcher::UndecidedIsNone,
        Searcher::NoneNamesTheLast,
        Searcher::MostRefused,
        Searcher::ManyAccepted,
        Searcher::ManyBeforeLong,
        Searcher::LongCutTo4,
    ];

    pub fn answer(self, problem: &[u8], longest: u64, grant: u64) -> Answer {
        let task = match oracle::read_problem(problem) {
            Ok(problem) => Task {
                problem,
                plan: Vec::new(),
            },
            // No searcher is wrong about a problem.
            Err(_) => return answer::search_plans(&oracle::search_plans(problem, longest, grant)),
        };
        match self.refused(task.problem.actions.len() as u64, longest) {
            Some(number) => words(&[0, number]),
            None => self.search(task, longest.min(4), grant),
        }
    }

    fn refused(self, actions: u64, longest: u64) -> Option<u64> {
        let count = (0..=longest.min(4)).map(|length| actions.pow(length as u32));
        let most = match self {
            Searcher::MostRefused => 900_000,
            Searcher::ManyAccepted => u64::MAX,
            _ => 1_000_000,
        };
        let (long, many) = (longest > 4, count.sum::<u64>() > most);
        match self {
            Searcher::LongCutTo4 => many.then_some(44),
            Searcher::ManyBeforeLong if many => Some(44),
            _ if long => Some(43),
            _ => many.then_some(44),
        }
    }

    /// The plans in the order in which they are tried.
    fn plans(self, actions: usize, longest: u64) -> Box<dyn Iterator<Item = Vec<u8>>> {
        let all = plans(actions, longest);
        let is_last = move |plan: &Vec<u8>| {
            let last = actions.wrapping_sub(1);
            !plan.is_empty() && plan.iter().all(|step| usize::from(*step) == last)
        };
        match self {
            Searcher::LastStepFirst => Box::new(all.map(|plan| plan.into_iter().rev().collect())),
            Searcher::LongestFirst => {
                let of = move |length| {
                    let long = move |plan: &Vec<u8>| plan.len() as u64 == length;
                    plans(actions, length).filter(long)
                };
                Box::new((0..=longest).rev().flat_map(of))
            }
            Searcher::ByStepsAlone => {
                let mut all: Vec<Vec<u8>> = all.collect();
                all.sort();
                Box::new(all.into_iter())
            }
            Searcher::EmptyPlanSkipped => Box::new(all.skip(1)),
            Searcher::LengthLeftOut(length) => {
                Box::new(all.filter(move |plan| plan.len() != length))
            }
            Searcher::LastOfALengthForgotten => Box::new(all.filter(move |plan| !is_last(plan))),
            Searcher::PlanRepeated => Box::new(all.flat_map(|plan| {
                let times = if plan == [0] { 2 } else { 1 };
                vec![plan; times]
            })),
            Searcher::OneStepTooMany => Box::new(plans(actions, longest.min(3) + 1)),
            _ => Box::new(all),
        }
    }

    fn search(self, mut task: Task, longest: u64, grant: u64) -> Answer {
        let mut used = 0;
        let mut before = Vec::new();
        for plan in self.plans(task.problem.actions.len(), longest) {
            task.plan = plan;
            let left = match self {
                Searcher::WholeGrantForEach | Searcher::WrongVisitsForgotten => grant,
                _ => grant - used,
            };
            let walk = walk(&task, left);
            let spent = self == Searcher::GrantMustExceedVisits && walk.visits == left;
            match walk.end {
                End::Spent if self == Searcher::UndecidedSkipped => {}
                End::Spent => return self.undecided(task.plan, before, used, grant),
                _ if spent => return self.undecided(task.plan, before, used, grant),
                End::Covered => return self.found(task.plan, used, walk.visits),
                End::Failing(_) if self == Searcher::WrongVisitsForgotten => {}
                End::Failing(_) => used += walk.visits,
            }
            before = task.plan.clone();
        }
        if self == Searcher::NoneNamesTheLast {
            let [_, found @ ..] = self.found(before, used, 0);
            return words(&[&[2], &found[..]].concat());
        }
        words(&[2, used])
    }

    fn found(self, plan: Vec<u8>, used: u64, visits: u64) -> Answer {
        let visits = match self {
            Searcher::FoundVisitsForgotten => used,
            _ => used + visits,
        };
        answer::search_plans(&Ok(Search::Found { plan, visits }))
    }

    fn undecided(self, plan: Vec<u8>, before: Vec<u8>, used: u64, grant: u64) -> Answer {
        let undecided =
            |plan, visits| answer::search_plans(&Ok(Search::Undecided { plan, visits }));
        match self {
            Searcher::UsedInsteadOfGrant => undecided(plan, used),
            Searcher::UndecidedNamesTheOneBefore => undecided(before, grant),
            Searcher::UndecidedIsNone => words(&[2, grant]),
            _ => undecided(plan, grant),
        }
    }
}
