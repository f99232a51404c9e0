//! What a search among short plans finds.

use std::fmt;

use crate::LONGEST_SEARCHED;

/// A plan of at most [`LONGEST_SEARCHED`] steps.
///
/// ```
/// use larkhammock::{example, judge, search_plans, Search, Verdict};
///
/// let Search::Found { plan, .. } = search_plans(example::PROBLEM, 2, u64::MAX)? else {
///     panic!("there is a right plan");
/// };
/// assert_eq!(plan.steps(), [0, 1]);
/// assert_eq!(plan.block(), example::PLAN);
/// let verdict = judge(example::PROBLEM, &plan.block(), u64::MAX)?;
/// assert_eq!(verdict, Verdict::Right { lines: 3, visits: 5 });
/// # Ok::<(), larkhammock::Refusal>(())
/// ```
#[derive(Clone, Copy, Debug, PartialEq, Eq, Hash)]
pub struct ShortPlan {
    length: usize,
    /// 0 past the length.
    steps: [u8; LONGEST_SEARCHED as usize],
}

impl ShortPlan {
    /// The plan that is told by its length and four words, if these tell one.
    pub(crate) fn of_words(words: &[u64]) -> Option<ShortPlan> {
        let (length, words) = words.split_first()?;
        let length = usize::try_from(*length).ok()?;
        let mut steps = [0; LONGEST_SEARCHED as usize];
        for (step, word) in steps.iter_mut().zip(words) {
            *step = u8::try_from(*word).ok()?;
        }
        let past = steps.get(length..)?;
        past.iter()
            .all(|step| *step == 0)
            .then_some(ShortPlan { length, steps })
    }

    /// Its steps, each an action's number.
    pub fn steps(&self) -> &[u8] {
        &self.steps[..self.length]
    }

    /// The plan as a block, for the other functions.
    pub fn block(&self) -> Vec<u8> {
        let header = [1, 0, 0, 0, self.length as u8];
        [&header, self.steps()].concat()
    }
}

/// The numbers of the steps, with spaces between.
impl fmt::Display for ShortPlan {
    fn fmt(&self, f: &mut fmt::Formatter<'_>) -> fmt::Result {
        let numbers: Vec<String> = self.steps().iter().map(u8::to_string).collect();
        f.write_str(&numbers.join(" "))
    }
}

/// What a search finds among the plans of up to some length.
///
/// ```
/// use larkhammock::{example, search_plans};
///
/// let said = |longest, grant| {
///     search_plans(example::PROBLEM, longest, grant).map(|search| search.to_string())
/// };
/// assert_eq!(said(2, 1_000).as_deref(), Ok("found 0 1 visited 27"));
/// assert_eq!(said(1, 1_000).as_deref(), Ok("none visited 17"));
/// assert_eq!(said(2, 20).as_deref(), Ok("undecided 0 0 visited 20"));
/// ```
#[derive(Clone, Copy, Debug, PartialEq, Eq, Hash)]
#[non_exhaustive]
pub enum Search {
    /// A plan is right.
    Found {
        /// The first that is.
        plan: ShortPlan,
        /// The cases looked at, those of the plans before it included.
        visits: u64,
    },
    /// Every plan is wrong.
    NoneRight {
        /// The cases looked at.
        visits: u64,
    },
    /// The grant was too small to know.
    Undecided {
        /// The first plan whose walk needs more than the visits left. Those before
        /// it are wrong.
        plan: ShortPlan,
        /// The cases looked at: the whole grant.
        visits: u64,
    },
}

impl fmt::Display for Search {
    fn fmt(&self, f: &mut fmt::Formatter<'_>) -> fmt::Result {
        let (what, visits) = match self {
            Search::Found { plan, visits } => (format!("found {plan}"), visits),
            Search::NoneRight { visits } => ("none".to_string(), visits),
            Search::Undecided { plan, visits } => (format!("undecided {plan}"), visits),
        };
        // The empty plan leaves nothing after the word.
        write!(f, "{} visited {visits}", what.trim_end())
    }
}

#[cfg(test)]
mod tests {
    use super::*;

    #[test]
    fn a_plan_has_four_steps_at_most_and_nothing_past_them() {
        let told = |words: [u64; 5]| ShortPlan::of_words(&words);
        for (words, steps) in [
            ([0, 0, 0, 0, 0], &[][..]),
            ([1, 0, 0, 0, 0], &[0]),
            ([3, 63, 0, 7, 0], &[63, 0, 7]),
            ([4, 1, 2, 3, 4], &[1, 2, 3, 4]),
        ] {
            assert_eq!(told(words).expect("it is a plan").steps(), steps);
        }
        for words in [
            [5, 0, 0, 0, 0],
            [u64::MAX, 0, 0, 0, 0],
            [0, 1, 0, 0, 0],
            [3, 1, 2, 3, 4],
            [1, 256, 0, 0, 0],
        ] {
            assert_eq!(told(words), None, "{words:?}");
        }
    }
}
