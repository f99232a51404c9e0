//! A checker for conformant plans.
//!
//! A **problem** has facts, actions, an initial formula and a goal formula. A
//! **plan** is a row of actions that must reach the goal from every state in
//! which the initial formula is true, whichever of them it is. This crate says
//! whether it does: it [judges](judge) a plan, names a counterexample where
//! there is one, [writes](write_list) a certificate for a right plan, and
//! [follows](follow_list) a certificate that anyone has written. Of one run that
//! reaches the goal it tells [which start facts](relevant_facts) that rests on, also
//! from a [smaller work area](relevant_facts_sparse), and where nobody has a plan it
//! [tries](search_plans) every short one. Two problems that share nothing it
//! [merges](merge()) into one.
//!
//! Problems, plans and lists are blocks of bytes. Any bytes may be handed in:
//! what is not sound is turned down with a [`Refusal`]. A problem is of one of two
//! [versions](Version), and so are its lists.
//!
//! ```
//! use larkhammock::{example, judge, Outcome, Verdict};
//!
//! // Both actions in turn reach the goal, whichever fact was true.
//! let verdict = judge(example::PROBLEM, example::PLAN, u64::MAX)?;
//! assert_eq!(verdict, Verdict::Right { lines: 3, visits: 5 });
//!
//! // Action 0 alone does not, if fact 1 was the true one.
//! let short = [1, 0, 0, 0, 1, 0];
//! let verdict = judge(example::PROBLEM, &short, u64::MAX)?;
//! let Verdict::Wrong { state, outcome, visits } = verdict else {
//!     panic!("it is wrong");
//! };
//! assert!(!state.get(0) && state.get(1) && !state.get(2));
//! assert_eq!((outcome, visits), (Outcome::Missed, 5));
//! # Ok::<(), larkhammock::Refusal>(())
//! ```
//!
//! # Panics
//!
//! A function panics only if the library's answer is none that its interface
//! names.

#![warn(missing_docs)]

pub mod example;
mod lines;
mod merge;
pub mod raw;
mod refusal;
mod relevance;
mod search;
mod state;
mod version;

pub use lines::{Line, Lines};
pub use merge::{merge, Hall, Merged};
pub use refusal::Refusal;
pub use relevance::{ReachedRun, SparseRun, States};
pub use search::{Search, ShortPlan};
pub use state::{FactSet, State};
pub use version::Version;

/// The bytes of the longest problem: a buffer of this length holds what [`merge()`] writes
/// for any two.
pub const LONGEST_PROBLEM: usize = 32_768;

/// The most actions of a problem: a table of so many bytes holds what [`merge()`] writes
/// there for any two problems.
pub const MOST_ACTIONS: usize = 64;

/// The bytes of the longest list of any version: a buffer of this length holds what
/// [`write_list`] writes for any plan. [`Version::longest_list`] has those of one.
pub const LONGEST_LIST: usize = Version::V2.longest_list();

/// The bytes of the longest run's states of any version: a work area of this length
/// is enough for [`relevant_facts`] of any run. [`Version::longest_work`] has those
/// of one.
pub const LONGEST_WORK: usize = Version::V2.longest_work();

/// The bytes of a work area that is enough for [`relevant_facts_sparse`] of any run of
/// any version. [`Version::longest_sparse_work`] has those of one.
pub const LONGEST_SPARSE_WORK: usize = Version::V2.longest_sparse_work();

/// The most steps of a plan that [`search_plans`] tries.
pub const LONGEST_SEARCHED: u64 = 4;

/// The most plans that [`search_plans`] tries.
pub const MOST_SEARCHED: u64 = 1_000_000;

/// The README's call is a test.
#[cfg(doctest)]
#[doc = include_str!("../../../README.md")]
struct Readme;

/// What a problem declares.
#[derive(Clone, Copy, Debug, PartialEq, Eq, Hash)]
pub struct Counts {
    /// The version of the problem and of its lists.
    pub version: Version,
    /// The number of facts, 1 to [`Version::most_facts`].
    pub facts: u64,
    /// The number of actions, 0 to [`MOST_ACTIONS`].
    pub actions: u64,
}

impl Counts {
    /// The problem's state in which no fact is true.
    ///
    /// ```
    /// use larkhammock::{example, read_problem};
    ///
    /// let state = read_problem(example::PROBLEM)?.state();
    /// assert_eq!(state.to_string(), "000");
    /// # Ok::<(), larkhammock::Refusal>(())
    /// ```
    pub const fn state(self) -> State {
        State::new(self.version, self.facts)
    }
}

/// How a run from one state ends.
#[derive(Clone, Copy, Debug, PartialEq, Eq, Hash)]
#[non_exhaustive]
pub enum Outcome {
    /// Every step was applicable and the goal is true at the end.
    Reached,
    /// Every step was applicable and the goal is not true at the end.
    Missed,
    /// A step was not applicable: its precondition was not true, or a fact's
    /// set and clear conditions both were.
    Blocked {
        /// The first such step, from 0.
        step: u64,
        /// The part of its action that blocks it.
        part: Part,
    },
}

/// The part of an action that blocks a step. An unmet precondition comes first.
///
/// ```
/// use larkhammock::{read_problem, run, Outcome, Part};
///
/// let problem = [
///     1, 0, 0, 0, 23, // version, length
///     1, 1, // facts, actions
///     0, 1, 0, 0, 1, 0, // initial and goal: 0
///     0, 2, 0x80, 0, 2, // action 0: always applicable, were it not for
///     0, 0, 2, 0x80, 0, // that it always sets 0
///     64, 0, 2, 0x80, 0, // and always clears 0
/// ];
/// let start = read_problem(&problem)?.state();
/// let part = Part::Fact(0);
/// let blocked = Outcome::Blocked { step: 0, part };
/// assert_eq!(run(&problem, &[1, 0, 0, 0, 1, 0], start), Ok(blocked));
/// # Ok::<(), larkhammock::Refusal>(())
/// ```
#[derive(Clone, Copy, Debug, PartialEq, Eq, Hash)]
#[non_exhaustive]
pub enum Part {
    /// The precondition is not true. Where it is an "all", the first of its
    /// members, from 0, that is false in the state before the step. Otherwise 0.
    Member(u64),
    /// The lowest fact whose set and clear conditions are both true in the state
    /// before the step.
    Fact(u64),
}

/// What the judge says of a plan.
#[derive(Clone, Copy, Debug, PartialEq, Eq, Hash)]
#[non_exhaustive]
pub enum Verdict {
    /// The run of every start state is reached.
    Right {
        /// The lines of the certificate.
        lines: u64,
        /// The cases looked at: twice the lines less one.
        visits: u64,
    },
    /// There is a counterexample.
    Wrong {
        /// The lowest start state whose run is not reached: the first one, where
        /// they are in order by fact 0, then by fact 1, and so on, false first.
        state: State,
        /// How its run ends.
        outcome: Outcome,
        /// The cases looked at.
        visits: u64,
    },
    /// The grant was too small to know.
    Undecided {
        /// The cases looked at: the whole grant.
        visits: u64,
    },
}

/// Reads a problem.
///
/// ```
/// use larkhammock::{example, read_problem, Counts, Version};
///
/// let version = Version::V1;
/// let counts = Counts { version, facts: 3, actions: 2 };
/// assert_eq!(read_problem(example::PROBLEM), Ok(counts));
/// ```
pub fn read_problem(problem: &[u8]) -> Result<Counts, Refusal> {
    let word = accepted(raw::read_problem(problem))?;
    Ok(Counts {
        version: Version::of_block(problem).unwrap_or_else(|| broken(&word)),
        facts: word[1],
        actions: word[2],
    })
}

/// Reads a plan for a problem: the number of its steps.
///
/// ```
/// use larkhammock::{example, read_plan};
///
/// assert_eq!(read_plan(example::PROBLEM, example::PLAN), Ok(2));
///
/// let refusal = read_plan(example::PROBLEM, &[1, 0, 0, 0, 1, 2]).unwrap_err();
/// assert_eq!(refusal.to_string(), "refused 34 at 5: the step names no action");
/// ```
pub fn read_plan(problem: &[u8], plan: &[u8]) -> Result<u64, Refusal> {
    let word = accepted(raw::read_plan(problem, plan))?;
    Ok(word[1])
}

/// Runs a plan from one state, which need not be a start state. A state of another
/// version than the problem's, or of another number of facts, is refused with 40.
///
/// ```
/// use larkhammock::{example, run, Outcome, State, Version};
///
/// let state = State::of_values(Version::V1, &[false, true, true]);
/// assert_eq!(run(example::PROBLEM, example::PLAN, state), Ok(Outcome::Reached));
/// let state = State::new(Version::V1, 3);
/// assert_eq!(run(example::PROBLEM, example::PLAN, state), Ok(Outcome::Missed));
///
/// for state in [State::new(Version::V1, 4), State::new(Version::V2, 3)] {
///     let refusal = run(example::PROBLEM, example::PLAN, state).unwrap_err();
///     assert_eq!(refusal.number, 40);
/// }
/// ```
pub fn run(problem: &[u8], plan: &[u8], state: State) -> Result<Outcome, Refusal> {
    let number = number_in(problem, plan, state)?;
    let word = decided(raw::run(problem, plan, number))?;
    Ok(outcome(&word, 0))
}

/// The number of a state that is one of the problem's. Where it is none, faults of
/// the two blocks come first.
fn number_in(problem: &[u8], plan: &[u8], state: State) -> Result<u64, Refusal> {
    if state.is_of(problem) {
        return Ok(state.number());
    }
    read_plan(problem, plan)?;
    Err(Refusal::NO_STATE)
}

/// The state that a sound problem has by this number.
fn state_of(problem: &[u8], number: u64) -> Option<State> {
    let version = Version::of_block(problem)?;
    State::of_number(version, u64::from(*problem.get(5)?), number)
}

/// Judges a plan, looking at no more cases than granted. Where it is undecided, ask again with a
/// larger grant: any other answer is the same under every larger one.
///
/// ```
/// use larkhammock::{example, judge, Verdict};
///
/// let verdict = judge(example::PROBLEM, example::PLAN, 4);
/// assert_eq!(verdict, Ok(Verdict::Undecided { visits: 4 }));
/// ```
pub fn judge(problem: &[u8], plan: &[u8], grant: u64) -> Result<Verdict, Refusal> {
    let word = decided(raw::judge(problem, plan, grant))?;
    let visits = word[1];
    Ok(match word[0] {
        1 => Verdict::Right {
            lines: word[2],
            visits,
        },
        2 => Verdict::Wrong {
            state: state_of(problem, word[2]).unwrap_or_else(|| broken(&word)),
            outcome: outcome(&word, 3),
            visits,
        },
        3 => Verdict::Undecided { visits },
        _ => broken(&word),
    })
}

/// Writes the certificate of a right plan to the front of `out` and returns its
/// length. The rest of `out` keeps its bytes, and so does all of it where the
/// call is refused. Under a larger grant the list is the same, and so is each
/// refusal but 50.
///
/// ```
/// use larkhammock::{example, write_list, LONGEST_LIST};
///
/// let mut out = vec![0; LONGEST_LIST];
/// let length = write_list(example::PROBLEM, example::PLAN, u64::MAX, &mut out)?;
/// assert_eq!(&out[..length], example::LIST);
/// # Ok::<(), larkhammock::Refusal>(())
/// ```
pub fn write_list(
    problem: &[u8],
    plan: &[u8],
    grant: u64,
    out: &mut [u8],
) -> Result<usize, Refusal> {
    let word = accepted(raw::write_list(problem, plan, grant, out))?;
    Ok(usize::try_from(word[1]).unwrap_or_else(|_| broken(&word)))
}

/// Follows a certificate, whoever wrote it, and returns the number of its
/// lines. It passes only if the plan is right.
///
/// ```
/// use larkhammock::{example, follow_list};
///
/// assert_eq!(follow_list(example::PROBLEM, example::PLAN, example::LIST), Ok(3));
///
/// let idle = [1, 0, 0, 0, 0];
/// let refusal = follow_list(example::PROBLEM, &idle, example::LIST).unwrap_err();
/// assert_eq!(refusal.to_string(), "refused 69 at 1: the line's claim is not so");
/// ```
pub fn follow_list(problem: &[u8], plan: &[u8], list: &[u8]) -> Result<u64, Refusal> {
    let word = accepted(raw::follow_list(problem, plan, list))?;
    Ok(word[1])
}

/// Tells which start facts a run that reaches the goal rests on: from any other
/// state that agrees with this one on them, the plan reaches the goal too.
///
/// They are found backward. The goal's facts matter after the last step. Before a
/// step, these matter: the facts of its precondition; those of both conditions of
/// each fact that it may set and may clear; and for each fact that matters after
/// it, those of its set condition if that was true, otherwise the fact itself and
/// those of both its conditions.
///
/// The states of the run are written to the front of `work`, which needs a byte
/// for each fact of each of them: (steps + 1) * facts, at most [`LONGEST_WORK`].
/// The rest of `work` keeps its bytes, and so does all of it where the call is
/// refused.
///
/// ```
/// use larkhammock::{example, read_problem, relevant_facts, run, Outcome, LONGEST_WORK};
///
/// let (problem, plan) = (example::PROBLEM, example::PLAN);
/// let nothing = read_problem(problem)?.state();
/// let mut start = nothing;
/// start.set(1, true);
/// start.set(2, true);
/// let mut work = [0; LONGEST_WORK];
/// let reached = relevant_facts(problem, plan, start, &mut work)?;
/// assert!(reached.states.eq([[0, 1, 1]; 3]));
///
/// // Action 1 sets fact 2 if fact 1 is true, and it was: nothing else matters.
/// assert!(reached.facts.iter().eq([1]));
/// for fact in [0, 2] {
///     let mut other = start;
///     other.set(fact, !start.get(fact));
///     assert_eq!(run(problem, plan, other), Ok(Outcome::Reached));
/// }
///
/// let refusal = relevant_facts(problem, plan, nothing, &mut work).unwrap_err();
/// assert_eq!(refusal.to_string(), "refused 41 at 0: the run does not reach the goal");
/// # Ok::<(), larkhammock::Refusal>(())
/// ```
pub fn relevant_facts<'a>(
    problem: &[u8],
    plan: &[u8],
    state: State,
    work: &'a mut [u8],
) -> Result<ReachedRun<'a>, Refusal> {
    let number = number_in(problem, plan, state)?;
    let word = accepted(raw::relevant_facts(problem, plan, number, work))?;
    let members = state_of(problem, word[1]).unwrap_or_else(|| broken(&word));
    // The plan is sound: its body has a byte a step.
    let (facts, steps) = (state.facts() as usize, plan.len() - 5);
    Ok(ReachedRun {
        facts: FactSet::of_state(members),
        states: States::new(&work[..(steps + 1) * facts], facts),
    })
}

/// Tells the same as [`relevant_facts`] from a smaller work area, in a longer time: the
/// set and the refusals are those, but for 42.
///
/// With n steps, `work` needs n / 16 + 17 rows of a byte for each fact, the quotient
/// rounded down: (steps / 16 + 17) * facts bytes, at most [`LONGEST_SPARSE_WORK`]. With
/// fewer it is refused with 42, after the refusals of [`run`] and 41 of a run that does
/// not reach the goal. At its front stand the states numbered 0, 16, 32 and so on, then
/// the first 16 states, or all where there are fewer, and zeros up to the bytes needed.
/// The rest of `work` keeps its bytes, and so does all of it where the call is refused.
///
/// For plans of up to 17 steps [`relevant_facts`] needs no more.
///
/// ```
/// use larkhammock::{example, relevant_facts_sparse, State, Version};
///
/// let start = State::of_values(Version::V1, &[false, true, false]);
/// let mut work = [0; 17 * 3];
/// let run = relevant_facts_sparse(example::PROBLEM, example::PLAN, start, &mut work)?;
/// assert!(run.facts.iter().eq([1]));
/// assert!(run.kept.eq([[0, 1, 0]]));
/// assert!(run.first.eq([[0, 1, 0], [0, 1, 0], [0, 1, 1]]));
///
/// let short = &mut work[1..];
/// let refusal = relevant_facts_sparse(example::PROBLEM, example::PLAN, start, short);
/// assert_eq!(refusal.unwrap_err().number, 42);
/// # Ok::<(), larkhammock::Refusal>(())
/// ```
pub fn relevant_facts_sparse<'a>(
    problem: &[u8],
    plan: &[u8],
    state: State,
    work: &'a mut [u8],
) -> Result<SparseRun<'a>, Refusal> {
    let number = number_in(problem, plan, state)?;
    let word = accepted(raw::relevant_facts_sparse(problem, plan, number, work))?;
    let members = state_of(problem, word[1]).unwrap_or_else(|| broken(&word));
    // The plan is sound: its body has a byte a step.
    let (facts, steps) = (state.facts() as usize, plan.len() - 5);
    let (kept, rest) = work.split_at((steps / 16 + 1) * facts);
    Ok(SparseRun {
        facts: FactSet::of_state(members),
        kept: States::new(kept, facts),
        first: States::new(&rest[..(steps + 1).min(16) * facts], facts),
    })
}

/// Tries every plan of at most `longest` steps, by length and then by step
/// numbers from the first step on, until one is right. They are judged one after
/// the other, and look at no more cases in all than granted. Any answer but
/// undecided is the same under every larger grant.
///
/// `longest` is at most [`LONGEST_SEARCHED`], and there are at most
/// [`MOST_SEARCHED`] such plans: up to four steps of 31 actions are few enough, and
/// up to three of 64.
///
/// ```
/// use larkhammock::{example, search_plans, Search};
///
/// // The plans are: none, 0, 1, and then 0 0, 0 1, 1 0, 1 1.
/// let search = search_plans(example::PROBLEM, 2, u64::MAX)?;
/// let Search::Found { plan, visits } = search else {
///     panic!("there is a right plan");
/// };
/// assert_eq!((plan.steps(), visits), (&[0, 1][..], 27));
///
/// // One step is not enough, and with 26 visits it stays open whether two are.
/// let search = search_plans(example::PROBLEM, 1, u64::MAX)?;
/// assert_eq!(search, Search::NoneRight { visits: 17 });
/// let search = search_plans(example::PROBLEM, 2, 26)?;
/// assert_eq!(search, Search::Undecided { plan, visits: 26 });
///
/// let refusal = search_plans(example::PROBLEM, 5, u64::MAX).unwrap_err();
/// assert_eq!(refusal.to_string(), "refused 43 at 0: the longest length is over 4");
/// # Ok::<(), larkhammock::Refusal>(())
/// ```
pub fn search_plans(problem: &[u8], longest: u64, grant: u64) -> Result<Search, Refusal> {
    let word = decided(raw::search_plans(problem, longest, grant))?;
    let visits = word[1];
    let plan = ShortPlan::of_words(&word[2..7]).unwrap_or_else(|| broken(&word));
    Ok(match word[0] {
        1 => Search::Found { plan, visits },
        2 if plan.steps().is_empty() => Search::NoneRight { visits },
        3 => Search::Undecided { plan, visits },
        _ => broken(&word),
    })
}

/// The words of an answer that is no refusal.
fn decided(answer: raw::Answer) -> Result<[u64; 8], Refusal> {
    match answer.word {
        [0, number, place, ..] => Err(Refusal { number, place }),
        word => Ok(word),
    }
}

/// The words of an answer whose one tag other than refused is 1.
fn accepted(answer: raw::Answer) -> Result<[u64; 8], Refusal> {
    let word = decided(answer)?;
    match word[0] {
        1 => Ok(word),
        _ => broken(&word),
    }
}

/// The outcome whose tag is the word at `at`. A block's step, part and number
/// come after it.
fn outcome(word: &[u64; 8], at: usize) -> Outcome {
    match word[at..] {
        [1, ..] => Outcome::Reached,
        [2, ..] => Outcome::Missed,
        [3, step, 0, number, ..] => Outcome::Blocked {
            step,
            part: Part::Member(number),
        },
        [3, step, 1, number, ..] => Outcome::Blocked {
            step,
            part: Part::Fact(number),
        },
        _ => broken(word),
    }
}

fn broken(word: &[u64; 8]) -> ! {
    panic!("the library's answer is none that its interface names: {word:?}")
}

#[cfg(test)]
mod tests {
    use super::*;

    #[test]
    fn a_block_has_its_step_and_part() {
        for (kind, part) in [(0, Part::Member(2)), (1, Part::Fact(2))] {
            let blocked = Outcome::Blocked { step: 14, part };
            assert_eq!(outcome(&[3, 14, kind, 2, 0, 0, 0, 0], 0), blocked);
            assert_eq!(outcome(&[2, 5, 0, 3, 14, kind, 2, 0], 3), blocked);
        }
    }

    #[test]
    #[should_panic(expected = "none that its interface names")]
    fn a_part_of_no_known_kind_is_no_answer() {
        outcome(&[3, 14, 2, 2, 0, 0, 0, 0], 0);
    }
}
