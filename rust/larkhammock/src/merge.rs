//! Two halls as one problem.

use crate::{accepted, broken, raw, Refusal};

/// Merges two problems, the halls, into one problem of version 2: its states are the
/// pairs of a state of each hall, and each of its actions changes one hall alone.
///
/// A plan of the merged problem is a plan of each hall: the steps that are its actions.
/// Where both halls have a start state, it is right exactly if both of these are; where
/// one of them has none, so has the merged problem, and every plan is right.
///
/// The second hall's facts follow the first's, so each of their numbers goes up by the
/// first hall's fact count. The initial formula is the "all" of both initial formulas
/// and the goal that of both goals, the first hall's part first; an "all" among them is
/// taken apart into its members, and any other formula is one member. Every action keeps
/// its bytes but for the facts of the second hall. The first hall's actions come first
/// in their old order and keep their numbers, and the second's follow in theirs: each of
/// their numbers goes up by the first hall's action count. So two halls have one merged
/// problem, byte for byte.
///
/// The block is written to the front of `out` and the numbers to the front of `table`,
/// a byte each. Bytes past them keep their values, and so do all bytes where the call
/// is refused. [`LONGEST_PROBLEM`](crate::LONGEST_PROBLEM) bytes are enough for any block, and
/// [`MOST_ACTIONS`](crate::MOST_ACTIONS) for any table.
///
/// Each hall may be of either version, and both may be the same block. The first hall's
/// refusals (10 to 25) come before the second's, and their numbers do not tell whose
/// they are. Then, at place 0, the merged problem has over 64 facts (82) or over 64
/// actions (83); its initial formula or its goal has over 1,024 bytes, over 255 members
/// of the outermost "all" or over 8 groups in one another (84); its block has over 32,768
/// bytes (85); or `out` is shorter than the block or `table` than the number of actions
/// (86).
///
/// ```
/// use larkhammock::{example, judge, merge, Hall, Verdict, LONGEST_PROBLEM, MOST_ACTIONS};
///
/// // Two halls that are alike. Each needs its actions 0 and 1.
/// let mut out = [0; LONGEST_PROBLEM];
/// let mut table = [0; MOST_ACTIONS];
/// let hall = example::PROBLEM;
/// let merged = merge(hall, hall, &mut out, &mut table)?;
///
/// // A plan that goes on in both by turns.
/// let steps = [(Hall::First, 0), (Hall::Second, 0), (Hall::First, 1), (Hall::Second, 1)];
/// let mut plan = vec![1, 0, 0, 0, steps.len() as u8];
/// plan.extend(steps.map(|(hall, action)| merged.step(hall, action).expect("it is there")));
/// let verdict = judge(merged.problem, &plan, u64::MAX)?;
/// assert!(matches!(verdict, Verdict::Right { .. }));
///
/// // This hall has 62 facts, and the other three.
/// let crowd = [2, 0, 0, 0, 10, 62, 0, 0, 2, 0x80, 0, 0, 2, 0x80, 0];
/// let refusal = merge(hall, &crowd, &mut out, &mut table).unwrap_err();
/// assert_eq!(refusal.to_string(), "refused 82 at 0: together they have over 64 facts");
/// # Ok::<(), larkhammock::Refusal>(())
/// ```
pub fn merge<'a>(
    first: &[u8],
    second: &[u8],
    out: &'a mut [u8],
    table: &'a mut [u8],
) -> Result<Merged<'a>, Refusal> {
    let word = accepted(raw::merge(first, second, out, table))?;
    Ok(Merged::of_words(first, &word[1..3], out, table).unwrap_or_else(|| broken(&word)))
}

/// One of the two problems of a merge.
#[derive(Clone, Copy, Debug, PartialEq, Eq, Hash)]
pub enum Hall {
    /// That whose facts keep their numbers.
    First,
    /// That whose facts are moved up.
    Second,
}

/// Two problems as one, and which of its actions and facts are whose.
///
/// ```
/// use larkhammock::{example, merge, Hall};
///
/// let (mut out, mut table) = ([0; 100], [0; 10]);
/// let merged = merge(example::PROBLEM, example::PROBLEM, &mut out, &mut table)?;
/// assert_eq!(merged.numbers.len(), 4);
///
/// // There and back, for each action of each hall.
/// for hall in [Hall::First, Hall::Second] {
///     for action in 0..2 {
///         let step = merged.step(hall, action).expect("it is there");
///         assert_eq!(merged.action(step), Some((hall, action)));
///     }
///     assert_eq!(merged.step(hall, 2), None);
/// }
///
/// // Facts 0 to 2 are the first hall's, and 3 to 5 the second's.
/// assert_eq!(merged.fact(1), (Hall::First, 1));
/// assert_eq!(merged.fact(4), (Hall::Second, 1));
/// # Ok::<(), larkhammock::Refusal>(())
/// ```
#[derive(Clone, Copy, Debug, PartialEq, Eq)]
pub struct Merged<'a> {
    /// The merged problem's block, of version 2.
    pub problem: &'a [u8],
    /// The merged number of each action, a byte each: of those of the first hall in
    /// order, and then of those of the second: 0, 1, 2 and so on.
    pub numbers: &'a [u8],
    first_facts: u64,
    first_actions: u8,
    second_actions: u8,
}

impl<'a> Merged<'a> {
    /// What an answer's lengths say that both buffers begin with, if they can.
    fn of_words(
        first: &[u8],
        lengths: &[u64],
        out: &'a [u8],
        table: &'a [u8],
    ) -> Option<Merged<'a>> {
        let front = |buffer: &'a [u8], length: u64| buffer.get(..usize::try_from(length).ok()?);
        let &[block, count] = lengths else {
            return None;
        };
        // The first problem is sound: it has its counts after five bytes.
        let (facts, actions) = (*first.get(5)?, *first.get(6)?);
        Some(Merged {
            problem: front(out, block)?,
            numbers: front(table, count)?,
            first_facts: facts.into(),
            first_actions: actions,
            second_actions: u8::try_from(count).ok()?.checked_sub(actions)?,
        })
    }

    /// The merged problem's action that is this action of a hall; none where the hall
    /// has no such action. It is what a step of the hall's plan becomes in a merged
    /// plan.
    pub fn step(&self, hall: Hall, action: u8) -> Option<u8> {
        match hall {
            Hall::First => (action < self.first_actions).then_some(action),
            Hall::Second => (action < self.second_actions).then(|| self.first_actions + action),
        }
    }

    /// The hall's action that a step of a merged plan is; none where the merged problem
    /// has no such action.
    pub fn action(&self, step: u8) -> Option<(Hall, u8)> {
        match step.checked_sub(self.first_actions) {
            None => Some((Hall::First, step)),
            Some(action) => (action < self.second_actions).then_some((Hall::Second, action)),
        }
    }

    /// The hall's fact that a fact of the merged problem is, such as that which blocks a
    /// merged plan.
    pub const fn fact(&self, fact: u64) -> (Hall, u64) {
        match fact.checked_sub(self.first_facts) {
            None => (Hall::First, fact),
            Some(fact) => (Hall::Second, fact),
        }
    }
}

#[cfg(test)]
mod tests {
    use super::*;

    const FIRST: [u8; 7] = [1, 0, 0, 0, 2, 3, 2];

    #[test]
    fn lengths_past_a_buffer_are_no_answer() {
        let (out, table) = ([7; 20], [0, 1, 2]);
        let told = |lengths: &[u64]| Merged::of_words(&FIRST, lengths, &out, &table);
        let merged = told(&[20, 3]).expect("both buffers are long enough");
        assert_eq!((merged.problem, merged.numbers), (&out[..], &table[..]));
        for lengths in [[21, 3], [20, 4], [u64::MAX, 3], [20, u64::MAX], [20, 1]] {
            assert_eq!(told(&lengths), None, "{lengths:?}");
        }
        assert_eq!(Merged::of_words(&FIRST[..6], &[20, 3], &out, &table), None);
    }

    #[test]
    fn an_action_of_each_hall_has_its_step() {
        let (out, table) = ([7; 20], [0, 1, 2, 3]);
        let merged = Merged::of_words(&FIRST, &[20, 4], &out, &table).expect("it is one");
        let steps = |hall| [0, 1, 2].map(|action| merged.step(hall, action));
        assert_eq!(steps(Hall::First), [Some(0), Some(1), None]);
        assert_eq!(steps(Hall::Second), [Some(2), Some(3), None]);
        assert_eq!(merged.action(0), Some((Hall::First, 0)));
        assert_eq!(merged.action(3), Some((Hall::Second, 1)));
        assert_eq!(merged.action(4), None);
        assert_eq!(merged.fact(2), (Hall::First, 2));
        assert_eq!(merged.fact(3), (Hall::Second, 0));
    }
}
