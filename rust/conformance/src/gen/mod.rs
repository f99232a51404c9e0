//! Problems, plans and lists of each version from a fixed seed: sound, damaged and
//! arbitrary.

mod damage;
mod formulas;
mod lists;
mod names;
mod narrower;
mod pairs;
mod problems;
mod rng;
mod texts;

use crate::encode;
use crate::families::idle;
use crate::harness::Case;
use crate::model::Line;
use crate::oracle::{merge, read_problem, search_plans, walk, End, Search, Task, Walk};
use crate::version::{Version, MOST_PLAN_BYTES, MOST_PROBLEM_BYTES, PLAN_VERSION, VERSION_1};

use damage::{arbitrary, damaged, scribbled, unsound};
pub use formulas::formula_of_size;
pub use lists::{altered, cover, even_cover, every_cover, in_other_version, refined, Alteration};
pub use names::names;
pub use narrower::{every_state, Narrowing};
pub use pairs::{at_limits, damaged_problem, merge_case, problem_of_size};
use problems::wide_task;
pub use problems::{ordered_problem, right_task, task};
pub use rng::Rng;
pub use texts::{arbitrary_text, damaged_text};

/// No generated call lets the walk look at more cases than this.
const PATIENCE: u64 = 1_500;

/// The same of a search, whose plans share them: fewer are enough to meet every
/// answer.
const SEARCH_PATIENCE: u64 = 100;

/// Arguments for all ten operations, all of them sound.
pub fn sound_case(rng: &mut Rng, version: &Version) -> Case {
    settled(sound_plan_case(rng, version))
}

/// The same without what only searches, merges and small work areas take: most tests of one
/// operation need no more, and these are dear to choose.
pub fn sound_plan_case(rng: &mut Rng, version: &Version) -> Case {
    let task = task_of_case(rng, version);
    let (mut case, walk) = case_of(rng, &task);
    settle_by(rng, &mut case, &task, &walk, PATIENCE);
    case
}

fn task_of_case(rng: &mut Rng, version: &Version) -> Task {
    if rng.chance(1, 2) {
        right_task(rng, version)
    } else {
        task(rng, version)
    }
}

/// A sound case whose plan is right with so many lines that no block holds
/// them, or nearly.
pub fn wide_case(rng: &mut Rng, version: &Version) -> Case {
    let task = wide_task(rng, version);
    let (mut case, _) = case_of(rng, &task);
    settle(rng, &mut case, 40_000);
    settled(case)
}

/// A case of which one or more blocks are damaged.
pub fn damaged_case(rng: &mut Rng, version: &Version) -> Case {
    settled(damaged_plan_case(rng, version))
}

/// The same without what only searches, merges and small work areas take.
pub fn damaged_plan_case(rng: &mut Rng, version: &Version) -> Case {
    let task_of_case = task_of_case(rng, version);
    let (mut case, _) = case_of(rng, &task_of_case);
    match rng.below(8) {
        0 | 1 => {
            let mut task = task(rng, version);
            unsound(rng, &mut task.problem);
            case.problem = encode::problem(&task.problem);
        }
        2..=4 => case.problem = damaged(rng, version, &case.problem, MOST_PROBLEM_BYTES),
        5 => case.plan = damaged(rng, version, &case.plan, MOST_PLAN_BYTES),
        _ => case.list = damaged(rng, version, &case.list, version.most_bytes()),
    }
    if rng.chance(1, 8) {
        case.plan = damaged(rng, version, &case.plan, MOST_PLAN_BYTES);
    }
    settle(rng, &mut case, PATIENCE);
    case
}

/// Sound in even rounds, damaged in odd ones.
pub fn case_of_round(rng: &mut Rng, version: &Version, round: usize) -> Case {
    if round.is_multiple_of(2) {
        sound_case(rng, version)
    } else {
        damaged_case(rng, version)
    }
}

/// A case of which some blocks are arbitrary bytes.
pub fn arbitrary_case(rng: &mut Rng, version: &Version) -> Case {
    let task = task_of_case(rng, version);
    let (mut case, _) = case_of(rng, &task);
    match rng.below(4) {
        0 => case.problem = arbitrary(rng, version),
        1 => case.problem = scribbled(rng, version),
        2 => case.plan = arbitrary(rng, &PLAN_VERSION),
        _ => case.list = arbitrary(rng, version),
    }
    if rng.chance(1, 4) {
        case.list = arbitrary(rng, version);
    }
    case.state = rng.word();
    settle(rng, &mut case, PATIENCE);
    settled(case)
}

/// A sound case for this problem and plan, its list sometimes altered, and their walk: grants and
/// buffers are still to be chosen.
fn case_of(rng: &mut Rng, task: &Task) -> (Case, Walk) {
    let version = &task.problem.version;
    let walk = walk(task, PATIENCE);
    let mut lines = walk.lines.clone();
    if rng.chance(1, 2) {
        lines = refined(rng, task, &lines);
    }
    if rng.chance(1, 3) {
        lines = altered(rng, task, &lines);
    }
    let facts = usize::from(task.problem.facts);
    let values: Vec<bool> = (0..facts).map(|_| rng.chance(1, 2)).collect();
    // One bit more is refused; often it is past the facts.
    let stray = if rng.chance(1, 6) {
        1 << rng.below(64)
    } else {
        0
    };
    let case = Case {
        problem: encode::problem(&task.problem),
        plan: encode::plan(&task.plan),
        list: list_beside(rng, version, &lines),
        state: version.number(&values) | stray,
        ..Case::default()
    };
    (case, walk)
}

/// The list of these lines, now and then of another version than its problem.
fn list_beside(rng: &mut Rng, version: &Version, lines: &[Line]) -> Vec<u8> {
    match rng.below(12) {
        0 => encode::list(&version.other(), &in_other_version(version, lines)),
        _ => encode::list(version, lines),
    }
}

/// Chooses a grant and buffers that suit the blocks: near the edges, and never
/// so large a grant that the walk takes long.
fn settle(rng: &mut Rng, case: &mut Case, patience: u64) {
    case.grant = rng.word();
    case.room = rng.below(64);
    case.work = rng.below(64);
    if let Ok(task) = Task::parse(&case.problem, &case.plan) {
        let walk = walk(&task, patience);
        settle_by(rng, case, &task, &walk, patience);
    }
}

/// The same by the walk of a sound problem and plan.
fn settle_by(rng: &mut Rng, case: &mut Case, task: &Task, walk: &Walk, patience: u64) {
    case.room = rng.below(64);
    case.work = near(rng, task.work_bytes());
    if let End::Spent = walk.end {
        case.grant = rng.word() % patience;
        return;
    }
    case.grant = grant_near(rng, walk.visits);
    case.room = near(rng, task.problem.version.list_bytes(walk.lines.len()));
}

/// With what searches take, by the blocks.
pub fn with_search(mut case: Case) -> Case {
    settle_search(&mut case);
    case
}

/// The same, and what merges and small work areas take.
fn settled(case: Case) -> Case {
    let mut case = with_search(case);
    settle_sparse(&mut case);
    settle_merge(&mut case);
    case
}

/// Numbers that go by the case itself, so that a seed gives the same cases for the rest.
fn rng_of(block: &[u8], state: u64) -> Rng {
    let bytes = block.iter().copied().map(u64::from);
    Rng::new(bytes.fold(state, |seed, byte| seed.rotate_left(5) ^ byte))
}

/// Chooses a work area in which few states of the run are kept.
fn settle_sparse(case: &mut Case) {
    let rng = &mut rng_of(&case.plan, case.state);
    case.sparse_work = match Task::parse(&case.problem, &case.plan) {
        Ok(task) => near(rng, task.sparse_work_bytes()),
        Err(_) => rng.below(64),
    };
}

/// Chooses a second problem for a merge, and buffers: mostly both are long enough.
fn settle_merge(case: &mut Case) {
    let rng = &mut rng_of(&case.problem, !case.state);
    let first = read_problem(&case.problem);
    let beside = first.clone().unwrap_or_else(|_| idle(VERSION_1, 1));
    case.second = pairs::second(rng, &beside);
    (case.block_room, case.places) = (rng.below(64), rng.below(4));
    let (Ok(first), Ok(second)) = (first, read_problem(&case.second)) else {
        return;
    };
    let count = first.actions.len() + second.actions.len();
    let Ok(merged) = merge(&first, &second) else {
        return;
    };
    let block = encode::problem(&merged).len();
    (case.block_room, case.places) = match rng.below(4) {
        0 => (near(rng, block), count + rng.below(5)),
        1 if count > 0 => (block + rng.below(40), near(rng, count)),
        _ => (block + rng.below(40), count + rng.below(5)),
    };
}

/// Chooses a longest length, mostly one of 0 to 4, and a grant for a search.
fn settle_search(case: &mut Case) {
    let rng = &mut rng_of(&case.problem, case.state);
    case.longest = match rng.below(32) {
        0 => rng.word(),
        1 => 5,
        n => n as u64 % 5,
    };
    case.shared_grant = rng.word() % SEARCH_PATIENCE;
    let search = search_plans(&case.problem, case.longest, SEARCH_PATIENCE);
    if let Ok(Search::Found { visits, .. } | Search::NoneRight { visits }) = search {
        case.shared_grant = grant_near(rng, visits);
    }
}

/// A grant that is one short, exact, short, a few more or as good as endless.
fn grant_near(rng: &mut Rng, visits: u64) -> u64 {
    match rng.below(8) {
        0 => visits - 1,
        1 => visits,
        2 => rng.word() % visits,
        3 => visits + rng.word() % 9,
        _ => u64::MAX - rng.word() % 2,
    }
}

/// A length that is one short, short, exact or longer.
fn near(rng: &mut Rng, exact: usize) -> usize {
    match rng.below(4) {
        0 => exact - 1,
        1 => rng.below(exact),
        2 => exact,
        _ => exact + rng.below(40),
    }
}
