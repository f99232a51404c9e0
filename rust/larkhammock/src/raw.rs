//! The C interface as it is: one answer of eight words for each call.
//!
//! The functions of the crate's root say the same with names. These are for
//! callers that want every word, such as the conformance tests.

#[cfg(not(all(
    target_os = "linux",
    target_arch = "x86_64",
    target_pointer_width = "64"
)))]
compile_error!("liblarkhammock.a is for x86-64 Linux, with pointers of 64 bits");

/// The archive that this crate is linked with.
pub const ARCHIVE: &str = env!("LARKHAMMOCK_ARCHIVE");

/// What every function returns: the tag in word 0, then values that
/// `include/larkhammock.h` names for each function and tag. The rest are 0.
#[repr(C)]
#[derive(Clone, Copy, Debug, PartialEq, Eq)]
pub struct Answer {
    /// The eight words.
    pub word: [u64; 8],
}

// What each function asks of its caller, as `include/larkhammock.h` has it:
// - a pointer and its length are so many bytes of one live object, at most
//   `isize::MAX` of them, which nobody else writes during the call
// - `out`, `work` or `table` overlaps no other argument, and nobody else reads it
//   during the call either
// - a pointer may be null where its length is 0
extern "C" {
    fn larkhammock_read_problem(problem: *const u8, problem_len: usize) -> Answer;
    fn larkhammock_read_plan(
        problem: *const u8,
        problem_len: usize,
        plan: *const u8,
        plan_len: usize,
    ) -> Answer;
    fn larkhammock_run(
        problem: *const u8,
        problem_len: usize,
        plan: *const u8,
        plan_len: usize,
        state: u64,
    ) -> Answer;
    fn larkhammock_judge(
        problem: *const u8,
        problem_len: usize,
        plan: *const u8,
        plan_len: usize,
        grant: u64,
    ) -> Answer;
    fn larkhammock_write_list(
        problem: *const u8,
        problem_len: usize,
        plan: *const u8,
        plan_len: usize,
        grant: u64,
        out: *mut u8,
        out_len: usize,
    ) -> Answer;
    fn larkhammock_follow_list(
        problem: *const u8,
        problem_len: usize,
        plan: *const u8,
        plan_len: usize,
        list: *const u8,
        list_len: usize,
    ) -> Answer;
    fn larkhammock_relevant_facts(
        problem: *const u8,
        problem_len: usize,
        plan: *const u8,
        plan_len: usize,
        state: u64,
        work: *mut u8,
        work_len: usize,
    ) -> Answer;
    fn larkhammock_relevant_facts_sparse(
        problem: *const u8,
        problem_len: usize,
        plan: *const u8,
        plan_len: usize,
        state: u64,
        work: *mut u8,
        work_len: usize,
    ) -> Answer;
    fn larkhammock_search_plans(
        problem: *const u8,
        problem_len: usize,
        longest: u64,
        grant: u64,
    ) -> Answer;
    fn larkhammock_merge(
        first: *const u8,
        first_len: usize,
        second: *const u8,
        second_len: usize,
        out: *mut u8,
        out_len: usize,
        table: *mut u8,
        table_len: usize,
    ) -> Answer;
}

// SAFETY, for every call below: a slice is so many bytes of one live object, at
// most `isize::MAX` of them, and its pointer is never null. It is borrowed for
// the time of the call, so that nobody else writes it; `out`, `work` or `table` is
// borrowed alone, so that it overlaps nothing and nobody else reads it. The
// library reads and writes within those lengths and keeps no pointer.

/// Tag 1: facts, actions.
pub fn read_problem(problem: &[u8]) -> Answer {
    unsafe { larkhammock_read_problem(problem.as_ptr(), problem.len()) }
}

/// Tag 1: steps.
pub fn read_plan(problem: &[u8], plan: &[u8]) -> Answer {
    unsafe { larkhammock_read_plan(problem.as_ptr(), problem.len(), plan.as_ptr(), plan.len()) }
}

/// Tag 1 reached, 2 missed, 3 blocked: step, part, its number.
pub fn run(problem: &[u8], plan: &[u8], state: u64) -> Answer {
    unsafe {
        larkhammock_run(
            problem.as_ptr(),
            problem.len(),
            plan.as_ptr(),
            plan.len(),
            state,
        )
    }
}

/// Tag 1 right: visits, lines. Tag 2 wrong: visits, state, outcome, step, part,
/// its number. Tag 3 undecided: visits.
pub fn judge(problem: &[u8], plan: &[u8], grant: u64) -> Answer {
    unsafe {
        larkhammock_judge(
            problem.as_ptr(),
            problem.len(),
            plan.as_ptr(),
            plan.len(),
            grant,
        )
    }
}

/// Tag 1: length written.
pub fn write_list(problem: &[u8], plan: &[u8], grant: u64, out: &mut [u8]) -> Answer {
    unsafe {
        larkhammock_write_list(
            problem.as_ptr(),
            problem.len(),
            plan.as_ptr(),
            plan.len(),
            grant,
            out.as_mut_ptr(),
            out.len(),
        )
    }
}

/// Tag 1: lines.
pub fn follow_list(problem: &[u8], plan: &[u8], list: &[u8]) -> Answer {
    unsafe {
        larkhammock_follow_list(
            problem.as_ptr(),
            problem.len(),
            plan.as_ptr(),
            plan.len(),
            list.as_ptr(),
            list.len(),
        )
    }
}

/// Tag 1: the set of facts as a state number.
pub fn relevant_facts(problem: &[u8], plan: &[u8], state: u64, work: &mut [u8]) -> Answer {
    unsafe {
        larkhammock_relevant_facts(
            problem.as_ptr(),
            problem.len(),
            plan.as_ptr(),
            plan.len(),
            state,
            work.as_mut_ptr(),
            work.len(),
        )
    }
}

/// Tag 1: the set of facts as a state number.
pub fn relevant_facts_sparse(problem: &[u8], plan: &[u8], state: u64, work: &mut [u8]) -> Answer {
    unsafe {
        larkhammock_relevant_facts_sparse(
            problem.as_ptr(),
            problem.len(),
            plan.as_ptr(),
            plan.len(),
            state,
            work.as_mut_ptr(),
            work.len(),
        )
    }
}

/// Tag 1 found, 2 none, 3 undecided: visits, length, each of four steps.
pub fn search_plans(problem: &[u8], longest: u64, grant: u64) -> Answer {
    unsafe { larkhammock_search_plans(problem.as_ptr(), problem.len(), longest, grant) }
}

/// Tag 1: length of the block in `out`, length of the table.
pub fn merge(first: &[u8], second: &[u8], out: &mut [u8], table: &mut [u8]) -> Answer {
    unsafe {
        larkhammock_merge(
            first.as_ptr(),
            first.len(),
            second.as_ptr(),
            second.len(),
            out.as_mut_ptr(),
            out.len(),
            table.as_mut_ptr(),
            table.len(),
        )
    }
}
