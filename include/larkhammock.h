/*
 * Larkhammock: a checker for conformant plans.
 *
 * Link with liblarkhammock.a, which is for x86-64 Linux; no further flags are
 * needed, and of the C library memcpy and memset alone. No function keeps a
 * pointer, allocates memory or fails other than by its answer. Every call ends,
 * for any bytes of any length.
 *
 * Of stack, on this build, a call takes at most 8 KiB to read a problem or a
 * plan, 16 KiB to run a state, 24 KiB to follow a list, 32 KiB to judge a plan
 * or to write a list, 36 KiB to search plans, 48 KiB to tell relevant facts,
 * 24 KiB to tell them sparsely, and 12 KiB to merge.
 *
 * A slice is a pointer and then a length: so many bytes of one live object, at
 * most PTRDIFF_MAX of them, which nobody else writes during the call. Slices
 * that are only read may overlap. A buffer that a call writes (out, work,
 * table) overlaps no other argument, and nobody else reads it during the call
 * either.
 *
 * Where the length is 0, any pointer will do, also a null pointer, such as that
 * of an empty vector in C++: nothing is read or written there.
 *
 * A problem is of version 1 or 2, by its first byte, and a case list has the
 * version of its problem. A plan is of version 1 whatever its problem is. Every
 * function takes problems of both versions.
 */
#ifndef LARKHAMMOCK_H
#define LARKHAMMOCK_H

#if !defined(__linux__) || !defined(__x86_64__) || !defined(__LP64__)
#error "liblarkhammock.a is for x86-64 Linux, with pointers of 64 bits"
#endif

#include <stddef.h>
#include <stdint.h>

#ifdef __cplusplus
extern "C" {
#endif

/*
 * What every function returns, by value. word[0] is the tag; words that a
 * function does not name below are 0.
 *
 * Tag 0 is a refusal, of any function:
 *   word[1]  its number
 *   word[2]  its place
 * A refused call has changed no byte.
 */
typedef struct {
    uint64_t word[8];
} larkhammock_answer;

/*
 * The bytes of the longest problem (a buffer for any merged problem) and the
 * most actions of one (the bytes of a table for any), in both versions.
 */
#define LARKHAMMOCK_LONGEST_PROBLEM 32768
#define LARKHAMMOCK_MOST_ACTIONS 64

/*
 * What the versions differ in: the most facts of a problem, the most effects of
 * an action, the bits of a state's number, the bytes of a line, the most lines
 * of a list, the bytes of the longest list (a buffer for any list), and the
 * bytes of the longest run's states (a work area for any run), and those that
 * are enough for larkhammock_relevant_facts_sparse of any run.
 */
#define LARKHAMMOCK_V1_MOST_FACTS 48
#define LARKHAMMOCK_V1_MOST_EFFECTS 96
#define LARKHAMMOCK_V1_STATE_BITS 48
#define LARKHAMMOCK_V1_LINE_BYTES 8
#define LARKHAMMOCK_V1_MOST_LINES 8191
#define LARKHAMMOCK_V1_LONGEST_LIST 65533
#define LARKHAMMOCK_V1_LONGEST_WORK 12336
#define LARKHAMMOCK_V1_LONGEST_SPARSE_WORK 1584

#define LARKHAMMOCK_V2_MOST_FACTS 64
#define LARKHAMMOCK_V2_MOST_EFFECTS 128
#define LARKHAMMOCK_V2_STATE_BITS 64
#define LARKHAMMOCK_V2_LINE_BYTES 10
#define LARKHAMMOCK_V2_MOST_LINES 6553
#define LARKHAMMOCK_V2_LONGEST_LIST 65535
#define LARKHAMMOCK_V2_LONGEST_WORK 16448
#define LARKHAMMOCK_V2_LONGEST_SPARSE_WORK 2112

/*
 * A state is a number with a bit for each fact that its problem's version can
 * have, fact 0 at the top; the bits past the problem's facts are 0. The state 0
 * has no fact true. The two functions below read and change a fact of a state,
 * so that no caller has to shift bits. version is the problem's: its first
 * byte. No byte but 1 and 2 is a version, and a version has no fact from
 * ..MOST_FACTS on: then the first answers 0, and the second the state as it is.
 */
static inline unsigned larkhammock_most_facts(unsigned version)
{
    return version == 1   ? LARKHAMMOCK_V1_MOST_FACTS
           : version == 2 ? LARKHAMMOCK_V2_MOST_FACTS
                          : 0;
}

/* 1 where the fact is true in the state, and 0 where it is not. */
static inline int larkhammock_get_fact(
    unsigned version, uint64_t state, unsigned fact)
{
    const unsigned facts = larkhammock_most_facts(version);
    return fact < facts && (state >> (facts - 1 - fact) & 1) != 0;
}

/* The state with the fact made true (value is not 0) or false (value is 0). */
static inline uint64_t larkhammock_set_fact(
    unsigned version, uint64_t state, unsigned fact, int value)
{
    const unsigned facts = larkhammock_most_facts(version);
    const uint64_t bit =
        fact < facts ? (uint64_t)1 << (facts - 1 - fact) : 0;
    return value ? state | bit : state & ~bit;
}

/*
 * Read a problem. Refusals 10 to 25.
 *   word[0]  1 read
 *   word[1]  the number of facts, 1 to 48; in version 2, 1 to 64
 *   word[2]  the number of actions, 0 to 64
 */
larkhammock_answer larkhammock_read_problem(
    const uint8_t *problem, size_t problem_len);

/*
 * Read a plan for a problem. Refusals as for the problem, then 30 to 34.
 *   word[0]  1 read
 *   word[1]  the number of steps, 0 to 256
 */
larkhammock_answer larkhammock_read_plan(
    const uint8_t *problem, size_t problem_len,
    const uint8_t *plan, size_t plan_len);

/*
 * Run a plan from one state, which need not be a start state. Refusals as for
 * the plan, then 40 where a bit is set that is of no fact of the problem's. In
 * version 2 with 64 facts there is no such bit.
 *   word[0]  1 reached, 2 missed, 3 blocked
 *   word[1]  where blocked: the step, from 0
 *   word[2]  where blocked: the part of its action that blocks it. part: 0
 *            member, the precondition is false; 1 fact, the precondition is
 *            true, but the set and clear conditions of a fact are both true
 *   word[3]  where blocked: the part's number. Of a member: where the
 *            precondition is an "all", the first of its members, from 0, that
 *            is false; otherwise 0. Of a fact: the lowest such fact
 */
larkhammock_answer larkhammock_run(
    const uint8_t *problem, size_t problem_len,
    const uint8_t *plan, size_t plan_len,
    uint64_t state);

/*
 * Judge a plan, looking at no more cases than granted. Refusals as for the
 * plan. Where it is undecided, ask again with a larger grant: any other answer
 * is the same under every larger one.
 *   word[0]  1 right, 2 wrong, 3 undecided
 *   word[1]  the visits used; where undecided, the grant
 *   word[2]  where right: the lines of the walk's list
 *            where wrong: the lowest start state that fails, as a number
 *   word[3]  where wrong: the outcome of that state, 2 missed or 3 blocked
 *   word[4]  where wrong and blocked: the step, from 0
 *   word[5]  where wrong and blocked: the part, as in a run. part: 0 member,
 *            1 fact
 *   word[6]  where wrong and blocked: the part's number
 */
larkhammock_answer larkhammock_judge(
    const uint8_t *problem, size_t problem_len,
    const uint8_t *plan, size_t plan_len,
    uint64_t grant);

/*
 * Write the case list of a right plan, its certificate, to the front of out.
 * Bytes past the length written keep their values. Refusals as for the plan,
 * then 50 to 53. A buffer of 65,535 bytes holds any list, and one of 65,533
 * bytes any list of version 1. Under a larger grant the list is the same, and
 * so is each refusal but 50.
 *   word[0]  1 written
 *   word[1]  the length written, in bytes
 */
larkhammock_answer larkhammock_write_list(
    const uint8_t *problem, size_t problem_len,
    const uint8_t *plan, size_t plan_len,
    uint64_t grant,
    uint8_t *out, size_t out_len);

/*
 * Follow a case list, whoever wrote it: it passes only if the plan is right.
 * Refusals as for the plan, then 60 to 62, 71 where the list's version is not
 * the problem's, and 63 to 70.
 *   word[0]  1 passes
 *   word[1]  the number of lines in the list
 */
larkhammock_answer larkhammock_follow_list(
    const uint8_t *problem, size_t problem_len,
    const uint8_t *plan, size_t plan_len,
    const uint8_t *list, size_t list_len);

/*
 * Tell which start facts a reached run rests on: from any other state that
 * agrees with this one on them, the plan reaches the goal too. Refusals as for
 * the run, then, at place 0, 41 where it is not reached and 42 where work has
 * under (steps + 1) * facts bytes. A work area of 16,448 bytes is enough for
 * any run, and one of 12,336 bytes for any run of a version 1 problem.
 *   word[0]  1 told
 *   word[1]  the set, as the state in which exactly its facts are true
 * The front of work then holds the states of the run in order, the start state
 * first: one byte a fact, 0 or 1, fact 0 first. Bytes past them keep their
 * values.
 */
larkhammock_answer larkhammock_relevant_facts(
    const uint8_t *problem, size_t problem_len,
    const uint8_t *plan, size_t plan_len,
    uint64_t state,
    uint8_t *work, size_t work_len);

/*
 * Tell the same from a smaller work area, in a longer time: the answers are
 * those of larkhammock_relevant_facts. Refusals as for the run, then, at place
 * 0, 41 where it is not reached and 42 where work has under
 * (steps / 16 + 17) * facts bytes, the quotient rounded down. A work area of
 * 2,112 bytes is enough for any run, and one of 1,584 bytes for any run of a
 * version 1 problem.
 *   word[0]  1 told
 *   word[1]  the set, as the state in which exactly its facts are true
 * The front of work then holds the states of the run numbered 0, 16, 32 and so
 * on, the start state being number 0, then its first 16 states, or all where it
 * has fewer, each as above, and zeros from there on up to the bytes needed.
 * Bytes past them keep their values.
 */
larkhammock_answer larkhammock_relevant_facts_sparse(
    const uint8_t *problem, size_t problem_len,
    const uint8_t *plan, size_t plan_len,
    uint64_t state,
    uint8_t *work, size_t work_len);

/*
 * Try every plan of at most so many steps, by length and then by step numbers
 * from the first step on: judge one after the other, looking at no more cases
 * in all than granted. Refusals as for the problem, then, at place 0, 43 where
 * longest is over 4 and 44 where there are over 1,000,000 such plans. Any
 * answer but undecided is the same under every larger grant.
 *   word[0]  1 found, 2 none is right, 3 undecided
 *   word[1]  the visits used in all; where undecided, the grant
 *   word[2]  where found: the length of the first right plan
 *            where undecided: the length of the first plan whose walk needs
 *            more than the visits left
 *   word[3]  to word[6], where found or undecided: the steps of that plan, each
 *            an action's number, and 0 past its length
 */
larkhammock_answer larkhammock_search_plans(
    const uint8_t *problem, size_t problem_len,
    uint64_t longest,
    uint64_t grant);

/*
 * Merge two problems, the halls, which share no fact and no action, into one
 * of version 2. Each hall may be of either version, and both may be the same
 * slice. Refusals as for a problem: the first hall's, then the second's (the
 * number does not tell whose it is). Then, at place 0, of the merged problem:
 * 82 where it has over 64 facts, 83 where it has over 64 actions, 84 where its
 * initial formula or its goal has over 1,024 bytes, over 255 members of its
 * outermost "all", or over 8 groups in one another, 85 where its block is over
 * 32,768 bytes, and 86 where out is shorter than the block, or table has under
 * one byte an action.
 *   word[0]  1 merged
 *   word[1]  the length of the block, in bytes
 *   word[2]  the length of the table, in bytes: the number of actions
 * The front of out then holds the block. The second hall's facts follow the
 * first's: their numbers go up by the first hall's fact count. The initial
 * formula is the "all" of both initial formulas, the first hall's part first,
 * where an "all" is taken apart into its members and any other formula is one
 * member. The goal is made of both goals in the same way. The actions are the
 * first hall's in their old order, and then the second's in theirs. The front
 * of table holds one byte each: the new numbers of the first hall's actions in
 * order, and then those of the second's. An action's number is its place among
 * those of both halls, so the bytes are 0, 1, 2 and so on. Bytes past the block
 * and past the table keep their values.
 */
larkhammock_answer larkhammock_merge(
    const uint8_t *first, size_t first_len,
    const uint8_t *second, size_t second_len,
    uint8_t *out, size_t out_len,
    uint8_t *table, size_t table_len);

#ifdef __cplusplus
}
#endif

#endif
