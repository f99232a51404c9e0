/* Calls every function of the header and compares its answer word by word. */
#include "small.h"

static const uint8_t guarded[] = {
    VERSION, 0, 0, 0, 0x22, 3, 2,
    0, 7, 0x80, 2, 0x81, 2, 0, 1, 0x42,
    0, 1, 2,
    0, 4, 0x80, 2, 2, 0, 1, 2, 0, 1, 0,           /* action 0: all of 2, 0 */
    0, 2, 0x80, 0, 1, 2, 0, 1, 1,
};
static const uint8_t stalling[] = {
    VERSION, 0, 0, 0, 0x26, 3, 2,
    0, 7, 0x80, 2, 0x81, 2, 0, 1, 0x42,
    0, 1, 2,
    0, 2, 0x80, 0, 2,                             /* action 0: */
    2, 0, 2, 0x80, 0, 0x42, 0, 2, 0x80, 0,        /* sets 2, clears 2 */
    0, 2, 0x80, 0, 1, 2, 0, 1, 1,
};
static const uint8_t other_way[] = {1, 0, 0, 0, 2, 1, 0};
static const uint8_t one[] = {1, 0, 0, 0, 1, 0};
static const uint8_t strange[] = {1, 0, 0, 0, 2, 0, 2};
static const uint8_t large[] = {                  /* 62 facts */
    2, 0, 0, 0, 10, 62, 0, 0, 2, 0x80, 0, 0, 2, 0x80, 0,
};

static void merge(void)
{
    uint8_t out[MERGED_LEN + 7], table[6], kept[MERGED_LEN + 7];
    memset(kept, 0xee, sizeof kept);
    memset(out, 0xee, sizeof out);
    memset(table, 0xee, sizeof table);
    is("merge, cut", larkhammock_merge(problem, 3, problem, 4,
                                       SLICE(out), SLICE(table)),
       0, 11, 3, 0);
    is("merge, second cut", larkhammock_merge(SLICE(problem), problem, 4,
                                              SLICE(out), SLICE(table)),
       0, 11, 4, 0);
    is("merge, too many facts", larkhammock_merge(SLICE(problem), SLICE(large),
                                                  SLICE(out), SLICE(table)),
       0, 82, 0, 0);
    is("merge, short", larkhammock_merge(SLICE(problem), SLICE(problem),
                                         out, MERGED_LEN - 1, SLICE(table)),
       0, 86, 0, 0);
    is("merge, short table", larkhammock_merge(SLICE(problem), SLICE(problem),
                                               SLICE(out), table, 3),
       0, 86, 0, 0);
    holds("merge, refused", SLICE(out), kept);
    holds("merge, refused", SLICE(table), kept);
    is("merge", larkhammock_merge(SLICE(problem), SLICE(problem),
                                  SLICE(out), SLICE(table)),
       1, MERGED_LEN, 4, 0);
    merges("merge", out, table);
    holds("merge", out + MERGED_LEN, 7, kept);
    holds("merge", table + 4, 2, kept);
    is("merge, read", larkhammock_read_problem(out, MERGED_LEN), 1, 6, 4, 0);
}

int main(void)
{
    const uint64_t s010 = STATE(2), s011 = STATE(3), s100 = STATE(4);
    const uint64_t plenty = UINT64_MAX;
    const uint64_t wrong_blocked[8] = {2, 5, s010, 3, 1, 0, 1, 0};
    const uint64_t wrong_stalled[8] = {2, 5, s010, 3, 1, 1, 2, 0};
    const uint64_t found[8] = {1, 27, 2, 0, 1, 0, 0, 0};
    const uint64_t undecided[8] = {3, 26, 2, 0, 1, 0, 0, 0};
    uint8_t out[40], work[60], kept[60];

    is("read_problem", larkhammock_read_problem(SLICE(problem)), 1, 3, 2, 0);
    is("read_problem, cut", larkhammock_read_problem(problem, 4), 0, 11, 4, 0);
    is("read_problem, none", larkhammock_read_problem(problem, 0), 0, 11, 0, 0);

    is("read_plan", larkhammock_read_plan(SLICE(problem), SLICE(both)),
       1, 2, 0, 0);
    is("read_plan, strange",
       larkhammock_read_plan(SLICE(problem), SLICE(strange)), 0, 34, 6, 0);

    is("run", larkhammock_run(SLICE(problem), SLICE(both), s011), 1, 0, 0, 0);
    is("run, missed", larkhammock_run(SLICE(problem), SLICE(one), s010),
       2, 0, 0, 0);
    is("run, blocked", larkhammock_run(SLICE(guarded), SLICE(other_way), s010),
       3, 1, 0, 1);
    is("run, stalled", larkhammock_run(SLICE(stalling), SLICE(other_way), s010),
       3, 1, 1, 2);
    is("run, no state", larkhammock_run(SLICE(problem), SLICE(both), 1),
       0, 40, 0, 0);

    is("judge", larkhammock_judge(SLICE(problem), SLICE(both), plenty),
       1, 5, 3, 0);
    is("judge, wrong", larkhammock_judge(SLICE(problem), SLICE(one), plenty),
       2, 5, s010, 2);
    are("judge, wrong and blocked",
        larkhammock_judge(SLICE(guarded), SLICE(other_way), plenty),
        wrong_blocked);
    are("judge, wrong and stalled",
        larkhammock_judge(SLICE(stalling), SLICE(other_way), plenty),
        wrong_stalled);
    is("judge, undecided", larkhammock_judge(SLICE(problem), SLICE(both), 4),
       3, 4, 0, 0);

    memset(kept, 0xee, sizeof kept);
    memset(out, 0xee, sizeof out);
    is("write_list, short",
       larkhammock_write_list(SLICE(problem), SLICE(both), plenty, out,
                              sizeof list - 1),
       0, 53, 3, 0);
    holds("write_list, short", SLICE(out), kept);
    is("write_list",
       larkhammock_write_list(SLICE(problem), SLICE(both), plenty, SLICE(out)),
       1, sizeof list, 0, 0);
    memcpy(kept, list, sizeof list);
    holds("write_list", SLICE(out), kept);

    is("follow_list",
       larkhammock_follow_list(SLICE(problem), SLICE(both), out, sizeof list),
       1, 3, 0, 0);
    is("follow_list, one plan",
       larkhammock_follow_list(SLICE(problem), SLICE(one), SLICE(list)),
       0, 69, 1, 0);
    is("follow_list, other version",
       larkhammock_follow_list(SLICE(problem), SLICE(both), SLICE(other_list)),
       0, 71, 0, 0);
    is("follow_list, cut",
       larkhammock_follow_list(SLICE(problem), SLICE(both), out, 21),
       0, 63, 1, 0);

    memset(kept, 0xee, sizeof kept);
    memset(work, 0xee, sizeof work);
    is("relevant_facts, no state",
       larkhammock_relevant_facts(SLICE(problem), SLICE(both), 1, SLICE(work)),
       0, 40, 0, 0);
    is("relevant_facts, missed",
       larkhammock_relevant_facts(SLICE(problem), SLICE(one), s010, work, 0),
       0, 41, 0, 0);
    is("relevant_facts, short",
       larkhammock_relevant_facts(SLICE(problem), SLICE(both), s010, work, 8),
       0, 42, 0, 0);
    holds("relevant_facts, refused", SLICE(work), kept);
    is("relevant_facts",
       larkhammock_relevant_facts(SLICE(problem), SLICE(both), s010,
                                  SLICE(work)),
       1, s010, 0, 0);
    memcpy(kept, states, sizeof states);
    holds("relevant_facts", SLICE(work), kept);
    is("relevant_facts, two",
       larkhammock_relevant_facts(SLICE(problem), SLICE(both), s100, work, 9),
       1, s100 | s010, 0, 0);

    memset(kept, 0xee, sizeof kept);
    memset(work, 0xee, sizeof work);
    is("relevant_facts_sparse, no state",
       larkhammock_relevant_facts_sparse(SLICE(problem), SLICE(both), 1,
                                         SLICE(work)),
       0, 40, 0, 0);
    is("relevant_facts_sparse, missed",
       larkhammock_relevant_facts_sparse(SLICE(problem), SLICE(one), s010,
                                         work, 0),
       0, 41, 0, 0);
    is("relevant_facts_sparse, short",
       larkhammock_relevant_facts_sparse(SLICE(problem), SLICE(both), s010,
                                         work, sizeof few_states - 1),
       0, 42, 0, 0);
    holds("relevant_facts_sparse, refused", SLICE(work), kept);
    is("relevant_facts_sparse",
       larkhammock_relevant_facts_sparse(SLICE(problem), SLICE(both), s010,
                                         SLICE(work)),
       1, s010, 0, 0);
    memcpy(kept, few_states, sizeof few_states);
    holds("relevant_facts_sparse", SLICE(work), kept);
    is("relevant_facts_sparse, two",
       larkhammock_relevant_facts_sparse(SLICE(problem), SLICE(both), s100,
                                         work, sizeof few_states),
       1, s100 | s010, 0, 0);

    are("search_plans", larkhammock_search_plans(SLICE(problem), 4, plenty),
        found);
    are("search_plans, undecided",
        larkhammock_search_plans(SLICE(problem), 2, 26), undecided);
    is("search_plans, none",
       larkhammock_search_plans(SLICE(problem), 1, plenty), 2, 17, 0, 0);
    is("search_plans, too long",
       larkhammock_search_plans(SLICE(problem), 5, plenty), 0, 43, 0, 0);
    is("search_plans, cut",
       larkhammock_search_plans(problem, 4, 5, plenty), 0, 11, 4, 0);

    merge();

    if (faults == 0)
        printf("%d answers as they should be\n", checked);
    return faults != 0;
}
