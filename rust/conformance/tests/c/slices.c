/* Slices at their edges: no byte, one byte, and exactly as many as a call needs.
   Every buffer has nothing after its last byte, or nothing before its first, so
   that a byte touched outside stops the program: on the heap the sanitizer sees
   what this file and the C library touch, and beside a fence, a page that nobody
   may read or write, the processor sees what anybody touches. */
#define _DEFAULT_SOURCE
#include <stdlib.h>
#include <sys/mman.h>
#include <unistd.h>

#include "small.h"

static enum { HEAP, BEFORE_FENCE, AFTER_FENCE } place;

/* Room for so many bytes, alone in its block or in its page. */
struct room {
    uint8_t *at;
    uint8_t *block;
    size_t block_len;
};

static void needs(int condition, const char *what)
{
    if (!condition) {
        perror(what);
        exit(2);
    }
}

static struct room fenced(size_t len)
{
    const size_t page = (size_t)sysconf(_SC_PAGESIZE);
    struct room room = {NULL, NULL, 3 * page};
    needs(len <= page, "room");
    room.block = mmap(NULL, room.block_len, PROT_NONE,
                      MAP_PRIVATE | MAP_ANONYMOUS, -1, 0);
    needs(room.block != MAP_FAILED, "mmap");
    needs(mprotect(room.block + page, page, PROT_READ | PROT_WRITE) == 0,
          "mprotect");
    room.at = room.block + (place == AFTER_FENCE ? page : 2 * page - len);
    return room;
}

static struct room room_for(size_t len)
{
    struct room room = {NULL, NULL, 0};
    if (place != HEAP)
        return fenced(len);
    room.block = malloc(len);
    needs(len == 0 || room.block != NULL, "malloc");
    room.at = room.block;
    return room;
}

static void leave(struct room room)
{
    if (place == HEAP)
        free(room.block);
    else
        munmap(room.block, room.block_len);
}

static struct room copy(const uint8_t *bytes, size_t len)
{
    struct room room = room_for(len);
    if (len > 0)
        memcpy(room.at, bytes, len);
    return room;
}

/* What a buffer holds before a call. */
static struct room unwritten(size_t len)
{
    struct room room = room_for(len);
    if (len > 0)
        memset(room.at, 0xee, len);
    return room;
}

static void starts(const char *call, struct room room, size_t len,
                   const uint8_t *written, size_t written_len)
{
    if (written_len > 0)
        holds(call, room.at, written_len, written);
    for (size_t i = written_len; i < len; i++) {
        if (room.at[i] != 0xee) {
            printf("%s: byte %zu has changed\n", call, i);
            faults++;
        }
    }
}

static const uint64_t plenty = UINT64_MAX;
static const uint64_t s010 = STATE(2);

/* A problem that is cut to so few bytes that it has no whole header: every
   function refuses it. */
static void no_problem(const uint8_t *p, size_t len, const uint8_t *plan,
                       struct room out, size_t out_len)
{
    is("read_problem", larkhammock_read_problem(p, len), 0, 11, len, 0);
    is("read_plan", larkhammock_read_plan(p, len, plan, len), 0, 11, len, 0);
    is("run", larkhammock_run(p, len, plan, len, s010), 0, 11, len, 0);
    is("judge", larkhammock_judge(p, len, plan, len, plenty), 0, 11, len, 0);
    is("write_list",
       larkhammock_write_list(p, len, plan, len, plenty, out.at, out_len),
       0, 11, len, 0);
    is("follow_list", larkhammock_follow_list(p, len, plan, len, plan, len),
       0, 11, len, 0);
    is("relevant_facts",
       larkhammock_relevant_facts(p, len, plan, len, s010, out.at, out_len),
       0, 11, len, 0);
    is("relevant_facts_sparse",
       larkhammock_relevant_facts_sparse(p, len, plan, len, s010,
                                         out.at, out_len),
       0, 11, len, 0);
    is("search_plans", larkhammock_search_plans(p, len, 4, plenty),
       0, 11, len, 0);
    is("merge", larkhammock_merge(p, len, p, len, out.at, out_len, NULL, 0),
       0, 11, len, 0);
    starts("no problem", out, out_len, NULL, 0);
}

/* The same of a plan. */
static void no_plan(struct room p, const uint8_t *plan, size_t len,
                    struct room out, size_t out_len)
{
    const size_t p_len = sizeof problem;
    is("read_plan", larkhammock_read_plan(p.at, p_len, plan, len),
       0, 31, len, 0);
    is("run", larkhammock_run(p.at, p_len, plan, len, s010), 0, 31, len, 0);
    is("judge", larkhammock_judge(p.at, p_len, plan, len, plenty),
       0, 31, len, 0);
    is("write_list",
       larkhammock_write_list(p.at, p_len, plan, len, plenty, out.at, out_len),
       0, 31, len, 0);
    is("follow_list",
       larkhammock_follow_list(p.at, p_len, plan, len, plan, len),
       0, 31, len, 0);
    is("relevant_facts",
       larkhammock_relevant_facts(p.at, p_len, plan, len, s010,
                                  out.at, out_len),
       0, 31, len, 0);
    is("relevant_facts_sparse",
       larkhammock_relevant_facts_sparse(p.at, p_len, plan, len, s010,
                                         out.at, out_len),
       0, 31, len, 0);
    starts("no plan", out, out_len, NULL, 0);
}

/* The same of a list, and of a buffer that is too short. */
static void no_room(struct room p, struct room plan, const uint8_t *lines,
                    size_t lines_len, struct room out, size_t out_len)
{
    const size_t p_len = sizeof problem, plan_len = sizeof both;
    is("follow_list",
       larkhammock_follow_list(p.at, p_len, plan.at, plan_len,
                               lines, lines_len),
       0, 61, lines_len, 0);
    is("write_list",
       larkhammock_write_list(p.at, p_len, plan.at, plan_len, plenty,
                              out.at, out_len),
       0, 53, 3, 0);
    is("relevant_facts",
       larkhammock_relevant_facts(p.at, p_len, plan.at, plan_len, s010,
                                  out.at, out_len),
       0, 42, 0, 0);
    is("relevant_facts_sparse",
       larkhammock_relevant_facts_sparse(p.at, p_len, plan.at, plan_len, s010,
                                         out.at, out_len),
       0, 42, 0, 0);
    starts("no room", out, out_len, NULL, 0);
}

/* The same of a second problem, and of a buffer and a table that are too
   short. */
static void no_second(struct room p, const uint8_t *second, size_t len,
                      struct room few, size_t few_len)
{
    struct room out = unwritten(MERGED_LEN), table = unwritten(4);
    const size_t p_len = sizeof problem;
    is("merge", larkhammock_merge(p.at, p_len, second, len,
                                  out.at, MERGED_LEN, table.at, 4),
       0, 11, len, 0);
    is("merge, short", larkhammock_merge(p.at, p_len, p.at, p_len,
                                         few.at, few_len, table.at, 4),
       0, 86, 0, 0);
    is("merge, short table",
       larkhammock_merge(p.at, p_len, p.at, p_len,
                         out.at, MERGED_LEN, few.at, few_len),
       0, 86, 0, 0);
    starts("merge, refused", out, MERGED_LEN, NULL, 0);
    starts("merge, refused", table, 4, NULL, 0);
    starts("merge, refused", few, few_len, NULL, 0);
    leave(out);
    leave(table);
}

/* No byte with a null pointer and with a live one, and one byte: in the place
   of each slice, the others being whole. */
static void few_bytes(struct room p, struct room plan)
{
    const struct room null = {NULL, NULL, 0};
    struct room none = room_for(0), one = copy(problem, 1);
    struct room out = unwritten(1);

    no_problem(NULL, 0, NULL, null, 0);
    no_problem(none.at, 0, none.at, none, 0);
    no_problem(one.at, 1, one.at, out, 1);
    no_plan(p, NULL, 0, null, 0);
    no_plan(p, none.at, 0, none, 0);
    no_plan(p, one.at, 1, out, 1);
    no_room(p, plan, NULL, 0, null, 0);
    no_room(p, plan, none.at, 0, none, 0);
    no_room(p, plan, one.at, 1, out, 1);
    no_second(p, NULL, 0, null, 0);
    no_second(p, none.at, 0, none, 0);
    no_second(p, one.at, 1, out, 1);

    leave(none);
    leave(one);
    leave(out);
}

/* Each call that only reads, on slices that end with their blocks. */
static void reads(struct room p, struct room plan, struct room lines)
{
    const uint64_t found[8] = {1, 27, 2, 0, 1, 0, 0, 0};
    const size_t p_len = sizeof problem, plan_len = sizeof both;
    is("read_problem", larkhammock_read_problem(p.at, p_len), 1, 3, 2, 0);
    is("read_plan", larkhammock_read_plan(p.at, p_len, plan.at, plan_len),
       1, 2, 0, 0);
    is("run", larkhammock_run(p.at, p_len, plan.at, plan_len, s010),
       1, 0, 0, 0);
    is("judge", larkhammock_judge(p.at, p_len, plan.at, plan_len, plenty),
       1, 5, 3, 0);
    is("follow_list",
       larkhammock_follow_list(p.at, p_len, plan.at, plan_len,
                               lines.at, sizeof list),
       1, 3, 0, 0);
    are("search_plans", larkhammock_search_plans(p.at, p_len, 4, plenty),
        found);
}

/* Each call that writes, into one byte less than it needs, exactly as many, and
   more. */
static void writes(struct room p, struct room plan)
{
    const size_t p_len = sizeof problem, plan_len = sizeof both;
    for (size_t len = sizeof list - 1; len <= sizeof list + 8; len++) {
        struct room out = unwritten(len);
        const int fits = len >= sizeof list;
        is("write_list",
           larkhammock_write_list(p.at, p_len, plan.at, plan_len, plenty,
                                  out.at, len),
           fits, fits ? sizeof list : 53, fits ? 0 : 3, 0);
        starts("write_list", out, len, list, fits ? sizeof list : 0);
        leave(out);
    }
    for (size_t len = sizeof states - 1; len <= sizeof states + 8; len++) {
        struct room work = unwritten(len);
        const int fits = len >= sizeof states;
        is("relevant_facts",
           larkhammock_relevant_facts(p.at, p_len, plan.at, plan_len, s010,
                                      work.at, len),
           fits, fits ? s010 : 42, 0, 0);
        starts("relevant_facts", work, len, states, fits ? sizeof states : 0);
        leave(work);
    }
    for (size_t len = sizeof few_states - 1; len <= sizeof few_states + 8;
         len++) {
        struct room work = unwritten(len);
        const int fits = len >= sizeof few_states;
        is("relevant_facts_sparse",
           larkhammock_relevant_facts_sparse(p.at, p_len, plan.at, plan_len,
                                             s010, work.at, len),
           fits, fits ? s010 : 42, 0, 0);
        starts("relevant_facts_sparse", work, len, few_states,
               fits ? sizeof few_states : 0);
        leave(work);
    }
}

/* Bytes from there on are as they were. */
static void ends(const char *call, struct room room, size_t from, size_t len)
{
    const struct room rest = {room.at + from, NULL, 0};
    starts(call, rest, len - from, NULL, 0);
}

/* A merge into buffers of so many bytes. */
static void merges_into(struct room p, size_t out_len, size_t table_len)
{
    struct room out = unwritten(out_len), table = unwritten(table_len);
    const int fits = out_len >= MERGED_LEN && table_len >= 4;
    is("merge", larkhammock_merge(p.at, sizeof problem, p.at, sizeof problem,
                                  out.at, out_len, table.at, table_len),
       fits, fits ? MERGED_LEN : 86, fits ? 4 : 0, 0);
    if (fits)
        merges("merge", out.at, table.at);
    ends("merge", out, fits ? MERGED_LEN : 0, out_len);
    ends("merge, table", table, fits ? 4 : 0, table_len);
    leave(out);
    leave(table);
}

/* The same of both buffers of a merge, where both problems are one slice. */
static void merges_at_edges(struct room p)
{
    for (size_t len = MERGED_LEN - 1; len <= MERGED_LEN + 8; len++)
        for (size_t table_len = 3; table_len <= 6; table_len++)
            merges_into(p, len, table_len);
}

/* The first bytes of a block, whose header says that these are all. */
static struct room cut(const uint8_t *block, size_t len)
{
    struct room room = copy(block, len);
    if (len >= 5)
        room.at[4] = (uint8_t)(len - 5);
    return room;
}

static void is_refused(const char *call, larkhammock_answer got, size_t len)
{
    checked++;
    if (got.word[0] != 0) {
        printf("%s: passes when cut to %zu bytes\n", call, len);
        faults++;
    }
}

/* A problem and a list that end inside, at each place where they can. */
static void cut_short(struct room p, struct room plan)
{
    uint8_t out[MERGED_LEN], table[4];
    for (size_t len = 0; len < sizeof problem; len++) {
        struct room less = cut(problem, len);
        is_refused("read_problem", larkhammock_read_problem(less.at, len), len);
        is_refused("judge",
                   larkhammock_judge(less.at, len, plan.at, sizeof both,
                                     plenty),
                   len);
        is_refused("merge",
                   larkhammock_merge(less.at, len, p.at, sizeof problem,
                                     SLICE(out), SLICE(table)),
                   len);
        is_refused("merge, second",
                   larkhammock_merge(p.at, sizeof problem, less.at, len,
                                     SLICE(out), SLICE(table)),
                   len);
        leave(less);
    }
    for (size_t len = 0; len < sizeof list; len++) {
        struct room less = cut(list, len);
        is_refused("follow_list",
                   larkhammock_follow_list(p.at, sizeof problem,
                                           plan.at, sizeof both,
                                           less.at, len),
                   len);
        leave(less);
    }
}

static void all_edges(void)
{
    struct room p = copy(SLICE(problem)), plan = copy(SLICE(both));
    struct room lines = copy(SLICE(list));
    few_bytes(p, plan);
    reads(p, plan, lines);
    writes(p, plan);
    merges_at_edges(p);
    cut_short(p, plan);
    holds("the problem", p.at, sizeof problem, problem);
    holds("the plan", plan.at, sizeof both, both);
    holds("the list", lines.at, sizeof list, list);
    leave(p);
    leave(plan);
    leave(lines);
}

int main(void)
{
    for (place = HEAP; place <= AFTER_FENCE; place++)
        all_edges();
    if (faults == 0)
        printf("%d answers as they should be\n", checked);
    return faults != 0;
}
