/* How much stack a call takes. It runs on a stack of its own that is filled with
   one byte: below the last place where another byte stands afterwards nobody
   wrote. Twice, with two bytes, since a call may write either of them.

   Arguments: the operation, and the files of problem, plan and list, and of the
   two halls that are merged. Prints the tag of the answer and the bytes of stack,
   with what is needed for calling. */
#define _XOPEN_SOURCE 700
#include <stdio.h>
#include <stdlib.h>
#include <string.h>
#include <ucontext.h>

#include "larkhammock.h"

struct block {
    uint8_t bytes[LARKHAMMOCK_V2_LONGEST_LIST];
    size_t len;
};

static const uint64_t no_fact_true = 0, plenty = 1000000, longest = 4;

static struct block problem, plan, list, first, second, lent, table;
static uint8_t stack[1 << 20];
static ucontext_t outside, inside;
static larkhammock_answer (*operation)(void);
static larkhammock_answer answer;

#define SLICE(block) block.bytes, block.len

static larkhammock_answer read_problem(void)
{
    return larkhammock_read_problem(SLICE(problem));
}

static larkhammock_answer read_plan(void)
{
    return larkhammock_read_plan(SLICE(problem), SLICE(plan));
}

static larkhammock_answer run(void)
{
    return larkhammock_run(SLICE(problem), SLICE(plan), no_fact_true);
}

static larkhammock_answer judge(void)
{
    return larkhammock_judge(SLICE(problem), SLICE(plan), plenty);
}

static larkhammock_answer write_list(void)
{
    return larkhammock_write_list(SLICE(problem), SLICE(plan), plenty,
                                  SLICE(lent));
}

static larkhammock_answer follow_list(void)
{
    return larkhammock_follow_list(SLICE(problem), SLICE(plan), SLICE(list));
}

static larkhammock_answer relevant_facts(void)
{
    return larkhammock_relevant_facts(SLICE(problem), SLICE(plan), no_fact_true,
                                      SLICE(lent));
}

static larkhammock_answer relevant_facts_sparse(void)
{
    return larkhammock_relevant_facts_sparse(SLICE(problem), SLICE(plan),
                                             no_fact_true, SLICE(lent));
}

static larkhammock_answer search_plans(void)
{
    return larkhammock_search_plans(SLICE(problem), longest, plenty);
}

static larkhammock_answer merge(void)
{
    return larkhammock_merge(SLICE(first), SLICE(second), SLICE(lent),
                             SLICE(table));
}

static const struct {
    const char *name;
    larkhammock_answer (*call)(void);
} operations[] = {
    {"read_problem", read_problem}, {"read_plan", read_plan},
    {"run", run},                   {"judge", judge},
    {"write_list", write_list},     {"follow_list", follow_list},
    {"search_plans", search_plans}, {"relevant_facts", relevant_facts},
    {"relevant_facts_sparse", relevant_facts_sparse}, {"merge", merge},
};

static void fail(const char *what)
{
    fprintf(stderr, "stack: %s\n", what);
    exit(2);
}

static void find(const char *name)
{
    for (size_t i = 0; i < sizeof operations / sizeof operations[0]; i++)
        if (strcmp(operations[i].name, name) == 0)
            operation = operations[i].call;
    if (operation == NULL)
        fail(name);
}

static void load(struct block *block, const char *name)
{
    FILE *file = fopen(name, "rb");
    if (file == NULL)
        fail(name);
    block->len = fread(block->bytes, 1, sizeof block->bytes, file);
    fclose(file);
}

static void call(void)
{
    answer = operation();
}

static size_t taken(uint8_t filler)
{
    size_t untouched = 0;
    memset(stack, filler, sizeof stack);
    getcontext(&inside);
    inside.uc_stack.ss_sp = stack;
    inside.uc_stack.ss_size = sizeof stack;
    inside.uc_link = &outside;
    makecontext(&inside, call, 0);
    swapcontext(&outside, &inside);
    while (untouched < sizeof stack && stack[untouched] == filler)
        untouched++;
    return sizeof stack - untouched;
}

int main(int count, char **words)
{
    size_t once, again;
    if (count != 7)
        fail("an operation and five files are needed");
    find(words[1]);
    load(&problem, words[2]);
    load(&plan, words[3]);
    load(&list, words[4]);
    load(&first, words[5]);
    load(&second, words[6]);
    lent.len = sizeof lent.bytes;
    table.len = sizeof table.bytes;
    once = taken(0x5a);
    again = taken(0xa5);
    printf("%d %zu\n", (int)answer.word[0], once > again ? once : again);
    return 0;
}
