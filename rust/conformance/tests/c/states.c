/* The facts of a state by the header's functions, which are C and C++. */
#include <stdio.h>

#include "larkhammock.h"

static int checked = 0;
static int faults = 0;

static void is(const char *what, unsigned version, unsigned fact, uint64_t got,
               uint64_t expected)
{
    checked++;
    if (got != expected) {
        printf("%s: version %u, fact %u: %llx, not %llx\n", what, version, fact,
               (unsigned long long)got, (unsigned long long)expected);
        faults++;
    }
}

/* Each fact alone, and each but one. */
static void facts_of(unsigned version, unsigned facts, uint64_t all)
{
    for (unsigned fact = 0; fact < facts; fact++) {
        const uint64_t one = larkhammock_set_fact(version, 0, fact, 1);
        const uint64_t others = larkhammock_set_fact(version, all, fact, 0);
        is("one", version, fact, one, (uint64_t)1 << (facts - 1 - fact));
        is("others", version, fact, others, all - one);
        is("again", version, fact, larkhammock_set_fact(version, one, fact, 7),
           one);
        is("none", version, fact, larkhammock_set_fact(version, one, fact, 0),
           0);
        for (unsigned other = 0; other < facts; other++) {
            const int same = fact == other;
            is("get", version, other, larkhammock_get_fact(version, one, other),
               same);
            is("get", version, other,
               larkhammock_get_fact(version, others, other), !same);
        }
    }
    is("all", version, 0, (uint64_t)larkhammock_most_facts(version), facts);
}

/* A fact that a version does not have. */
static void no_fact(unsigned version, unsigned fact)
{
    const uint64_t states[] = {0, 1, (uint64_t)1 << 63, UINT64_MAX};
    for (unsigned i = 0; i < 4; i++) {
        is("no fact", version, fact,
           larkhammock_get_fact(version, states[i], fact), 0);
        is("no fact", version, fact,
           larkhammock_set_fact(version, states[i], fact, 1), states[i]);
        is("no fact", version, fact,
           larkhammock_set_fact(version, states[i], fact, 0), states[i]);
    }
}

int main(void)
{
    const unsigned past[] = {48, 64, 127, 128, 255, 256, 0xffffffffu};
    const unsigned strange[] = {0, 3, 255, 256, 257, 0xffffffffu};
    facts_of(1, 48, ((uint64_t)1 << 48) - 1);
    facts_of(2, 64, UINT64_MAX);
    for (unsigned i = 0; i < 7; i++) {
        no_fact(1, past[i]);
        if (i > 0)
            no_fact(2, past[i]);
    }
    for (unsigned i = 0; i < 6; i++) {
        no_fact(strange[i], 0);
        no_fact(strange[i], 63);
    }
    /* As the example has it: fact 1 of three. */
    is("010", 1, 1, larkhammock_set_fact(1, 0, 1, 1), 0x400000000000u);
    is("010", 2, 1, larkhammock_set_fact(2, 0, 1, 1), 0x4000000000000000u);
    /* The limits go together. */
    is("list", 1, 0,
       5 + LARKHAMMOCK_V1_MOST_LINES * LARKHAMMOCK_V1_LINE_BYTES,
       LARKHAMMOCK_V1_LONGEST_LIST);
    is("list", 2, 0,
       5 + LARKHAMMOCK_V2_MOST_LINES * LARKHAMMOCK_V2_LINE_BYTES,
       LARKHAMMOCK_V2_LONGEST_LIST);
    is("work", 1, 0, 257 * LARKHAMMOCK_V1_MOST_FACTS,
       LARKHAMMOCK_V1_LONGEST_WORK);
    is("work", 2, 0, 257 * LARKHAMMOCK_V2_MOST_FACTS,
       LARKHAMMOCK_V2_LONGEST_WORK);
    is("sparse work", 1, 0, (256 / 16 + 17) * LARKHAMMOCK_V1_MOST_FACTS,
       LARKHAMMOCK_V1_LONGEST_SPARSE_WORK);
    is("sparse work", 2, 0, (256 / 16 + 17) * LARKHAMMOCK_V2_MOST_FACTS,
       LARKHAMMOCK_V2_LONGEST_SPARSE_WORK);
    is("problem", 1, 0, 32768, LARKHAMMOCK_LONGEST_PROBLEM);
    is("actions", 1, 0, 64, LARKHAMMOCK_MOST_ACTIONS);
    is("effects", 1, 0, 2 * LARKHAMMOCK_V1_STATE_BITS,
       LARKHAMMOCK_V1_MOST_EFFECTS);
    is("effects", 2, 0, 2 * LARKHAMMOCK_V2_STATE_BITS,
       LARKHAMMOCK_V2_MOST_EFFECTS);

    if (faults == 0)
        printf("%d facts as they should be\n", checked);
    return faults != 0;
}
