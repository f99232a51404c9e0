/* The library's small example in the version that VERSION names, and how an answer
   is compared: for the programs of this folder, each of which includes it once. */
#ifndef SMALL_H
#define SMALL_H

#include <stdio.h>
#include <string.h>

#include "larkhammock.h"

#ifndef VERSION
#define VERSION 1
#endif

static const uint8_t problem[] = {
    VERSION, 0, 0, 0, 0x20, 3, 2,                      /* 3 facts, 2 actions */
    0, 7, 0x80, 2, 0x81, 2, 0, 1, 0x42,           /* initial */
    0, 1, 2,                                      /* goal */
    0, 2, 0x80, 0, 1, 2, 0, 1, 0,                 /* action 0 */
    0, 2, 0x80, 0, 1, 2, 0, 1, 1,                 /* action 1 */
};
static const uint8_t both[] = {1, 0, 0, 0, 2, 0, 1};
static const uint8_t list_1[] = {
    1, 0, 0, 0, 0x18,
    0, 2, 0, 0, 0, 0, 0, 0,
    1, 2, 0x40, 0, 0, 0, 0, 0,
    1, 1, 0x80, 0, 0, 0, 0, 0,
};
static const uint8_t list_2[] = {
    2, 0, 0, 0, 0x1e,
    0, 2, 0, 0, 0, 0, 0, 0, 0, 0,
    1, 2, 0x40, 0, 0, 0, 0, 0, 0, 0,
    1, 1, 0x80, 0, 0, 0, 0, 0, 0, 0,
};
#if VERSION == 1
#define list list_1
#define other_list list_2
#define STATE_BITS 48
#else
#define list list_2
#define other_list list_1
#define STATE_BITS 64
#endif

/* The state of P whose three facts are these bits. */
#define STATE(bits) ((uint64_t)(bits) << (STATE_BITS - 3))

static const uint8_t states[] = {                 /* from 010, with both */
    0, 1, 0,
    0, 1, 0,
    0, 1, 1,
};

static const uint8_t few_states[] = {             /* of the same run */
    0, 1, 0,
    0, 1, 0,
    0, 1, 0,
    0, 1, 1,
    0, 0, 0, 0, 0, 0, 0, 0, 0, 0, 0, 0, 0, 0, 0, 0, 0, 0, 0, 0,
    0, 0, 0, 0, 0, 0, 0, 0, 0, 0, 0, 0, 0, 0, 0, 0, 0, 0, 0,
};

/* P merged with itself, and the numbers of its actions. */
static const uint8_t merged[] = {
    2, 0, 0, 0, 0x3a, 6, 4,
    0, 12, 0x80, 4, 0x81, 2, 0, 1, 0x42, 0x81, 2, 3, 4, 0x45,
    0, 4, 0x80, 2, 2, 5,
    0, 2, 0x80, 0, 1, 2, 0, 1, 0,
    0, 2, 0x80, 0, 1, 2, 0, 1, 1,
    0, 2, 0x80, 0, 1, 5, 0, 1, 3,
    0, 2, 0x80, 0, 1, 5, 0, 1, 4,
};
static const uint8_t numbers[] = {0, 1, 2, 3};
enum { MERGED_LEN = sizeof merged };

static int checked = 0;
static int faults = 0;

static void are(const char *call, larkhammock_answer got,
                const uint64_t expected[8])
{
    checked++;
    for (int i = 0; i < 8; i++) {
        if (got.word[i] != expected[i]) {
            printf("%s: word[%d] is %llu, not %llu\n", call, i,
                   (unsigned long long)got.word[i],
                   (unsigned long long)expected[i]);
            faults++;
        }
    }
}

static void is(const char *call, larkhammock_answer got, uint64_t a, uint64_t b,
               uint64_t c, uint64_t d)
{
    const uint64_t expected[8] = {a, b, c, d, 0, 0, 0, 0};
    are(call, got, expected);
}

static void holds(const char *call, const uint8_t *buffer, size_t len,
                  const uint8_t *expected)
{
    if (memcmp(buffer, expected, len) != 0) {
        printf("%s: the buffer is not as it should be\n", call);
        faults++;
    }
}

static void merges(const char *call, const uint8_t *block, const uint8_t *table)
{
    holds(call, block, sizeof merged, merged);
    holds(call, table, sizeof numbers, numbers);
}

#define SLICE(a) a, sizeof a

#endif
