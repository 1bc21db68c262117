/* Document 01's floor with its plan, and checks that end the program at the first number that is not as it should be. */
#ifndef DOCUMENT_H
#define DOCUMENT_H

#include <stdio.h>
#include <stdlib.h>
#include <string.h>

#include "azebimoru.h"

#define COUNT(list) (sizeof(list) / sizeof((list)[0]))

enum { W = 5, H = 3, FREE = 14, K = 4, M = 8, CLEARANCES = 4 * W * H, WORK = 6 * (K + 2) };

/* .....
   ..#..
   ..... */
static const uint64_t WORDS[H] = {UINT64_C(0xffffffffffffffe0), UINT64_C(18446744073709551588), UINT64_C(0xffffffffffffffe0)};

/* Four for each cell by its number: north, east, south, west. */
static const uint8_t CLEAR[CLEARANCES] = {
    0, 1, 2, 0, /* (0, 0) */ 0, 2, 2, 1, 0, 1, 0, 1, 0, 1, 2, 2, 0, 0, 2, 1,
    1, 1, 1, 0, /* (0, 1) */ 1, 0, 1, 1, 0, 0, 0, 0, 1, 1, 1, 0, 1, 0, 1, 1,
    2, 1, 0, 0, /* (0, 2) */ 2, 2, 0, 1, 0, 1, 0, 1, 2, 1, 0, 2, 2, 0, 0, 1,
};
static const uint16_t CORNERS[K] = {1, 3, 11, 13};
static const uint16_t STARTS[K + 1] = {0, 2, 4, 6, 8};
static const uint16_t NEIGHBOURS[M] = {3, 11, 1, 13, 1, 13, 3, 11};

/* How many answers and lists were looked at, and what was asked last. */
static int looked_at = 0;
static const char *question = "";

static void expect(const char *what, unsigned long got, unsigned long wanted) {
    looked_at++;
    if (got != wanted) {
        printf("%s: %s: %lu, wanted %lu\n", question, what, got, wanted);
        exit(1);
    }
}

/* Byte for byte, over the whole of a list with the guards beside its lent part. */
static void expect_same(const char *what, const void *got, const void *wanted, size_t bytes) {
    looked_at++;
    if (memcmp(got, wanted, bytes) != 0) {
        printf("%s: %s: not as it should be\n", question, what);
        exit(1);
    }
}

#endif
