/* Whether four lists are the plan of document 01's floor: the true one, each entry of it altered, and each list one longer or shorter. */
#include "document.h"

/* The plan with room for one entry more in each list. */
typedef struct {
    uint8_t clearances[CLEARANCES + 1];
    uint16_t corners[K + 1];
    uint16_t starts[K + 1 + 1];
    uint16_t neighbours[M + 1];
} plan;

static plan the_plan(void) {
    plan p;
    memset(&p, 0, sizeof p);
    memcpy(p.clearances, CLEAR, sizeof CLEAR);
    memcpy(p.corners, CORNERS, sizeof CORNERS);
    memcpy(p.starts, STARTS, sizeof STARTS);
    memcpy(p.neighbours, NEIGHBOURS, sizeof NEIGHBOURS);
    return p;
}

static bool matches(const plan *p) {
    return azebimoru_matches(W, H, WORDS, H, p->clearances, CLEARANCES, p->corners, K, p->starts, K + 1, p->neighbours, M);
}

/* With each length as in the plan but for so many more entries, -1, 0 or 1. */
static bool matches_lengths(const plan *p, int clearances, int corners, int starts, int neighbours) {
    return azebimoru_matches(W, H, WORDS, H, p->clearances, (size_t)(CLEARANCES + clearances), p->corners, (size_t)(K + corners),
                             p->starts, (size_t)(K + 1 + starts), p->neighbours, (size_t)(M + neighbours));
}

static void entries(void) {
    plan p = the_plan();
    size_t i;
    for (i = 0; i < CLEARANCES; i++) {
        p.clearances[i]++;
        expect("an altered clearance", matches(&p), false);
        p.clearances[i]--;
    }
    for (i = 0; i < K; i++) {
        p.corners[i]++;
        expect("an altered turning point", matches(&p), false);
        p.corners[i]--;
    }
    for (i = 0; i < K + 1; i++) {
        p.starts[i]++;
        expect("an altered start", matches(&p), false);
        p.starts[i]--;
    }
    for (i = 0; i < M; i++) {
        p.neighbours[i]++;
        expect("an altered neighbour", matches(&p), false);
        p.neighbours[i]--;
    }
    expect("the plan put right again", matches(&p), true);
}

static void lengths(void) {
    plan p = the_plan();
    int by;
    for (by = -1; by < 2; by += 2) {
        expect("clearances of another length", matches_lengths(&p, by, 0, 0, 0), false);
        expect("turning points of another length", matches_lengths(&p, 0, by, 0, 0), false);
        expect("starts of another length", matches_lengths(&p, 0, 0, by, 0), false);
        expect("neighbours of another length", matches_lengths(&p, 0, 0, 0, by), false);
    }
}

/* The plan belongs to its own floor only, and a floor that is refused has none. */
static void floors(void) {
    uint64_t words[H];
    plan p = the_plan();
    memcpy(words, WORDS, sizeof words);
    words[0] |= 1;
    expect("a floor with one cell more blocked",
           azebimoru_matches(W, H, words, H, p.clearances, CLEARANCES, p.corners, K, p.starts, K + 1, p.neighbours, M), false);
    words[0] = WORDS[0] - (UINT64_C(1) << 5);
    expect("a floor with an unused bit of 0",
           azebimoru_matches(W, H, words, H, p.clearances, CLEARANCES, p.corners, K, p.starts, K + 1, p.neighbours, M), false);
    expect("a floor with a word too few",
           azebimoru_matches(W, H, WORDS, H - 1, p.clearances, CLEARANCES, p.corners, K, p.starts, K + 1, p.neighbours, M), false);
    expect("a floor without rows",
           azebimoru_matches(W, 0, WORDS, H, p.clearances, CLEARANCES, p.corners, K, p.starts, K + 1, p.neighbours, M), false);
}

int main(void) {
    plan p = the_plan();
    question = "matches";
    expect("the plan", matches(&p), true);
    expect_same("clearances afterwards", p.clearances, CLEAR, sizeof CLEAR);
    expect_same("turning points afterwards", p.corners, CORNERS, sizeof CORNERS);
    expect_same("starts afterwards", p.starts, STARTS, sizeof STARTS);
    expect_same("neighbours afterwards", p.neighbours, NEIGHBOURS, sizeof NEIGHBOURS);
    entries();
    lengths();
    floors();
    printf("c matches: %d answers as they should be\n", looked_at);
    return 0;
}
