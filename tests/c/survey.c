/* A survey of document 01's floor: its numbers, its lists and every refusal, with guards round all that is lent. */
#include "document.h"

/* What a lent list holds before the call, and its guards afterwards. */
enum { MARK = 0xa5, SIDE = 3 };

typedef struct {
    uint8_t clearances[SIDE + CLEARANCES + SIDE];
    uint16_t corners[SIDE + K + SIDE];
    uint16_t starts[SIDE + K + 1 + SIDE];
    uint16_t neighbours[SIDE + M + SIDE];
} lists;

/* How many entries are lent of each list. */
typedef struct {
    size_t clearances, corners, starts, neighbours;
} room;

static const room EXACT = {CLEARANCES, K, K + 1, M};

static azebimoru_surveyed survey(size_t w, size_t h, const uint64_t *words, size_t words_len, lists *l, room r) {
    memset(l, MARK, sizeof *l);
    return azebimoru_survey(w, h, words, words_len, l->clearances + SIDE, r.clearances, l->corners + SIDE, r.corners,
                            l->starts + SIDE, r.starts, l->neighbours + SIDE, r.neighbours);
}

static void expect_numbers(const char *what, azebimoru_surveyed s, unsigned code, unsigned free, unsigned corners, unsigned arcs) {
    question = what;
    expect("code", s.code, code);
    expect("free cells", s.free, free);
    expect("turning points", s.corners, corners);
    expect("arcs", s.arcs, arcs);
}

/* A refusal that changes no list. */
static void expect_refused(const char *what, unsigned code, size_t w, size_t h, const uint64_t *words, size_t words_len, room r) {
    lists l, before;
    memset(&before, MARK, sizeof before);
    expect_numbers(what, survey(w, h, words, words_len, &l, r), code, 0, 0, 0);
    expect_same("the lists", &l, &before, sizeof l);
}

/* The plan in the first entries, and all else as it was. */
static void expect_plan(const lists *l) {
    lists wanted;
    memset(&wanted, MARK, sizeof wanted);
    memcpy(wanted.clearances + SIDE, CLEAR, sizeof CLEAR);
    memcpy(wanted.corners + SIDE, CORNERS, sizeof CORNERS);
    memcpy(wanted.starts + SIDE, STARTS, sizeof STARTS);
    memcpy(wanted.neighbours + SIDE, NEIGHBOURS, sizeof NEIGHBOURS);
    expect_same("the plan", l, &wanted, sizeof wanted);
}

static void accepted(void) {
    lists l;
    room more = {CLEARANCES + SIDE, K + SIDE, K + 1 + SIDE, M + SIDE};
    expect_numbers("exact room", survey(W, H, WORDS, H, &l, EXACT), 0, FREE, K, M);
    expect_plan(&l);
    expect_numbers("more room", survey(W, H, WORDS, H, &l, more), 0, FREE, K, M);
    expect_plan(&l);
}

static void refused(void) {
    uint64_t unused[H];
    room r = EXACT;
    memcpy(unused, WORDS, sizeof unused);
    unused[1] -= UINT64_C(1) << 5;

    expect_refused("no column", 1, 0, H, WORDS, H, r);
    expect_refused("no row", 1, W, 0, WORDS, H, r);
    expect_refused("256 columns", 1, 256, 1, WORDS, H, r);
    expect_refused("256 rows", 1, 1, 256, WORDS, H, r);
    expect_refused("128 times 129 cells", 1, 128, 129, WORDS, H, r);
    expect_refused("a word too few", 2, W, H, WORDS, H - 1, r);
    expect_refused("a word too many", 2, W, H - 1, WORDS, H, r);
    expect_refused("an unused bit", 3, W, H, unused, H, r);
    r.clearances--;
    expect_refused("a clearance too few", 4, W, H, WORDS, H, r);
    expect_refused("an unused bit before a clearance too few", 3, W, H, unused, H, r);
    r = EXACT;
    r.corners--;
    expect_refused("a turning point too few", 5, W, H, WORDS, H, r);
    r = EXACT;
    r.starts--;
    expect_refused("a start too few", 6, W, H, WORDS, H, r);
}

/* Code 7 sets all that was lent to 0, and nothing beside it. */
static void wiped(void) {
    lists l, wanted;
    room r = EXACT;
    r.neighbours--;
    memset(&wanted, MARK, sizeof wanted);
    memset(wanted.clearances + SIDE, 0, CLEARANCES);
    memset(wanted.corners + SIDE, 0, K * sizeof wanted.corners[0]);
    memset(wanted.starts + SIDE, 0, (K + 1) * sizeof wanted.starts[0]);
    memset(wanted.neighbours + SIDE, 0, (M - 1) * sizeof wanted.neighbours[0]);
    expect_numbers("a neighbour too few", survey(W, H, WORDS, H, &l, r), 7, 0, 0, 0);
    expect_same("the lists after 7", &l, &wanted, sizeof wanted);
}

int main(void) {
    accepted();
    refused();
    wiped();
    printf("c survey: %d numbers and lists as they should be\n", looked_at);
    return 0;
}
