/* The queries of document 01's listing, its sums P9 to P12 and every refusal, with guards round the route and the work space. */
#include "document.h"

enum { SIDE = 3, ROUTE = 6 };

/* Room for the longest route here and the work space, with guards on both sides. */
typedef struct {
    uint16_t route[SIDE + ROUTE + SIDE];
    uint32_t work[SIDE + WORK + SIDE];
} space;

/* A floor and its plan as they are lent. */
typedef struct {
    size_t w, h;
    const uint64_t *words;
    size_t words_len;
    const uint8_t *clearances;
    size_t clearances_len;
    const uint16_t *corners;
    size_t corners_len;
    const uint16_t *starts;
    size_t starts_len;
    const uint16_t *neighbours;
    size_t neighbours_len;
} site;

static const site DOCUMENT = {W, H, WORDS, H, CLEAR, CLEARANCES, CORNERS, K, STARTS, K + 1, NEIGHBOURS, M};

/* Start and goal, and how many entries are lent of each list. */
typedef struct {
    size_t sx, sy, gx, gy, route, work;
} asked;

/* Entries that no call writes: neither 0 nor the number of a cell here. */
static space marked(void) {
    space s;
    size_t i;
    for (i = 0; i < COUNT(s.route); i++) {
        s.route[i] = (uint16_t)(50000 + i);
    }
    for (i = 0; i < COUNT(s.work); i++) {
        s.work[i] = (uint32_t)(4000000000u + i);
    }
    return s;
}

/* Asks, and looks at all five numbers, the route, the work space and the guards. After 0, 12 and 13 so many work entries are 0. */
static void ask(const char *what, site f, asked a, azebimoru_answer wanted, const uint16_t *route, size_t zeroed) {
    space got = marked(), left = marked();
    azebimoru_answer r = azebimoru_query(f.w, f.h, f.words, f.words_len, f.clearances, f.clearances_len, f.corners, f.corners_len,
                                         f.starts, f.starts_len, f.neighbours, f.neighbours_len, a.sx, a.sy, a.gx, a.gy,
                                         got.route + SIDE, a.route, got.work + SIDE, a.work);
    size_t i;
    question = what;
    expect("code", r.code, wanted.code);
    expect("straight steps", r.straight, wanted.straight);
    expect("diagonal steps", r.diagonal, wanted.diagonal);
    expect("cells", r.cells, wanted.cells);
    expect("effort", r.effort, wanted.effort);
    for (i = 0; wanted.code == 0 && i < wanted.cells; i++) {
        left.route[SIDE + i] = route[i];
    }
    for (i = 0; i < zeroed; i++) {
        left.work[SIDE + i] = 0;
    }
    expect_same("the route list", got.route, left.route, sizeof left.route);
    expect_same("the work space", got.work, left.work, sizeof left.work);
}

static azebimoru_answer answer(uint32_t code, uint32_t straight, uint32_t diagonal, uint32_t cells, uint32_t effort) {
    azebimoru_answer r;
    r.code = code;
    r.straight = straight;
    r.diagonal = diagonal;
    r.cells = cells;
    r.effort = effort;
    return r;
}

static asked trip(size_t sx, size_t sy, size_t gx, size_t gy, size_t route, size_t work) {
    asked a;
    a.sx = sx;
    a.sy = sy;
    a.gx = gx;
    a.gy = gy;
    a.route = route;
    a.work = work;
    return a;
}

static void refused(const char *what, uint32_t code, site f, asked a) {
    ask(what, f, a, answer(code, 0, 0, 0, 0), NULL, 0);
}

static void listing(void) {
    const uint16_t round[] = {5, 1, 2, 3, 9}, across[] = {0, 1, 2, 3, 9, 14}, direct[] = {0, 6, 11}, stay[] = {0};
    ask("0 1 4 1", DOCUMENT, trip(0, 1, 4, 1, 5, WORK), answer(0, 2, 2, 5, 6), round, WORK);
    ask("0 0 4 2", DOCUMENT, trip(0, 0, 4, 2, 6, WORK), answer(0, 4, 1, 6, 6), across, WORK);
    ask("0 0 1 2", DOCUMENT, trip(0, 0, 1, 2, 6, WORK + 2), answer(0, 1, 1, 3, 0), direct, WORK);
    ask("0 0 0 0", DOCUMENT, trip(0, 0, 0, 0, 1, WORK), answer(0, 0, 0, 1, 0), stay, WORK);
    refused("0 0 2 1", 10, DOCUMENT, trip(0, 0, 2, 1, ROUTE, WORK));
}

static void room(void) {
    ask("a route cell too few", DOCUMENT, trip(0, 1, 4, 1, 4, WORK), answer(13, 2, 2, 5, 6), NULL, WORK);
    ask("no route cell", DOCUMENT, trip(0, 0, 0, 0, 0, WORK), answer(13, 0, 0, 1, 0), NULL, WORK);
    refused("a work entry too few", 11, DOCUMENT, trip(0, 1, 4, 1, 5, WORK - 1));
    refused("no work entry", 11, DOCUMENT, trip(0, 0, 0, 0, 1, 0));
}

static void refusals(void) {
    asked a = trip(0, 1, 4, 1, 5, WORK);
    uint64_t unused[H];
    uint8_t clearances[CLEARANCES];
    site f = DOCUMENT;
    memcpy(unused, WORDS, sizeof unused);
    unused[2] -= UINT64_C(1) << 63;
    memcpy(clearances, CLEAR, sizeof clearances);
    clearances[CLEARANCES - 1]++;

    f.w = 0;
    refused("no column", 1, f, a);
    f.w = 256;
    refused("256 columns", 1, f, a);
    f = DOCUMENT;
    f.words_len--;
    refused("a word too few", 2, f, a);
    f = DOCUMENT;
    f.words = unused;
    refused("an unused bit", 3, f, a);
    f.clearances = clearances;
    refused("an unused bit before an altered clearance", 3, f, a);
    f.words = WORDS;
    refused("an altered clearance", 8, f, a);
    refused("an altered clearance before a start outside", 8, f, trip(W, 1, 4, 1, 5, WORK));
    f = DOCUMENT;
    f.neighbours_len--;
    refused("a neighbour too few", 8, f, a);
    f = DOCUMENT;
    f.corners_len--;
    refused("a turning point too few", 8, f, a);
    f = DOCUMENT;
    f.starts_len--;
    refused("a start too few", 8, f, a);

    refused("a start east of the floor", 9, DOCUMENT, trip(W, 1, 4, 1, 5, WORK));
    refused("a start south of the floor", 9, DOCUMENT, trip(0, H, 4, 1, 5, WORK));
    refused("a blocked start", 9, DOCUMENT, trip(2, 1, 4, 1, 5, WORK));
    refused("a goal far outside", 10, DOCUMENT, trip(0, 1, SIZE_MAX, SIZE_MAX, 5, WORK));
    refused("a start outside before a blocked goal", 9, DOCUMENT, trip(W, H, 2, 1, 5, 0));
    refused("a blocked goal before a work entry too few", 10, DOCUMENT, trip(0, 1, 2, 1, 5, WORK - 1));
}

/* P9 to P12: a bend, a corner that may not be cut and a wall. */
static void sums(void) {
    const uint64_t bend[] = {~UINT64_C(1), ~UINT64_C(3)}, cut[] = {~UINT64_C(1), ~UINT64_C(2)}, wall[] = {~UINT64_C(5)};
    const uint8_t around[] = {0, 0, 1, 0, 0, 0, 0, 0, 1, 1, 0, 0, 0, 0, 0, 1}, none[16] = {0};
    const uint16_t turn[] = {2}, starts[] = {0, 0}, route[] = {0, 2, 3}, nobody[] = {0};
    const site p9 = {2, 2, bend, 2, around, 16, turn, 1, starts, 2, nobody, 0};
    const site p11 = {2, 2, cut, 2, none, 16, nobody, 0, starts, 1, nobody, 0};
    const site p12 = {3, 1, wall, 1, none, 12, nobody, 0, starts, 1, nobody, 0};
    ask("P9 and P10", p9, trip(0, 0, 1, 1, 3, 18), answer(0, 2, 0, 3, 3), route, 18);
    ask("P11", p11, trip(0, 0, 1, 1, 3, 12), answer(12, 0, 0, 0, 1), NULL, 12);
    ask("P12", p12, trip(0, 0, 2, 0, 0, 13), answer(12, 0, 0, 0, 1), NULL, 12);
    refused("no walk, and a work entry too few", 11, p12, trip(0, 0, 2, 0, 0, 11));
}

int main(void) {
    listing();
    room();
    refusals();
    sums();
    printf("c query: %d numbers and lists as they should be\n", looked_at);
    return 0;
}
