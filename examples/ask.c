/* Asks the library for walks over a floor that is drawn below. Once the library is built (tools/build library):

     cc -Iinclude examples/ask.c target/staticlib/libazebimoru.a -o ask && ./ask */
#include <stdio.h>
#include <string.h>

#include "azebimoru.h"

enum { W = 24, H = 9, ROW_WORDS = (W + 63) / 64, WORDS = H * ROW_WORDS };

/* Shelves on both sides of a fire wall, which is open at the south end; and a store without a door in the north-east. */
static const char *const drawing[H] = {
    "..........##........#...",
    ".####.###.##.###.##.#...",
    "..........##........####",
    "..........##............",
    ".####.###.##.####.####..",
    "..........##............",
    "..........##............",
    ".####.###....####.####..",
    "........................",
};

/* The floor, its plan with room for any floor's, and what a query writes. */
static uint64_t words[WORDS];
static uint8_t clearances[AZEBIMORU_MOST_CLEARANCES];
static uint16_t corners[AZEBIMORU_MOST_CORNERS];
static uint16_t starts[AZEBIMORU_MOST_STARTS];
static uint16_t neighbours[AZEBIMORU_MOST_ARCS];
static uint16_t route[AZEBIMORU_MOST_ROUTE];
static uint32_t work[AZEBIMORU_MOST_WORK];

/* Every bit begins as blocked, so the unused ones are 1 as they must be. */
static void lay_floor(void) {
    memset(words, 0xff, sizeof words);
    for (size_t y = 0; y < H; y++) {
        for (size_t x = 0; x < W; x++) {
            if (drawing[y][x] == '.') {
                words[y * ROW_WORDS + x / 64] &= ~((uint64_t)1 << (x % 64));
            }
        }
    }
}

static const char *meaning(uint32_t code) {
    switch (code) {
    case 9: return "the start is outside or blocked";
    case 10: return "the goal is outside or blocked";
    case 12: return "no walk leads there";
    default: return "refused";
    }
}

/* The floor with the cells of the route on it. */
static void draw_route(uint32_t cells) {
    char canvas[H][W + 1];
    for (size_t y = 0; y < H; y++) {
        memcpy(canvas[y], drawing[y], W + 1);
    }
    for (uint32_t i = 0; i < cells; i++) {
        canvas[route[i] / W][route[i] % W] = i == 0 ? 'S' : i + 1 == cells ? 'G' : 'o';
    }
    for (size_t y = 0; y < H; y++) {
        printf("    %s\n", canvas[y]);
    }
}

/* Asks for one walk and prints what is answered. A query takes the plan exactly as long as it is. */
static azebimoru_answer ask(azebimoru_surveyed plan, size_t sx, size_t sy, size_t gx, size_t gy) {
    azebimoru_answer a = azebimoru_query(W, H, words, WORDS, clearances, 4 * W * H, corners, plan.corners,
                                         starts, plan.corners + 1, neighbours, plan.arcs, sx, sy, gx, gy,
                                         route, AZEBIMORU_MOST_ROUTE, work, AZEBIMORU_MOST_WORK);
    printf("\nfrom (%u, %u) to (%u, %u): ", (unsigned)sx, (unsigned)sy, (unsigned)gx, (unsigned)gy);
    if (a.code == 0) {
        printf("%u straight and %u diagonal steps, effort %u\n", (unsigned)a.straight, (unsigned)a.diagonal,
               (unsigned)a.effort);
        draw_route(a.cells);
    } else {
        printf("%s (code %u, effort %u)\n", meaning(a.code), (unsigned)a.code, (unsigned)a.effort);
    }
    return a;
}

int main(void) {
    lay_floor();
    azebimoru_surveyed plan = azebimoru_survey(W, H, words, WORDS, clearances, AZEBIMORU_MOST_CLEARANCES,
                                               corners, AZEBIMORU_MOST_CORNERS, starts, AZEBIMORU_MOST_STARTS,
                                               neighbours, AZEBIMORU_MOST_ARCS);
    if (plan.code != 0) {
        printf("survey refused %u\n", (unsigned)plan.code);
        return 1;
    }
    printf("%d x %d cells, %u free, %u turning points, %u links\n", W, H, (unsigned)plan.free,
           (unsigned)plan.corners, (unsigned)plan.arcs / 2);

    /* Two shelves to go to: the one behind the fire wall is nearer on the map only. */
    azebimoru_answer behind = ask(plan, 9, 3, 12, 3);
    azebimoru_answer this_side = ask(plan, 9, 3, 5, 6);
    int32_t order = azebimoru_compare((uint16_t)this_side.straight, (uint16_t)this_side.diagonal,
                                      (uint16_t)behind.straight, (uint16_t)behind.diagonal);
    printf("\nthe second walk is %s\n", order < 0 ? "shorter" : order > 0 ? "longer" : "as long");

    ask(plan, 13, 3, 22, 6); /* round the shelves of the other side */
    ask(plan, 12, 3, 19, 2); /* a clear line: nothing is searched */
    ask(plan, 13, 3, 22, 1); /* into the store */
    ask(plan, 0, 0, 10, 0);  /* into the fire wall */
    return 0;
}
