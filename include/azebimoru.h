/* Azebimoru: walking lengths on warehouse floors, proved to be the shortest. Link with libazebimoru.a.

   The floor
     A floor has w columns and h rows, each 1 to 255, and at most 16384 cells. Cell (x, y) has the number y * w + x; y grows to the
     south. It is lent as h rows of (w + 63) / 64 words each, row after row. Cell x of a row is bit x % 64 of the row's word x / 64,
     bit 0 being worth 1. A bit of 1 is blocked, and the unused high bits of a row's last word must be 1. What lies outside is blocked.

   Steps and lengths
     A straight step (north, east, south, west) goes to a free cell. A diagonal step needs its target free and also both straight
     neighbours that it passes between. A length of a straight and b diagonal steps is worth a + b * sqrt(2).

   The plan
     A survey makes a floor's plan, four lists. Turning points are free cells round which a shortest walk may bend. With K of them and
     M arcs (twice the links between them):
       clearances   4 * w * h bytes   for each cell by its number, steps to the N, E, S and W until a turning point or no further step
       corners      K entries         the turning points' numbers, ascending; K is at most 2048
       starts       K + 1 entries     the neighbours of corners[k] stand at starts[k] up to but not including starts[k + 1]
       neighbours   M entries         the numbers of linked turning points, ascending for each; M is at most 32768

   The query
     A query finds a shortest walk from a start to a goal, both free cells, over the floor's plan. Where the direct line (all diagonal
     steps first, then the straight ones) is legal, it is the route. Otherwise places (the start, the turning points and the goal) are
     settled, nearest to the start first and of equally near ones the smaller number first, until the goal is settled. The route is then
     a chain of direct lines, found back from the goal: of all places that can come before one, the one with the least number.

   Lists
     Every list is lent as a pointer and its number of entries, and stays the caller's. No call keeps a pointer, allocates or prints.
     A query needs less than 80 kB of stack, the other calls less than 1 kB.
     A list that a call writes must not overlap another list of that call, and each must be aligned for its type. Every pointer must be
     valid for its entries; for none, any aligned pointer but NULL.

   Codes
     A survey and a query give 0 when done, and otherwise the first of their numbers, in rising order, that applies:
        1  both    w or h is 0, or w, h or w * h is above its limit
        2  both    the floor's words are not exactly as many as its rows need
        3  both    an unused bit is 0
        4  survey  fewer than 4 * w * h clearance bytes lent
        5  survey  more turning points than entries lent for them, or than 2048
        6  survey  fewer than K + 1 starts lent
        7  survey  more arcs than entries lent for neighbours, or than 32768
        8  query   the four lists, their lengths included, are not exactly the plan of this floor, or its plan is above the limits
        9  query   the start is outside or blocked
       10  query   the goal is outside or blocked
       11  query   fewer than 6 * (K + 2) work entries lent
       12  query   no legal walk leads from the start to the goal
       13  query   the route has more cells than entries lent for it
     A call does what it says for every input; there is no other failure. */
#ifndef AZEBIMORU_H
#define AZEBIMORU_H

#include <stdbool.h>
#include <stddef.h>
#include <stdint.h>

#ifdef __cplusplus
extern "C" {
#endif

/* The most that any floor needs of each list. */
enum {
    AZEBIMORU_MOST_CELLS = 16384,      /* cells */
    AZEBIMORU_MOST_WORDS = 504,        /* words, when 252 rows have 65 cells */
    AZEBIMORU_MOST_CLEARANCES = 65536, /* clearances */
    AZEBIMORU_MOST_CORNERS = 2048,     /* corners */
    AZEBIMORU_MOST_STARTS = 2049,      /* starts */
    AZEBIMORU_MOST_ARCS = 32768,       /* neighbours */
    AZEBIMORU_MOST_ROUTE = 16384,      /* route */
    AZEBIMORU_MOST_WORK = 12300        /* work, 6 * (2048 + 2) */
};

/* What a survey returns. After a refusal all but the code are 0. */
typedef struct {
    uint32_t code;    /* 0, or 1 to 7 */
    uint32_t free;    /* free cells */
    uint32_t corners; /* K, the entries that the plan has in corners; in starts it has one more */
    uint32_t arcs;    /* M, the entries that the plan has in neighbours */
} azebimoru_surveyed;

/* What a query returns. After 1 to 11 all but the code are 0, and after 12 all but the code and the effort. */
typedef struct {
    uint32_t code;     /* 0, 1 to 3, or 8 to 13 */
    uint32_t straight; /* straight steps of the shortest walks */
    uint32_t diagonal; /* diagonal steps of the shortest walks; no two shortest walks differ in these two numbers */
    uint32_t cells;    /* cells of the route, start and goal included: one more than its steps, at most 16384 */
    uint32_t effort;   /* places settled, start and goal included: 0 where the direct line is legal; after 12 all that can be reached */
} azebimoru_answer;

/* Compares two lengths exactly. Returns -1, 0 or 1, as the length (a, b) is less than (c, d), the same or more. Every four counts are
   taken; none is refused. Two lengths are the same only if both of their counts are. */
int32_t azebimoru_compare(uint16_t a, uint16_t b, uint16_t c, uint16_t d);

/* Makes the plan of a floor. Room for any floor: AZEBIMORU_MOST_CLEARANCES, _CORNERS, _STARTS and _ARCS entries.
   After 0 the first entries of each list are the plan and the entries beyond it are unchanged: hand on 4 * w * h clearances, K corners,
   K + 1 starts and M neighbours. Codes 1 to 6 change no list. Code 7 sets every entry of all four lists to 0. The words are only read. */
azebimoru_surveyed azebimoru_survey(size_t w, size_t h, const uint64_t *words, size_t words_len,
                                    uint8_t *clearances, size_t clearances_len,
                                    uint16_t *corners, size_t corners_len,
                                    uint16_t *starts, size_t starts_len,
                                    uint16_t *neighbours, size_t neighbours_len);

/* Whether the four lists, their lengths included, are exactly the plan of this floor. False also for a floor that is refused by 1, 2
   or 3, or whose plan is above the limits. Everything is only read. */
bool azebimoru_matches(size_t w, size_t h, const uint64_t *words, size_t words_len,
                       const uint8_t *clearances, size_t clearances_len,
                       const uint16_t *corners, size_t corners_len,
                       const uint16_t *starts, size_t starts_len,
                       const uint16_t *neighbours, size_t neighbours_len);

/* Finds a shortest walk from cell (sx, sy) to cell (gx, gy). The four lists must be exactly the plan that a survey of this floor made:
   4 * w * h clearances, K corners, K + 1 starts and M neighbours, no entry more. Room for any query: AZEBIMORU_MOST_ROUTE route cells
   and AZEBIMORU_MOST_WORK work entries; what the work entries hold before the call is of no account.
   After 0 the first `cells` entries of the route are the numbers of its cells from start to goal, both included, and the entries beyond
   them are unchanged. After any other code the whole route list is unchanged. Code 13 returns all five numbers as if there had been
   room, so the same query with `cells` entries gives 0. Start equal to goal is a route of that one cell, with no step and no effort.
   After 0, 12 and 13 the first 6 * (K + 2) work entries are 0 and the entries beyond them are unchanged. Codes 1 to 11 change nothing.
   The words and the plan are only read. */
azebimoru_answer azebimoru_query(size_t w, size_t h, const uint64_t *words, size_t words_len,
                                 const uint8_t *clearances, size_t clearances_len,
                                 const uint16_t *corners, size_t corners_len,
                                 const uint16_t *starts, size_t starts_len,
                                 const uint16_t *neighbours, size_t neighbours_len,
                                 size_t sx, size_t sy, size_t gx, size_t gy,
                                 uint16_t *route, size_t route_len,
                                 uint32_t *work, size_t work_len);

#ifdef __cplusplus
}
#endif

#endif
