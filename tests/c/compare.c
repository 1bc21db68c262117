/* The header compiles as C, and document 01's sums P1 to P3 hold through it. */
#include <stdio.h>

#include "azebimoru.h"

static int failed = 0;

static void expect(const char *what, int32_t got, int32_t wanted) {
    if (got != wanted) {
        printf("%s: %d, wanted %d\n", what, (int)got, (int)wanted);
        failed = 1;
    }
}

int main(void) {
    expect("P1", azebimoru_compare(7, 0, 0, 5), -1);
    expect("P2", azebimoru_compare(17, 0, 0, 12), 1);
    expect("P3", azebimoru_compare(239, 0, 0, 169), -1);
    expect("the same pair", azebimoru_compare(65535, 65535, 65535, 65535), 0);
    expect("the largest against the least", azebimoru_compare(65535, 65535, 0, 0), 1);
    if (!failed) {
        printf("c compare: 5 answers as they should be\n");
    }
    return failed;
}
