/* Makes the unit of Fig. 1 of the paper, asks for its collision vector and its best cycle, tries the cycle out on an issue controller, and
 * prints the listing. */
#include <stdio.h>

#include "limedarts.h"

static const unsigned char marks[][2] = {{1, 1}, {1, 9}, {2, 2}, {2, 3}, {2, 8}, {3, 4}, {4, 5}, {4, 6}, {5, 7}, {5, 8}};

static uint32_t work[LIMEDARTS_WORK];

/* Starts the function at the intervals of the cycle, and answers how many of the starts were granted. */
static uint32_t play_cycle(const uint8_t *file, uint32_t length, const uint8_t *cycle, uint32_t count, uint32_t starts) {
    uint32_t bank[LIMEDARTS_BANK] = {0, 0, 0, 0};
    uint32_t granted = 0;
    for (uint32_t start = 0; start < starts; start++) {
        if (limedarts_start(file, length, bank, LIMEDARTS_BANK, 1) == 0) granted++;
        /* the start took one time unit of the interval */
        for (uint32_t unit = 1; unit < cycle[start % count]; unit++) limedarts_tick(file, length, bank, LIMEDARTS_BANK);
    }
    return granted;
}

int main(void) {
    uint8_t file[LIMEDARTS_FILE];
    uint8_t cycle[LIMEDARTS_CYCLE];
    uint8_t text[LIMEDARTS_AREA];
    uint32_t length = 0, vector = 0, count = 0, sum = 0, size = 0;

    if (limedarts_fresh(1, 5, 9, file, sizeof file, &length) != 0) return 1;
    for (size_t i = 0; i < sizeof marks / sizeof marks[0]; i++) {
        if (limedarts_mark(file, length, 1, marks[i][0], marks[i][1]) != 0) return 1;
    }
    printf("a mark in segment 6 is refused by %u\n", (unsigned)limedarts_mark(file, length, 1, 6, 1));

    if (limedarts_vector(file, length, 1, &vector) != 0) return 1;
    printf("collision vector %#x\n", (unsigned)vector);

    if (limedarts_search(file, length, 1, work, LIMEDARTS_WORK, cycle, sizeof cycle, &count, &sum) != 0) return 1;
    printf("best cycle");
    for (uint32_t i = 0; i < count; i++) printf(" %u", (unsigned)cycle[i]);
    printf(", average %u/%u\n", (unsigned)sum, (unsigned)count);
    printf("%u of 100 starts granted\n", (unsigned)play_cycle(file, length, cycle, count, 100));

    if (limedarts_listing(file, length, text, sizeof text, &size) != 0) return 1;
    fwrite(text, 1, size, stdout);
    return 0;
}
