/* Lays out the observed reports, counts pairs and prints the table of observed, least and greatest.

   From the repository's folder, after `(cd crates/exports && rt lib)`:
     gcc -std=c99 -Iinclude examples/c/table.c crates/exports/out/libexports.a -o table && ./table */
#include <stdio.h>

#include "zanwethol.h"

#define LENGTH(list) (sizeof(list) / sizeof((list)[0]))

/* The network: for each leg its first node, second node and length. */
static const uint32_t firsts[] = {1, 2, 3, 3}, seconds[] = {2, 3, 1, 4}, lengths[] = {5, 4, 3, 6};
static const uint32_t nodes = 4;

/* The reports: set 0 is the observed one, sets 1 and 2 are there to compare with. */
static const uint32_t sets[] = {0, 0, 0, 0, 1, 1, 1, 1, 2, 2, 2, 2};
static const uint32_t legs[] = {1, 2, 4, 1, 1, 3, 4, 2, 4, 4, 4, 4};
static const uint32_t offsets[] = {1, 3, 2, 4, 0, 3, 6, 0, 3, 3, 3, 3};
static const uint32_t thresholds[] = {2, 3, 5, 7};

enum { SETS = 3, OBSERVED = 4, THRESHOLDS = LENGTH(thresholds) };

static int refused(uint32_t number, size_t place) {
    if (number != 0)
        fprintf(stderr, "refused: number %u at place %zu\n", (unsigned)number, place);
    return number != 0;
}

int main(void) {
    uint32_t number, counts[SETS * THRESHOLDS], laid_legs[OBSERVED], laid_offsets[OBSERVED];
    size_t place, i, s, k;

    for (i = 0; i < OBSERVED; i++) {
        laid_legs[i] = legs[i];
        laid_offsets[i] = offsets[i];
    }
    kc_lay_out(laid_legs, OBSERVED, laid_offsets, OBSERVED, &number, &place);
    if (refused(number, place))
        return 1;
    puts("leg,offset");
    for (i = 0; i < OBSERVED; i++)
        printf("%u,%u\n", (unsigned)laid_legs[i], (unsigned)laid_offsets[i]);

    kc_range_counts(nodes, firsts, LENGTH(firsts), seconds, LENGTH(seconds), lengths, LENGTH(lengths), sets,
                    LENGTH(sets), legs, LENGTH(legs), offsets, LENGTH(offsets), thresholds, THRESHOLDS, counts,
                    LENGTH(counts), &number, &place);
    if (refused(number, place))
        return 1;
    puts("threshold,observed,least,greatest");
    for (k = 0; k < THRESHOLDS; k++) {
        uint32_t least = counts[THRESHOLDS + k], greatest = least;
        for (s = 2; s < SETS; s++) {
            uint32_t count = counts[s * THRESHOLDS + k];
            least = count < least ? count : least;
            greatest = count > greatest ? count : greatest;
        }
        printf("%u,%u,%u,%u\n", (unsigned)thresholds[k], (unsigned)counts[k], (unsigned)least, (unsigned)greatest);
    }
    return 0;
}
