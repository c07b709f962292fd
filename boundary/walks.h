/* The lists as the rules tell them: walks from tile to tile, and their lengths by formula. */
#ifndef BOUNDARY_WALKS_H
#define BOUNDARY_WALKS_H

#include <stdint.h>

/* What a call that lists is asked. A ring or an edge has one range, so first and last are the same. */
struct listing {
    int32_t cx, cy;
    uint32_t first, last;
    uint32_t turn;
    uint32_t sense;
};

/* What a list has at each range. */
enum figure { RING, EDGE, CORNER };

/* The refusal of the arguments: 1, 2, 3, or 0. */
int listing_refusal(const struct listing *asked);

/* How many tiles the list has, by the closed formulas. */
int64_t listing_count(enum figure figure, const struct listing *asked);

/* Writes the list, x then y, and answers one past its last entry. */
int32_t *listing_walk(enum figure figure, const struct listing *asked, int32_t *out);

#endif
