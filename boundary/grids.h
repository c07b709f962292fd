/* The pairs as the rules tell them, for maps and for grids. */
#ifndef BOUNDARY_GRIDS_H
#define BOUNDARY_GRIDS_H

#include <stdint.h>

/* What a call that answers a pair is asked. A map call has its centre in a and b and its radius in n, then an index in m, a row in m and
 * a column in k, or a tile in c and d. A grid call has a tile, or a column and a row, in a and b, then a mode in n and an orientation
 * in m. */
struct pair_asked {
    int32_t a, b;
    uint32_t n, m, k;
    int32_t c, d;
};

/* A refusal, or 0 and the two numbers in the order in which they are written. */
struct pair {
    int refusal;
    int64_t first, second;
};

struct pair tile_of_index(const struct pair_asked *asked);
struct pair row_column_of_tile(const struct pair_asked *asked);
struct pair tile_of_row_column(const struct pair_asked *asked);
struct pair offset_of_tile(const struct pair_asked *asked);
struct pair tile_of_offset(const struct pair_asked *asked);
struct pair doubled_of_tile(const struct pair_asked *asked);
struct pair tile_of_doubled(const struct pair_asked *asked);

#endif
