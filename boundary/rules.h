/* The rules that several parts of this program need, in plain 64-bit numbers: docs/RULES.md, and nothing of the library. */
#ifndef BOUNDARY_RULES_H
#define BOUNDARY_RULES_H

#include <stdint.h>

/* The six steps by direction. */
extern const int32_t STEPS[6][2];

/* Whether both coordinates are within the limit. */
int within_limit(int64_t x, int64_t y);

int64_t distance_of(int64_t ax, int64_t ay, int64_t bx, int64_t by);

/* How many tiles a map has. */
int64_t area_of(int64_t radius);

/* The refusal of a map: 1, 2, or 0. */
int map_refusal(int64_t cx, int64_t cy, int64_t radius);

/* The dense index, the row and the column of a tile of a map, by its coordinates relative to the centre. */
int64_t index_of(int64_t radius, int64_t x, int64_t y);
int64_t row_of(int64_t radius, int64_t y);
int64_t column_of(int64_t radius, int64_t x, int64_t y);

#endif
