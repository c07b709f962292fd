/* The calls of Kyrlamesh for C and C++: tiles, maps, lists, riding ranges and routes on a hexagonal grid.
 *
 * Every call returns on every input and touches no memory but the buffers that it is lent. A buffer is passed as a pointer and a count
 * of entries; it must have that many, two buffers that are lent to one call must not overlap, and a pointer must not be null, even
 * where the count is 0. A buffer that is only read is const.
 *
 * A call answers its result, which is never negative, or minus one of the refusal numbers below. Where several refusals apply the one
 * with the lowest number is given; only the conversions from a grid judge 3 first, then 4, then 1, and a route is judged by 8 before 7.
 * A refused call leaves every buffer as it was, but for two: a route that is refused by 7 or 8 has filled the ranks, and a check that
 * answers minus 9 has noted an index.
 *
 * docs/RULES.md has the rules in full. examples/run shows how the archive to link with is made.
 */
#ifndef KYRLAMESH_H
#define KYRLAMESH_H

#include <stddef.h>
#include <stdint.h>

#ifdef __cplusplus
extern "C" {
#endif

/* The refusal numbers. A call answers minus the number. */
enum {
    /* A coordinate that is converted, or of a centre, is not from -1,000,000 to 1,000,000; or the tile of a pair is beyond that. */
    KYRLA_BEYOND_LIMIT = 1,
    /* A range is above 1,000, or a radius above 60. */
    KYRLA_TOO_LARGE = 2,
    /* A direction or vertex is not 0 to 5, or a mode, orientation or sense is not 0 or 1. */
    KYRLA_UNKNOWN_NUMBER = 3,
    /* The column and the row of a doubled pair have an odd sum. */
    KYRLA_ODD_PAIR = 4,
    /* A tile, start, end, index, or row and column is not of the map. */
    KYRLA_NOT_OF_MAP = 5,
    /* A table has not one entry for each tile of the map. */
    KYRLA_WRONG_LENGTH = 6,
    /* A run has fewer entries than twice the tiles to be written. */
    KYRLA_RUN_TOO_SHORT = 7,
    /* No open path makes the route. */
    KYRLA_NO_OPEN_PATH = 8,
    /* A totals table is not right. */
    KYRLA_NOT_RIGHT = 9
};

/* The effort of a tile that nobody may enter. */
#define KYRLA_BARRED UINT16_C(65535)

/* The total of a tile that the range does not reach. */
#define KYRLA_NO_WAY UINT32_C(4294967295)

/* The rank of a tile from which no route leads. */
#define KYRLA_NO_RANK UINT64_C(18446744073709551615)

/* Numbers.
 *
 * A tile is a pair of axial coordinates. Directions 0 to 5 are the steps (1, 0), (1, -1), (0, -1), (-1, 0), (-1, 1), (0, 1). A map is a
 * centre (cx, cy) and a radius r: the tiles at most r away from the centre, 3r(r + 1) + 1 of them. Each of its tiles has a dense index,
 * from 0 on, by which tables are ordered.
 */

/* The distance of two tiles. Any coordinates may be asked about, and none is refused. */
int64_t kyrla_distance(int32_t ax, int32_t ay, int32_t bx, int32_t by);

/* The dense index of the tile (x, y). Refused by 1, 2 for the map, 5 for the tile. */
int64_t kyrla_index(int32_t cx, int32_t cy, uint32_t radius, int32_t x, int32_t y);

/* How many tiles a ring has: 1 at range 0, else 6 times the range. Never refused. */
uint64_t kyrla_ring_count(uint32_t range);

/* How many tiles the wedge of ranges 0 to n has: n(n + 3)/2 + 1. Never refused. */
uint64_t kyrla_wedge_count(uint32_t range);

/* Lists.
 *
 * Each call writes its tiles to `run`, x then y, from the first entry on, and answers the number of tiles; entries past the list are
 * left as they were. Sense 0 turns from one direction to the next higher one, sense 1 the other way. Ranges go from `first` to `last`,
 * both included; where first is above last the list is empty. Refused by 1 for the centre, 2 for a range, 3 for a direction, vertex or
 * sense, 7 for a run with fewer than twice as many entries as the list has tiles.
 */

/* The ring of a range, from the tile in `direction` on. */
int64_t kyrla_ring(int32_t cx, int32_t cy, uint32_t range, uint32_t direction, uint32_t sense, int32_t *run, size_t run_len);

/* The edge of a ring at a vertex, which lies between directions `vertex` and `vertex` + 1. */
int64_t kyrla_ring_edge(int32_t cx, int32_t cy, uint32_t range, uint32_t vertex, uint32_t sense, int32_t *run, size_t run_len);

/* The edges of the ranges at a vertex, one after the other. */
int64_t kyrla_wedge(int32_t cx, int32_t cy, uint32_t first, uint32_t last, uint32_t vertex, uint32_t sense, int32_t *run,
                    size_t run_len);

/* The corners of the ranges in a direction, one after the other: at range n the tile in that direction, n/2 tiles, rounded down, along
 * direction + 2 from it, and as many along direction + 4. */
int64_t kyrla_corner_wedge(int32_t cx, int32_t cy, uint32_t first, uint32_t last, uint32_t direction, int32_t *run, size_t run_len);

/* The rings of the ranges, one after the other, each from the tile in `direction` on. */
int64_t kyrla_spiral(int32_t cx, int32_t cy, uint32_t first, uint32_t last, uint32_t direction, uint32_t sense, int32_t *run,
                     size_t run_len);

/* Pairs.
 *
 * Each call writes two numbers to the first two entries of `run` and answers 1. Further entries are left as they were. A run of fewer
 * than two entries is refused by 7, after the refusals of the arguments.
 */

/* The tile of the map that has a dense index: x, y. Refused by 1, 2 for the map, 5 for the index, 7. */
int64_t kyrla_tile(int32_t cx, int32_t cy, uint32_t radius, uint32_t index, int32_t *run, size_t run_len);

/* The row and the column of the tile (x, y) in the map: row, column, both from 0 on. Refused by 1, 2 for the map, 5 for the tile, 7. */
int64_t kyrla_row_column(int32_t cx, int32_t cy, uint32_t radius, int32_t x, int32_t y, int32_t *run, size_t run_len);

/* The tile of the map that has a row and column: x, y. Refused by 1, 2 for the map, 5 for the row and column, 7. */
int64_t kyrla_tile_at(int32_t cx, int32_t cy, uint32_t radius, uint32_t row, uint32_t column, int32_t *run, size_t run_len);

/* The offset coordinates of the tile (x, y): column, row. Mode: even 0, odd 1. Orientation: flat 0, pointy 1. Refused by 1, 3, 7. */
int64_t kyrla_to_offset(int32_t x, int32_t y, uint32_t mode, uint32_t orientation, int32_t *run, size_t run_len);

/* The tile that has a pair of offset coordinates: x, y. Refused by 3, then 1, then 7. */
int64_t kyrla_from_offset(int32_t column, int32_t row, uint32_t mode, uint32_t orientation, int32_t *run, size_t run_len);

/* The doubled coordinates of the tile (x, y): column, row. Mode: doubled width 0, doubled height 1. Refused by 1, 3, 7. */
int64_t kyrla_to_doubled(int32_t x, int32_t y, uint32_t mode, int32_t *run, size_t run_len);

/* The tile that has a pair of doubled coordinates: x, y. Refused by 3, then 4, then 1, then 7. */
int64_t kyrla_from_doubled(int32_t column, int32_t row, uint32_t mode, int32_t *run, size_t run_len);

/* Ranges and routes.
 *
 * A table has one entry for each tile of the map, by dense index. `efforts` has the effort of each tile, KYRLA_BARRED for one that
 * nobody may enter. Each of these calls is refused by 1, 2 for the map, 5 for a start or end, 6 for a table of another length.
 */

/* The riding range from the start (sx, sy): writes to `totals`, for each tile, the least sum of effort + 1 over the tiles that a path
 * from the start enters, all of them open, or KYRLA_NO_WAY where no such sum is within the budget. The start has 0, whatever its
 * effort. Answers 0. */
int64_t kyrla_range(int32_t cx, int32_t cy, uint32_t radius, const uint16_t *efforts, size_t efforts_len, int32_t sx, int32_t sy,
                    uint32_t budget, uint32_t *totals, size_t totals_len);

/* Whether a totals table, whoever made it, is the one that kyrla_range writes. Answers 0 if it is; else minus 9, and the lowest index
 * at which a tile does not fit its neighbours is written to the first entry of `broken`, where that has one. Otherwise `broken` is left
 * as it was. */
int64_t kyrla_check(int32_t cx, int32_t cy, uint32_t radius, const uint16_t *efforts, size_t efforts_len, int32_t sx, int32_t sy,
                    uint32_t budget, const uint32_t *totals, size_t totals_len, uint32_t *broken, size_t broken_len);

/* The best route from (sx, sy) to (ex, ey) over open tiles, both ends among them: of least effort, the start's own not counted, then of
 * fewest steps, then the one whose direction numbers, compared from the front, are smallest. Writes its tiles to `run`, x then y, both
 * ends included, and answers their number; entries past them are left as they were. Writes to `ranks`, for each tile, the least effort
 * of its routes to the end times 65,536, and the fewest steps at that effort added to it, or KYRLA_NO_RANK. Refused also by 8 where no
 * route joins the two and by 7 where the run is too short: then `run` is left as it was, and `ranks` is written all the same. */
int64_t kyrla_route(int32_t cx, int32_t cy, uint32_t radius, const uint16_t *efforts, size_t efforts_len, int32_t sx, int32_t sy,
                    int32_t ex, int32_t ey, uint64_t *ranks, size_t ranks_len, int32_t *run, size_t run_len);

#ifdef __cplusplus
}
#endif

#endif
