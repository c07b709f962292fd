/* A ride on a small map: computes the riding range, checks it, prints its totals, a row of the map to a line, and prints the best route
 * round the barred tile. */
#include <inttypes.h>
#include <stdio.h>

#include "kyrlamesh.h"

/* A map round the centre (CX, CY) has 3r(r + 1) + 1 tiles. */
enum { CX = 100, CY = -40, RADIUS = 2, TILES = 3 * RADIUS * (RADIUS + 1) + 1, BUDGET = 9 };

/* An effort for each tile, by dense index: a slope that rises from the centre, and a barred tile east of it. */
static int lay_efforts(uint16_t *efforts)
{
    for (uint32_t index = 0; index < TILES; index++) {
        int32_t tile[2];
        if (kyrla_tile(CX, CY, RADIUS, index, tile, 2) != 1) {
            return 0;
        }
        efforts[index] = (uint16_t)(2 * kyrla_distance(CX, CY, tile[0], tile[1]));
    }
    int64_t east = kyrla_index(CX, CY, RADIUS, CX + 1, CY);
    if (east < 0) {
        return 0;
    }
    efforts[east] = KYRLA_BARRED;
    return 1;
}

/* One tile of the map, as its total: a dot where the range does not reach. */
static void print_total(uint32_t total)
{
    if (total == KYRLA_NO_WAY) {
        printf("     .");
    } else {
        printf("%6" PRIu32, total);
    }
}

/* The totals by row. A pair of row and column that is not of the map is refused, which ends the row. */
static void print_totals(const uint32_t *totals)
{
    for (uint32_t row = 0; row <= 2 * RADIUS; row++) {
        int32_t tile[2];
        for (uint32_t column = 0; kyrla_tile_at(CX, CY, RADIUS, row, column, tile, 2) == 1; column++) {
            print_total(totals[kyrla_index(CX, CY, RADIUS, tile[0], tile[1])]);
        }
        printf("\n");
    }
}

/* The best route from the centre to the tile two steps east of it, as pairs of coordinates. */
static int print_route(const uint16_t *efforts)
{
    static uint64_t ranks[TILES];
    int32_t run[2 * TILES];
    int64_t tiles = kyrla_route(CX, CY, RADIUS, efforts, TILES, CX, CY, CX + 2, CY, ranks, TILES, run, 2 * TILES);
    printf("route: %" PRId64 "\n", tiles);
    if (tiles < 0) {
        return 0;
    }
    for (int64_t at = 0; at < tiles; at++) {
        printf("%" PRId32 " %" PRId32 "\n", run[2 * at], run[2 * at + 1]);
    }
    return 1;
}

/* The check refuses the table as soon as one of its totals is wrong, and tells where. */
static int refuses_a_change(const uint16_t *efforts, uint32_t *totals)
{
    uint32_t broken[1];
    totals[3] += 1;
    int64_t verdict = kyrla_check(CX, CY, RADIUS, efforts, TILES, CX, CY, BUDGET, totals, TILES, broken, 1);
    printf("check with one total changed: %" PRId64 ", lowest broken index %" PRIu32 "\n", verdict, broken[0]);
    return verdict == -KYRLA_NOT_RIGHT;
}

int main(void)
{
    uint16_t efforts[TILES];
    uint32_t totals[TILES];
    uint32_t broken[1];
    if (!lay_efforts(efforts)) {
        return 1;
    }
    int64_t ranged = kyrla_range(CX, CY, RADIUS, efforts, TILES, CX, CY, BUDGET, totals, TILES);
    printf("range: %" PRId64 "\n", ranged);
    if (ranged != 0) {
        return 1;
    }
    print_totals(totals);
    int64_t right = kyrla_check(CX, CY, RADIUS, efforts, TILES, CX, CY, BUDGET, totals, TILES, broken, 1);
    printf("check: %" PRId64 "\n", right);
    return right == 0 && refuses_a_change(efforts, totals) && print_route(efforts) ? 0 : 1;
}
