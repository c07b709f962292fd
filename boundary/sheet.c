/* A map with tables over it as the rules tell them: see sheet.h. */
#include "sheet.h"

#include "kyrlamesh.h"

#include "rules.h"

static int32_t neighbor_of(int32_t radius, int32_t x, int32_t y, int direction)
{
    int32_t to_x = x + STEPS[direction][0];
    int32_t to_y = y + STEPS[direction][1];
    return distance_of(0, 0, to_x, to_y) <= radius ? (int32_t)index_of(radius, to_x, to_y) : -1;
}

static void make_tile(struct sheet *sheet, int32_t x, int32_t y)
{
    int32_t radius = (int32_t)sheet->radius;
    int64_t index = index_of(radius, x, y);
    sheet->tiles[index][0] = x;
    sheet->tiles[index][1] = y;
    for (int direction = 0; direction < 6; direction++) {
        sheet->neighbors[index][direction] = neighbor_of(radius, x, y, direction);
    }
}

void sheet_make(struct sheet *sheet, uint32_t radius)
{
    int32_t far = (int32_t)radius;
    sheet->radius = radius;
    sheet->area = (uint32_t)area_of(radius);
    for (int32_t x = -far; x <= far; x++) {
        for (int32_t y = -far; y <= far; y++) {
            if (distance_of(0, 0, x, y) <= far) {
                make_tile(sheet, x, y);
            }
        }
    }
}

void sheet_efforts(const struct sheet *sheet, uint32_t land, uint16_t *efforts)
{
    uint32_t state = 12345 + land;
    for (uint32_t index = 0; index < sheet->area; index++) {
        state = state * 1664525u + 1013904223u;
        uint32_t drawn = state >> 16;
        switch (land) {
        case 0:
            efforts[index] = 0;
            break;
        case 1:
            efforts[index] = (uint16_t)(drawn % 4);
            break;
        case 2:
            efforts[index] = drawn % 3 == 0 ? KYRLA_BARRED : (uint16_t)(drawn % 1000);
            break;
        default:
            efforts[index] = KYRLA_BARRED - 1;
        }
    }
}

static int of_map(const struct ride *ride, int32_t x, int32_t y)
{
    return distance_of(ride->cx, ride->cy, x, y) <= ride->radius;
}

int ride_refusal(const struct ride *ride)
{
    int refusal = map_refusal(ride->cx, ride->cy, ride->radius);
    return refusal != 0 ? refusal : of_map(ride, ride->sx, ride->sy) ? 0 : KYRLA_NOT_OF_MAP;
}

int route_refusal(const struct ride *ride)
{
    int refusal = ride_refusal(ride);
    return refusal != 0 ? refusal : of_map(ride, ride->ex, ride->ey) ? 0 : KYRLA_NOT_OF_MAP;
}

uint32_t start_of(const struct ride *ride)
{
    return (uint32_t)index_of(ride->radius, (int64_t)ride->sx - ride->cx, (int64_t)ride->sy - ride->cy);
}

uint32_t end_of(const struct ride *ride)
{
    return (uint32_t)index_of(ride->radius, (int64_t)ride->ex - ride->cx, (int64_t)ride->ey - ride->cy);
}

/* What the neighbour rule wants of a tile, given the table. */
static uint32_t wanted(const struct sheet *sheet, const uint16_t *efforts, const struct ride *ride, const uint32_t *totals, uint32_t tile)
{
    if (tile == start_of(ride)) {
        return 0;
    }
    uint64_t least = KYRLA_NO_WAY;
    for (int direction = 0; direction < 6; direction++) {
        int32_t next = sheet->neighbors[tile][direction];
        if (next >= 0 && totals[next] < least) {
            least = totals[next];
        }
    }
    uint64_t sum = least + efforts[tile] + 1;
    return efforts[tile] == KYRLA_BARRED || least == KYRLA_NO_WAY || sum > ride->budget ? KYRLA_NO_WAY : (uint32_t)sum;
}

/* Passes over the map, to and fro, until no total falls. */
void sheet_totals(const struct sheet *sheet, const uint16_t *efforts, const struct ride *ride, uint32_t *totals)
{
    for (uint32_t tile = 0; tile < sheet->area; tile++) {
        totals[tile] = KYRLA_NO_WAY;
    }
    int moved = 1;
    for (int pass = 0; moved; pass++) {
        moved = 0;
        for (uint32_t at = 0; at < sheet->area; at++) {
            uint32_t tile = pass % 2 == 0 ? at : sheet->area - 1 - at;
            uint32_t want = wanted(sheet, efforts, ride, totals, tile);
            if (want < totals[tile]) {
                totals[tile] = want;
                moved = 1;
            }
        }
    }
}

int64_t sheet_broken(const struct sheet *sheet, const uint16_t *efforts, const struct ride *ride, const uint32_t *totals)
{
    for (uint32_t tile = 0; tile < sheet->area; tile++) {
        if (totals[tile] != wanted(sheet, efforts, ride, totals, tile)) {
            return tile;
        }
    }
    return -1;
}

/* The rank that a tile has by going in a direction first, given the table. */
static uint64_t rank_by(const struct sheet *sheet, const uint16_t *efforts, const uint64_t *ranks, uint32_t tile, int direction)
{
    int32_t next = sheet->neighbors[tile][direction];
    if (efforts[tile] == KYRLA_BARRED || next < 0 || ranks[next] == KYRLA_NO_RANK) {
        return KYRLA_NO_RANK;
    }
    return ranks[next] + UINT64_C(65536) * efforts[next] + 1;
}

static int lower_rank(const struct sheet *sheet, const uint16_t *efforts, uint64_t *ranks, uint32_t tile)
{
    int moved = 0;
    for (int direction = 0; direction < 6; direction++) {
        uint64_t rank = rank_by(sheet, efforts, ranks, tile, direction);
        if (rank < ranks[tile]) {
            ranks[tile] = rank;
            moved = 1;
        }
    }
    return moved;
}

void sheet_ranks(const struct sheet *sheet, const uint16_t *efforts, const struct ride *ride, uint64_t *ranks)
{
    for (uint32_t tile = 0; tile < sheet->area; tile++) {
        ranks[tile] = KYRLA_NO_RANK;
    }
    if (efforts[end_of(ride)] != KYRLA_BARRED) {
        ranks[end_of(ride)] = 0;
    }
    int moved = 1;
    for (int pass = 0; moved; pass++) {
        moved = 0;
        for (uint32_t at = 0; at < sheet->area; at++) {
            moved |= lower_rank(sheet, efforts, ranks, pass % 2 == 0 ? at : sheet->area - 1 - at);
        }
    }
}

/* From each tile the lowest direction that the rank allows, so that the list of directions is the smallest. */
size_t sheet_route(const struct sheet *sheet, const uint16_t *efforts, const struct ride *ride, const uint64_t *ranks, int32_t *run)
{
    uint32_t tile = start_of(ride);
    size_t tiles = 0;
    for (;;) {
        run[2 * tiles] = ride->cx + sheet->tiles[tile][0];
        run[2 * tiles + 1] = ride->cy + sheet->tiles[tile][1];
        tiles++;
        if (tile == end_of(ride)) {
            return tiles;
        }
        int direction = 0;
        while (rank_by(sheet, efforts, ranks, tile, direction) != ranks[tile]) {
            direction++;
        }
        tile = (uint32_t)sheet->neighbors[tile][direction];
    }
}
