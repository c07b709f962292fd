/* A map with tables over it as the rules tell them: totals, the check of totals, ranks and routes, by the plainest means. */
#ifndef BOUNDARY_SHEET_H
#define BOUNDARY_SHEET_H

#include <stddef.h>
#include <stdint.h>

enum { LARGEST_AREA = 10981 };

/* The tiles of a map by dense index, relative to the centre, and the indices of their neighbours by direction, -1 where there is none. */
struct sheet {
    uint32_t radius;
    uint32_t area;
    int32_t tiles[LARGEST_AREA][2];
    int32_t neighbors[LARGEST_AREA][6];
};

/* What a call over a map is asked, beside its tables. */
struct ride {
    int32_t cx, cy;
    uint32_t radius;
    int32_t sx, sy;
    int32_t ex, ey;
    uint32_t budget;
};

void sheet_make(struct sheet *sheet, uint32_t radius);

/* Efforts by kind of land: 0 all open and free, 1 gentle, 2 steep with a third barred, 3 as large as efforts may be. */
enum { LANDS = 4 };
void sheet_efforts(const struct sheet *sheet, uint32_t land, uint16_t *efforts);

/* The refusal of the map and the start: 1, 2, 5, or 0; and of the map, the start and the end. */
int ride_refusal(const struct ride *ride);
int route_refusal(const struct ride *ride);

/* The dense indices of the start and of the end, which are of the map. */
uint32_t start_of(const struct ride *ride);
uint32_t end_of(const struct ride *ride);

/* The tables of a ride that is not refused. */
void sheet_totals(const struct sheet *sheet, const uint16_t *efforts, const struct ride *ride, uint32_t *totals);
void sheet_ranks(const struct sheet *sheet, const uint16_t *efforts, const struct ride *ride, uint64_t *ranks);

/* The lowest index at which the neighbour rule is broken, or -1. */
int64_t sheet_broken(const struct sheet *sheet, const uint16_t *efforts, const struct ride *ride, const uint32_t *totals);

/* The best route by the ranks, which is there: writes its tiles, x then y, and answers their number. */
size_t sheet_route(const struct sheet *sheet, const uint16_t *efforts, const struct ride *ride, const uint64_t *ranks, int32_t *run);

#endif
