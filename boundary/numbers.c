/* The calls that are lent nothing, at the limits and at the ends of 32 bits. */
#include "kyrlamesh.h"

#include "extremes.h"
#include "parts.h"
#include "rules.h"
#include "tally.h"

static void ask_distance(int32_t ax, int32_t ay)
{
    EACH(int32_t, bx, COORDINATES) EACH(int32_t, by, COORDINATES) {
        TALLY_ASKED(ax, ay, *bx, *by);
        tally_judged(kyrla_distance(ax, ay, *bx, *by) == distance_of(ax, ay, *bx, *by));
    }
}

static void ask_index(int32_t cx, int32_t cy, uint32_t radius, int32_t x, int32_t y)
{
    int64_t expected = -map_refusal(cx, cy, radius);
    if (expected == 0) {
        int of_map = distance_of(cx, cy, x, y) <= radius;
        expected = of_map ? index_of(radius, (int64_t)x - cx, (int64_t)y - cy) : -KYRLA_NOT_OF_MAP;
    }
    TALLY_ASKED(cx, cy, radius, x, y);
    tally_judged(kyrla_index(cx, cy, radius, x, y) == expected);
}

/* Every tile of a map, and those one and two steps outside. */
static void ask_indices(int32_t cx, int32_t cy, uint32_t radius)
{
    int32_t far = (int32_t)radius + 2;
    for (int32_t x = -far; x <= far; x++) {
        for (int32_t y = -far; y <= far; y++) {
            ask_index(cx, cy, radius, cx + x, cy + y);
        }
    }
}

static void ask_ring_count(uint32_t range)
{
    uint64_t n = range;
    TALLY_ASKED(range);
    tally_judged(kyrla_ring_count(range) == (n == 0 ? 1 : 6 * n));
}

/* One of n and n + 3 is even, so the half is exact, and the product is below 2 to the 64th for every range. */
static void ask_wedge_count(uint32_t range)
{
    uint64_t n = range;
    TALLY_ASKED(range);
    tally_judged(kyrla_wedge_count(range) == (n % 2 == 0 ? n / 2 * (n + 3) : (n + 3) / 2 * n) + 1);
}

/* The count of wedges passes 32 bits beyond 65,535. */
static void ask_both_ends(void (*ask)(uint32_t))
{
    for (uint32_t range = 0; range <= 70000; range++) {
        ask(range);
        ask(UINT32_MAX - range);
    }
}

void ask_numbers(void)
{
    tally_begin("kyrla_distance");
    EACH(int32_t, ax, COORDINATES) EACH(int32_t, ay, COORDINATES) {
        ask_distance(*ax, *ay);
    }
    tally_begin("kyrla_index");
    EACH(int32_t, cx, COORDINATES) EACH(int32_t, cy, COORDINATES) EACH(uint32_t, radius, RADII) {
        EACH(int32_t, x, COORDINATES) EACH(int32_t, y, COORDINATES) {
            ask_index(*cx, *cy, *radius, *x, *y);
        }
    }
    for (uint32_t radius = 0; radius <= LARGEST_RADIUS; radius++) {
        ask_indices(LIMIT, -LIMIT, radius);
    }
    tally_begin("kyrla_ring_count");
    ask_both_ends(ask_ring_count);
    tally_begin("kyrla_wedge_count");
    ask_both_ends(ask_wedge_count);
}
