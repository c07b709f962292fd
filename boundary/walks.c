/* The lists as the rules tell them: see walks.h. */
#include "walks.h"

#include "extremes.h"
#include "rules.h"

int listing_refusal(const struct listing *asked)
{
    if (!within_limit(asked->cx, asked->cy)) {
        return 1;
    }
    if (asked->first > LARGEST_RANGE || asked->last > LARGEST_RANGE) {
        return 2;
    }
    return asked->turn > 5 || asked->sense > 1 ? 3 : 0;
}

/* The tiles of the ranges 0 to n. A corner has 1 and twice the half of its range, rounded down. */
static int64_t count_to(enum figure figure, int64_t n)
{
    switch (figure) {
    case RING:
        return n < 0 ? 0 : 3 * n * (n + 1) + 1;
    case EDGE:
        return n < 0 ? 0 : n * (n + 3) / 2 + 1;
    default:
        return n < 0 ? 0 : n + 1 + 2 * (n * n / 4);
    }
}

int64_t listing_count(enum figure figure, const struct listing *asked)
{
    if (asked->first > asked->last) {
        return 0;
    }
    return count_to(figure, asked->last) - count_to(figure, (int64_t)asked->first - 1);
}

struct walker {
    int32_t x, y;
    int32_t *out;
};

static void go(struct walker *walker, uint32_t direction, uint32_t steps)
{
    walker->x += STEPS[direction % 6][0] * (int32_t)steps;
    walker->y += STEPS[direction % 6][1] * (int32_t)steps;
}

static void note(struct walker *walker)
{
    *walker->out++ = walker->x;
    *walker->out++ = walker->y;
}

/* Notes so many tiles, each before the step away from it. */
static void note_along(struct walker *walker, uint32_t direction, uint32_t tiles)
{
    for (uint32_t tile = 0; tile < tiles; tile++) {
        note(walker);
        go(walker, direction, 1);
    }
}

static void walk_ring(struct walker *walker, const struct listing *asked, uint32_t n)
{
    go(walker, asked->turn, n);
    if (n == 0) {
        note(walker);
    }
    for (uint32_t side = 0; side < 6; side++) {
        note_along(walker, asked->sense == 0 ? asked->turn + 2 + side : asked->turn + 10 - side, n);
    }
}

static void walk_edge(struct walker *walker, const struct listing *asked, uint32_t n)
{
    go(walker, asked->turn + asked->sense, n);
    note_along(walker, asked->sense == 0 ? asked->turn + 2 : asked->turn + 5, n + 1);
}

static void walk_corner(struct walker *walker, const struct listing *asked, uint32_t n)
{
    go(walker, asked->turn, n);
    struct walker back = *walker;
    note_along(walker, asked->turn + 2, n / 2 + 1);
    back.out = walker->out;
    go(&back, asked->turn + 4, 1);
    note_along(&back, asked->turn + 4, n / 2);
    *walker = back;
}

int32_t *listing_walk(enum figure figure, const struct listing *asked, int32_t *out)
{
    for (uint32_t n = asked->first; n <= asked->last; n++) {
        struct walker walker = {asked->cx, asked->cy, out};
        switch (figure) {
        case RING:
            walk_ring(&walker, asked, n);
            break;
        case EDGE:
            walk_edge(&walker, asked, n);
            break;
        default:
            walk_corner(&walker, asked, n);
        }
        out = walker.out;
    }
    return out;
}
