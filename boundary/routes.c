/* The route, with every length of its three buffers. */
#include <string.h>

#include "kyrlamesh.h"

#include "extremes.h"
#include "guard.h"
#include "parts.h"
#include "rules.h"
#include "sheet.h"
#include "tally.h"

static struct sheet sheet;
static uint16_t efforts[LARGEST_AREA];
static uint64_t ranks[LARGEST_AREA];
static int32_t run[2 * LARGEST_AREA];
static struct pen efforts_pen;
static struct pen ranks_pen;
static struct pen run_pen;

/* The lengths of the three buffers. */
struct lengths {
    size_t efforts, ranks, run;
};

static void make_pens(size_t entries)
{
    pen_make(&efforts_pen, entries * sizeof *efforts);
    pen_make(&ranks_pen, entries * sizeof *ranks);
    pen_make(&run_pen, 2 * entries * sizeof *run);
}

static void free_pens(void)
{
    pen_free(&efforts_pen);
    pen_free(&ranks_pen);
    pen_free(&run_pen);
}

/* The answer that is due, given the number of tiles of the route, 0 where there is none. */
static int64_t due(const struct ride *ride, struct lengths lengths, size_t tiles)
{
    int refusal = route_refusal(ride);
    if (refusal != 0) {
        return -refusal;
    }
    size_t area = (size_t)area_of(ride->radius);
    if (lengths.efforts != area || lengths.ranks != area) {
        return -KYRLA_WRONG_LENGTH;
    }
    return tiles == 0 ? -KYRLA_NO_OPEN_PATH : lengths.run < 2 * tiles ? -KYRLA_RUN_TOO_SHORT : (int64_t)tiles;
}

/* Puts one question. `ranks` and `run` have what it should write where it is not refused. */
static void ask(const struct ride *ride, struct lengths lengths, size_t tiles, enum side side)
{
    int64_t expected = due(ride, lengths, tiles);
    int ranked = expected > 0 || expected == -KYRLA_RUN_TOO_SHORT || expected == -KYRLA_NO_OPEN_PATH;
    size_t ranks_written = ranked ? sheet.area : 0;
    size_t run_written = expected > 0 ? 2 * (size_t)expected : 0;
    struct lent land = pen_lend_table(&efforts_pen, side, lengths.efforts, sizeof *efforts, efforts, sheet.area);
    struct lent table = pen_lend(&ranks_pen, side, lengths.ranks, sizeof *ranks);
    struct lent way = pen_lend(&run_pen, side, lengths.run, sizeof *run);
    TALLY_ASKED(ride->cx, ride->cy, ride->radius, (int64_t)lengths.efforts, ride->sx, ride->sy, ride->ex, ride->ey,
                (int64_t)lengths.ranks, (int64_t)lengths.run);
    int64_t answer = kyrla_route(ride->cx, ride->cy, ride->radius, land.at, lengths.efforts, ride->sx, ride->sy, ride->ex, ride->ey,
                                 table.at, lengths.ranks, way.at, lengths.run);
    pen_open(&efforts_pen);
    int same_ranks = ranks_written == 0 || memcmp(table.at, ranks, ranks_written * sizeof *ranks) == 0;
    int same_run = run_written == 0 || memcmp(way.at, run, run_written * sizeof *run) == 0;
    int kept = lent_kept(&table, ranks_written) && lent_kept(&way, run_written) && lent_kept(&land, 0);
    tally_judged(answer == expected && same_ranks && same_run && kept);
}

static void ask_both_sides(const struct ride *ride, struct lengths lengths, size_t tiles)
{
    ask(ride, lengths, tiles, BEHIND);
    ask(ride, lengths, tiles, IN_FRONT);
}

/* Sets the ranks and the run that are due, and answers the number of tiles, 0 where there is no route. */
static size_t prepare(const struct ride *ride)
{
    sheet_ranks(&sheet, efforts, ride, ranks);
    return ranks[start_of(ride)] == KYRLA_NO_RANK ? 0 : sheet_route(&sheet, efforts, ride, ranks, run);
}

/* Tables that fit, and a run of every length from none to a few entries past the route. */
static void ask_runs(const struct ride *ride, size_t tiles)
{
    for (size_t length = 0; length <= 2 * tiles + SPARE; length++) {
        ask_both_sides(ride, (struct lengths){sheet.area, sheet.area, length}, tiles);
    }
}

/* Tables of every length, one with the other right and both the same, with a run that is exact and one that is empty. */
static void ask_tables(const struct ride *ride, size_t tiles)
{
    for (size_t length = 0; length <= sheet.area + SPARE; length++) {
        ask_both_sides(ride, (struct lengths){length, sheet.area, 2 * tiles}, tiles);
        ask_both_sides(ride, (struct lengths){sheet.area, length, 2 * tiles}, tiles);
        ask_both_sides(ride, (struct lengths){length, length, 2 * tiles}, tiles);
        ask_both_sides(ride, (struct lengths){length, length, 0}, tiles);
    }
}

static void ask_rides(int32_t cx, int32_t cy)
{
    for (uint32_t from = 0; from < sheet.area; from++) {
        for (uint32_t to = 0; to < sheet.area; to++) {
            const int32_t *start = sheet.tiles[from];
            const int32_t *end = sheet.tiles[to];
            struct ride ride = {cx, cy, sheet.radius, cx + start[0], cy + start[1], cx + end[0], cy + end[1], 0};
            size_t tiles = prepare(&ride);
            ask_runs(&ride, tiles);
            if ((from + to) % 7 == 0) {
                ask_tables(&ride, tiles);
            }
        }
    }
}

/* Arguments at the limits and at the ends of 32 bits. The tables fit the sheet, so to another radius they have the wrong length. */
static void ask_extreme(const struct ride *ride)
{
    size_t tiles = route_refusal(ride) == 0 && ride->radius == sheet.radius ? prepare(ride) : 0;
    ask_both_sides(ride, (struct lengths){sheet.area, sheet.area, 2 * tiles}, tiles);
    ask_both_sides(ride, (struct lengths){0, 0, 0}, tiles);
}

static void ask_extremes(int32_t cx, int32_t cy, uint32_t radius)
{
    static const int32_t ENDS[] = {INT32_MIN, -LIMIT, 0, INT32_MAX};
    EACH(int32_t, sx, ENDS) EACH(int32_t, sy, ENDS) EACH(int32_t, ex, ENDS) EACH(int32_t, ey, ENDS) {
        ask_extreme(&(struct ride){cx, cy, radius, *sx, *sy, *ex, *ey, 0});
    }
}

/* The largest map, from one end of it to the other. */
static void ask_largest(void)
{
    make_pens(LARGEST_AREA);
    sheet_make(&sheet, LARGEST_RADIUS);
    for (uint32_t land = 0; land < LANDS; land++) {
        sheet_efforts(&sheet, land, efforts);
        struct ride ride = {LIMIT, LIMIT, LARGEST_RADIUS, LIMIT - 20, LIMIT + 60, LIMIT + 60, LIMIT - 60, 0};
        efforts[start_of(&ride)] = 1;
        efforts[end_of(&ride)] = 1;
        size_t tiles = prepare(&ride);
        ask_runs(&ride, tiles);
        ask_both_sides(&ride, (struct lengths){sheet.area - 1, sheet.area, 2 * tiles}, tiles);
        ask_both_sides(&ride, (struct lengths){sheet.area, sheet.area - 1, 2 * tiles}, tiles);
    }
    free_pens();
}

void ask_routes(void)
{
    tally_begin("kyrla_route");
    make_pens(SMALL_AREA + SPARE);
    for (uint32_t radius = 0; radius <= SMALL_RADIUS; radius++) {
        sheet_make(&sheet, radius);
        for (uint32_t land = 0; land < LANDS; land++) {
            sheet_efforts(&sheet, land, efforts);
            ask_rides(radius % 2 == 0 ? 0 : LIMIT, radius % 2 == 0 ? 0 : -LIMIT);
        }
    }
    sheet_make(&sheet, 1);
    sheet_efforts(&sheet, 1, efforts);
    EACH(int32_t, cx, COORDINATES) EACH(int32_t, cy, COORDINATES) EACH(uint32_t, radius, RADII) {
        ask_extremes(*cx, *cy, *radius);
    }
    free_pens();
    ask_largest();
}
