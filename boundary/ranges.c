/* The riding range, with tables of every length from none to a few entries more than the map has tiles. */
#include <string.h>

#include "kyrlamesh.h"

#include "extremes.h"
#include "guard.h"
#include "parts.h"
#include "rules.h"
#include "sheet.h"
#include "tally.h"

static struct sheet sheet;
static uint16_t efforts[LARGEST_AREA];
static uint32_t totals[LARGEST_AREA];
static struct pen efforts_pen;
static struct pen totals_pen;

static void make_pens(size_t entries)
{
    pen_make(&efforts_pen, entries * sizeof *efforts);
    pen_make(&totals_pen, entries * sizeof *totals);
}

static void free_pens(void)
{
    pen_free(&efforts_pen);
    pen_free(&totals_pen);
}

/* The answer that is due. A radius that is refused has no area. */
static int64_t due(const struct ride *ride, size_t efforts_len, size_t totals_len)
{
    int refusal = ride_refusal(ride);
    if (refusal != 0) {
        return -refusal;
    }
    size_t area = (size_t)area_of(ride->radius);
    return efforts_len == area && totals_len == area ? 0 : -KYRLA_WRONG_LENGTH;
}

/* Puts one question with one length for each table. `totals` has what it should write where it is not refused. */
static void ask(const struct ride *ride, size_t efforts_len, size_t totals_len, enum side side)
{
    int64_t expected = due(ride, efforts_len, totals_len);
    size_t written = expected < 0 ? 0 : sheet.area;
    struct lent land = pen_lend_table(&efforts_pen, side, efforts_len, sizeof *efforts, efforts, sheet.area);
    struct lent out = pen_lend(&totals_pen, side, totals_len, sizeof *totals);
    TALLY_ASKED(ride->cx, ride->cy, ride->radius, (int64_t)efforts_len, ride->sx, ride->sy, ride->budget, (int64_t)totals_len);
    int64_t answer = kyrla_range(ride->cx, ride->cy, ride->radius, land.at, efforts_len, ride->sx, ride->sy, ride->budget, out.at,
                                 totals_len);
    pen_open(&efforts_pen);
    int same = written == 0 || memcmp(out.at, totals, written * sizeof *totals) == 0;
    tally_judged(answer == expected && same && lent_kept(&out, written) && lent_kept(&land, 0));
}

static void ask_both_sides(const struct ride *ride, size_t efforts_len, size_t totals_len)
{
    ask(ride, efforts_len, totals_len, BEHIND);
    ask(ride, efforts_len, totals_len, IN_FRONT);
}

/* Each table with every length while the other has the right one, then both with the same length. */
static void ask_lengths(const struct ride *ride)
{
    sheet_totals(&sheet, efforts, ride, totals);
    for (size_t length = 0; length <= sheet.area + SPARE; length++) {
        ask_both_sides(ride, length, sheet.area);
        ask_both_sides(ride, sheet.area, length);
        ask_both_sides(ride, length, length);
    }
    ask_both_sides(ride, sheet.area + 1, sheet.area - 1);
    ask_both_sides(ride, sheet.area - 1, sheet.area + 1);
}

/* A ride from every tile of the map, with budgets that are reached and one that is not. */
static void ask_rides(int32_t cx, int32_t cy)
{
    static const uint32_t BUDGETS[] = {0, 7, UINT32_MAX};
    for (uint32_t tile = 0; tile < sheet.area; tile++) {
        EACH(uint32_t, budget, BUDGETS) {
            int32_t sx = cx + sheet.tiles[tile][0];
            int32_t sy = cy + sheet.tiles[tile][1];
            ask_lengths(&(struct ride){cx, cy, sheet.radius, sx, sy, 0, 0, *budget});
        }
    }
}

/* Arguments at the limits and at the ends of 32 bits. The tables fit the sheet, so to another radius they have the wrong length. */
static void ask_extreme(const struct ride *ride)
{
    if (ride_refusal(ride) == 0 && ride->radius == sheet.radius) {
        sheet_totals(&sheet, efforts, ride, totals);
    }
    ask_both_sides(ride, sheet.area, sheet.area);
    ask_both_sides(ride, 0, 0);
    ask_both_sides(ride, sheet.area, 0);
    ask_both_sides(ride, 0, sheet.area);
}

static void ask_extremes(uint32_t budget)
{
    EACH(int32_t, cx, COORDINATES) EACH(int32_t, cy, COORDINATES) EACH(uint32_t, radius, RADII) {
        EACH(int32_t, sx, COORDINATES) EACH(int32_t, sy, COORDINATES) {
            ask_extreme(&(struct ride){*cx, *cy, *radius, *sx, *sy, 0, 0, budget});
        }
    }
}

static void ask_largest(void)
{
    make_pens(LARGEST_AREA);
    sheet_make(&sheet, LARGEST_RADIUS);
    for (uint32_t land = 0; land < LANDS; land++) {
        sheet_efforts(&sheet, land, efforts);
        struct ride ride = {LIMIT, LIMIT, LARGEST_RADIUS, LIMIT - 20, LIMIT + 60, 0, 0, UINT32_MAX};
        sheet_totals(&sheet, efforts, &ride, totals);
        ask_both_sides(&ride, sheet.area, sheet.area);
        ask_both_sides(&ride, sheet.area - 1, sheet.area);
        ask_both_sides(&ride, sheet.area, sheet.area - 1);
    }
    free_pens();
}

void ask_ranges(void)
{
    tally_begin("kyrla_range");
    make_pens(SMALL_AREA + SPARE);
    for (uint32_t radius = 0; radius <= SMALL_RADIUS; radius++) {
        sheet_make(&sheet, radius);
        for (uint32_t land = 0; land < LANDS; land++) {
            sheet_efforts(&sheet, land, efforts);
            ask_rides(0, 0);
            ask_rides(-LIMIT, LIMIT);
        }
    }
    sheet_make(&sheet, 1);
    sheet_efforts(&sheet, 1, efforts);
    ask_extremes(0);
    ask_extremes(UINT32_MAX);
    free_pens();
    ask_largest();
}
