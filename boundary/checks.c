/* The totals check, on right tables and on tables with one entry changed, with every length of the three buffers. */
#include "kyrlamesh.h"

#include "extremes.h"
#include "guard.h"
#include "parts.h"
#include "rules.h"
#include "sheet.h"
#include "tally.h"

enum { LONGEST_BROKEN = 1 + SPARE };

static struct sheet sheet;
static uint16_t efforts[LARGEST_AREA];
static uint32_t totals[LARGEST_AREA];
static struct pen efforts_pen;
static struct pen totals_pen;
static struct pen broken_pen;

/* The lengths of the three buffers. */
struct lengths {
    size_t efforts, totals, broken;
};

static void make_pens(size_t entries)
{
    pen_make(&efforts_pen, entries * sizeof *efforts);
    pen_make(&totals_pen, entries * sizeof *totals);
    pen_make(&broken_pen, LONGEST_BROKEN * sizeof(uint32_t));
}

static void free_pens(void)
{
    pen_free(&efforts_pen);
    pen_free(&totals_pen);
    pen_free(&broken_pen);
}

/* The answer that is due, given the lowest broken index of the table, or -1. */
static int64_t due(const struct ride *ride, struct lengths lengths, int64_t lowest)
{
    int refusal = ride_refusal(ride);
    if (refusal != 0) {
        return -refusal;
    }
    size_t area = (size_t)area_of(ride->radius);
    if (lengths.efforts != area || lengths.totals != area) {
        return -KYRLA_WRONG_LENGTH;
    }
    return lowest < 0 ? 0 : -KYRLA_NOT_RIGHT;
}

static void ask(const struct ride *ride, struct lengths lengths, int64_t lowest, enum side side)
{
    int64_t expected = due(ride, lengths, lowest);
    size_t written = expected == -KYRLA_NOT_RIGHT && lengths.broken > 0 ? 1 : 0;
    struct lent land = pen_lend_table(&efforts_pen, side, lengths.efforts, sizeof *efforts, efforts, sheet.area);
    struct lent table = pen_lend_table(&totals_pen, side, lengths.totals, sizeof *totals, totals, sheet.area);
    struct lent broken = pen_lend(&broken_pen, side, lengths.broken, sizeof(uint32_t));
    TALLY_ASKED(ride->cx, ride->cy, ride->radius, (int64_t)lengths.efforts, ride->sx, ride->sy, ride->budget, (int64_t)lengths.totals,
                (int64_t)lengths.broken);
    int64_t answer = kyrla_check(ride->cx, ride->cy, ride->radius, land.at, lengths.efforts, ride->sx, ride->sy, ride->budget, table.at,
                                 lengths.totals, broken.at, lengths.broken);
    pen_open(&efforts_pen);
    pen_open(&totals_pen);
    int same = written == 0 || *(const uint32_t *)broken.at == lowest;
    tally_judged(answer == expected && same && lent_kept(&broken, written) && lent_kept(&land, 0) && lent_kept(&table, 0));
}

/* The table as it stands, with buffers that fit and any number of entries for the index. */
static void ask_table(const struct ride *ride)
{
    int64_t lowest = ride_refusal(ride) == 0 && ride->radius == sheet.radius ? sheet_broken(&sheet, efforts, ride, totals) : -1;
    for (size_t broken = 0; broken <= LONGEST_BROKEN; broken++) {
        struct lengths lengths = {sheet.area, sheet.area, broken};
        ask(ride, lengths, lowest, BEHIND);
        ask(ride, lengths, lowest, IN_FRONT);
    }
}

/* The table with each entry changed in turn: one more, and the mark of a tile that is not reached. */
static void ask_changes(const struct ride *ride)
{
    for (uint32_t tile = 0; tile < sheet.area; tile++) {
        uint32_t right = totals[tile];
        totals[tile] = right + 1;
        ask_table(ride);
        totals[tile] = right == KYRLA_NO_WAY ? KYRLA_NO_WAY - 1 : KYRLA_NO_WAY;
        ask_table(ride);
        totals[tile] = right;
    }
}

/* The table as it stands, with tables of lengths that do not fit, and with those that do. */
static void ask_lengths(const struct ride *ride)
{
    int64_t lowest = sheet_broken(&sheet, efforts, ride, totals);
    for (size_t length = 0; length <= sheet.area + SPARE; length++) {
        for (size_t broken = 0; broken <= LONGEST_BROKEN; broken += 2) {
            for (enum side side = BEHIND; side < SIDES; side++) {
                ask(ride, (struct lengths){length, sheet.area, broken}, lowest, side);
                ask(ride, (struct lengths){sheet.area, length, broken}, lowest, side);
                ask(ride, (struct lengths){length, length, broken}, lowest, side);
            }
        }
    }
}

static void ask_ride(const struct ride *ride)
{
    sheet_totals(&sheet, efforts, ride, totals);
    ask_table(ride);
    ask_changes(ride);
    ask_lengths(ride);
    totals[sheet.area - 1] ^= 1;
    ask_lengths(ride);
}

static void ask_rides(int32_t cx, int32_t cy)
{
    static const uint32_t BUDGETS[] = {0, 7, UINT32_MAX};
    for (uint32_t tile = 0; tile < sheet.area; tile += 3) {
        EACH(uint32_t, budget, BUDGETS) {
            int32_t sx = cx + sheet.tiles[tile][0];
            int32_t sy = cy + sheet.tiles[tile][1];
            ask_ride(&(struct ride){cx, cy, sheet.radius, sx, sy, 0, 0, *budget});
        }
    }
}

/* Arguments at the limits and at the ends of 32 bits, on a table from any ride. */
static void ask_extremes(uint32_t budget)
{
    static const int32_t ENDS[] = {INT32_MIN, -LIMIT - 1, 0, LIMIT, INT32_MAX};
    sheet_totals(&sheet, efforts, &(struct ride){0, 0, sheet.radius, 0, 0, 0, 0, budget}, totals);
    EACH(int32_t, cx, COORDINATES) EACH(int32_t, cy, COORDINATES) EACH(uint32_t, radius, RADII) {
        EACH(int32_t, sx, ENDS) EACH(int32_t, sy, ENDS) {
            ask_table(&(struct ride){*cx, *cy, *radius, *sx, *sy, 0, 0, budget});
        }
    }
}

static void ask_largest(void)
{
    make_pens(LARGEST_AREA);
    sheet_make(&sheet, LARGEST_RADIUS);
    for (uint32_t land = 0; land < LANDS; land++) {
        sheet_efforts(&sheet, land, efforts);
        struct ride ride = {LIMIT, LIMIT, LARGEST_RADIUS, LIMIT - 20, LIMIT + 60, 0, 0, UINT32_MAX};
        sheet_totals(&sheet, efforts, &ride, totals);
        ask_table(&ride);
        ask(&ride, (struct lengths){sheet.area - 1, sheet.area, 1}, -1, BEHIND);
        ask(&ride, (struct lengths){sheet.area, sheet.area - 1, 1}, -1, BEHIND);
        totals[LARGEST_AREA - 1] ^= 1;
        ask_table(&ride);
    }
    free_pens();
}

void ask_checks(void)
{
    tally_begin("kyrla_check");
    make_pens(SMALL_AREA + SPARE);
    for (uint32_t radius = 0; radius <= SMALL_RADIUS; radius++) {
        sheet_make(&sheet, radius);
        for (uint32_t land = 0; land < LANDS; land++) {
            sheet_efforts(&sheet, land, efforts);
            ask_rides(0, 0);
            ask_rides(-LIMIT, LIMIT);
        }
    }
    sheet_make(&sheet, 1);
    sheet_efforts(&sheet, 1, efforts);
    ask_extremes(0);
    ask_extremes(UINT32_MAX);
    free_pens();
    ask_largest();
}
