/* The calls that list, with runs of every length from none to a few entries more than the list has. */
#include <stdlib.h>
#include <string.h>

#include "kyrlamesh.h"

#include "extremes.h"
#include "guard.h"
#include "parts.h"
#include "tally.h"
#include "walks.h"

enum { SMALL_RANGE = 6, SMALL_ENTRIES = 2 * (3 * SMALL_RANGE * (SMALL_RANGE + 1) + 1) + SPARE };

/* A call that lists: its figure, whether it takes one range, and whether it takes a sense. */
struct lister {
    const char *name;
    enum figure figure;
    int one_range;
    int has_sense;
    int64_t (*call)(const struct listing *asked, int32_t *run, size_t run_len);
};

static int64_t call_ring(const struct listing *asked, int32_t *run, size_t run_len)
{
    return kyrla_ring(asked->cx, asked->cy, asked->first, asked->turn, asked->sense, run, run_len);
}

static int64_t call_ring_edge(const struct listing *asked, int32_t *run, size_t run_len)
{
    return kyrla_ring_edge(asked->cx, asked->cy, asked->first, asked->turn, asked->sense, run, run_len);
}

static int64_t call_wedge(const struct listing *asked, int32_t *run, size_t run_len)
{
    return kyrla_wedge(asked->cx, asked->cy, asked->first, asked->last, asked->turn, asked->sense, run, run_len);
}

static int64_t call_corner_wedge(const struct listing *asked, int32_t *run, size_t run_len)
{
    return kyrla_corner_wedge(asked->cx, asked->cy, asked->first, asked->last, asked->turn, run, run_len);
}

static int64_t call_spiral(const struct listing *asked, int32_t *run, size_t run_len)
{
    return kyrla_spiral(asked->cx, asked->cy, asked->first, asked->last, asked->turn, asked->sense, run, run_len);
}

static const struct lister LISTERS[] = {
    {"kyrla_ring", RING, 1, 1, call_ring},
    {"kyrla_ring_edge", EDGE, 1, 1, call_ring_edge},
    {"kyrla_wedge", EDGE, 0, 1, call_wedge},
    {"kyrla_corner_wedge", CORNER, 0, 0, call_corner_wedge},
    {"kyrla_spiral", RING, 0, 1, call_spiral},
};

static struct pen pen;

/* Puts one question with one length of the run. `tiles` are those that the walk notes, as many as the list has. */
static void ask(const struct lister *lister, const struct listing *asked, const int32_t *tiles, size_t run_len, enum side side)
{
    int64_t expected = -listing_refusal(asked);
    if (expected == 0) {
        int64_t count = listing_count(lister->figure, asked);
        expected = run_len < 2 * (size_t)count ? -KYRLA_RUN_TOO_SHORT : count;
    }
    size_t written = expected < 0 ? 0 : 2 * (size_t)expected;
    struct lent run = pen_lend(&pen, side, run_len, sizeof(int32_t));
    TALLY_ASKED(asked->cx, asked->cy, asked->first, asked->last, asked->turn, asked->sense, (int64_t)run_len);
    int64_t answer = lister->call(asked, run.at, run_len);
    int same = written == 0 || memcmp(run.at, tiles, written * sizeof(int32_t)) == 0;
    tally_judged(answer == expected && same && lent_kept(&run, written));
}

/* Every length from none to a few past what is needed. */
static void ask_lengths(const struct lister *lister, const struct listing *asked)
{
    int32_t tiles[SMALL_ENTRIES];
    size_t needed = (size_t)(listing_walk(lister->figure, asked, tiles) - tiles);
    for (size_t run_len = 0; run_len <= needed + SPARE; run_len++) {
        for (enum side side = BEHIND; side < SIDES; side++) {
            ask(lister, asked, tiles, run_len, side);
        }
    }
}

/* Every direction or vertex and sense. */
static void ask_turns(const struct lister *lister, struct listing asked)
{
    for (asked.turn = 0; asked.turn < 6; asked.turn++) {
        for (asked.sense = 0; asked.sense < (lister->has_sense ? 2 : 1); asked.sense++) {
            ask_lengths(lister, &asked);
        }
    }
}

static void ask_small(const struct lister *lister, int32_t cx, int32_t cy)
{
    for (uint32_t first = 0; first <= SMALL_RANGE; first++) {
        for (uint32_t last = 0; last <= SMALL_RANGE; last++) {
            if (!lister->one_range || first == last) {
                ask_turns(lister, (struct listing){cx, cy, first, last, 0, 0});
            }
        }
    }
}

/* Numbers at the limits and at the ends of 32 bits. No list longer than that of the range 2 has room here, so a longer one is refused. */
static void ask_extreme(const struct lister *lister, const struct listing *asked)
{
    int32_t tiles[SMALL_ENTRIES] = {0};
    if (listing_refusal(asked) == 0 && 2 * listing_count(lister->figure, asked) <= SMALL_ENTRIES) {
        listing_walk(lister->figure, asked, tiles);
    }
    static const size_t LENGTHS[] = {0, 1, 2, 38};
    EACH(size_t, run_len, LENGTHS) {
        for (enum side side = BEHIND; side < SIDES; side++) {
            ask(lister, asked, tiles, *run_len, side);
        }
    }
}

static void ask_extreme_turns(const struct lister *lister, struct listing asked)
{
    EACH(uint32_t, turn, TURNS) EACH(uint32_t, sense, CHOICES) {
        asked.turn = *turn;
        asked.sense = *sense;
        if (lister->has_sense || *sense == 0) {
            ask_extreme(lister, &asked);
        }
    }
}

static void ask_extremes(const struct lister *lister)
{
    EACH(int32_t, cx, COORDINATES) EACH(int32_t, cy, COORDINATES) {
        EACH(uint32_t, first, RANGES) EACH(uint32_t, last, RANGES) {
            if (!lister->one_range || *first == *last) {
                ask_extreme_turns(lister, (struct listing){*cx, *cy, *first, *last, 0, 0});
            }
        }
    }
}

/* The longest list that the call has, with a run of exactly its length. */
static void ask_longest(const struct lister *lister)
{
    struct listing asked = {LIMIT, -LIMIT, lister->one_range ? LARGEST_RANGE : 0, LARGEST_RANGE, 5, lister->has_sense};
    size_t entries = 2 * (size_t)listing_count(lister->figure, &asked);
    int32_t *tiles = malloc(entries * sizeof *tiles);
    if (tiles == NULL) {
        exit(1);
    }
    listing_walk(lister->figure, &asked, tiles);
    pen_make(&pen, entries * sizeof *tiles);
    ask(lister, &asked, tiles, entries, BEHIND);
    ask(lister, &asked, tiles, entries, IN_FRONT);
    ask(lister, &asked, tiles, entries - 1, BEHIND);
    pen_free(&pen);
    free(tiles);
}

void ask_lists(void)
{
    EACH(struct lister, lister, LISTERS) {
        tally_begin(lister->name);
        pen_make(&pen, SMALL_ENTRIES * sizeof(int32_t));
        ask_small(lister, 0, 0);
        ask_small(lister, -7, 12);
        ask_small(lister, LIMIT, -LIMIT);
        ask_extremes(lister);
        pen_free(&pen);
        ask_longest(lister);
    }
}
