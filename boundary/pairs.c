/* The calls that answer a pair, with runs of none to five entries. */
#include "kyrlamesh.h"

#include "extremes.h"
#include "guard.h"
#include "grids.h"
#include "parts.h"
#include "tally.h"

enum { LONGEST_RUN = 2 + SPARE };

/* A call that answers a pair, and what it should answer. */
struct pairer {
    const char *name;
    int64_t (*call)(const struct pair_asked *asked, int32_t *run, size_t run_len);
    struct pair (*expected)(const struct pair_asked *asked);
};

static int64_t call_tile(const struct pair_asked *asked, int32_t *run, size_t run_len)
{
    return kyrla_tile(asked->a, asked->b, asked->n, asked->m, run, run_len);
}

static int64_t call_row_column(const struct pair_asked *asked, int32_t *run, size_t run_len)
{
    return kyrla_row_column(asked->a, asked->b, asked->n, asked->c, asked->d, run, run_len);
}

static int64_t call_tile_at(const struct pair_asked *asked, int32_t *run, size_t run_len)
{
    return kyrla_tile_at(asked->a, asked->b, asked->n, asked->m, asked->k, run, run_len);
}

static int64_t call_to_offset(const struct pair_asked *asked, int32_t *run, size_t run_len)
{
    return kyrla_to_offset(asked->a, asked->b, asked->n, asked->m, run, run_len);
}

static int64_t call_from_offset(const struct pair_asked *asked, int32_t *run, size_t run_len)
{
    return kyrla_from_offset(asked->a, asked->b, asked->n, asked->m, run, run_len);
}

static int64_t call_to_doubled(const struct pair_asked *asked, int32_t *run, size_t run_len)
{
    return kyrla_to_doubled(asked->a, asked->b, asked->n, run, run_len);
}

static int64_t call_from_doubled(const struct pair_asked *asked, int32_t *run, size_t run_len)
{
    return kyrla_from_doubled(asked->a, asked->b, asked->n, run, run_len);
}

static const struct pairer TILE = {"kyrla_tile", call_tile, tile_of_index};
static const struct pairer ROW_COLUMN = {"kyrla_row_column", call_row_column, row_column_of_tile};
static const struct pairer TILE_AT = {"kyrla_tile_at", call_tile_at, tile_of_row_column};
static const struct pairer GRIDS[] = {
    {"kyrla_to_offset", call_to_offset, offset_of_tile},
    {"kyrla_from_offset", call_from_offset, tile_of_offset},
    {"kyrla_to_doubled", call_to_doubled, doubled_of_tile},
    {"kyrla_from_doubled", call_from_doubled, tile_of_doubled},
};

static struct pen pen;

static void ask(const struct pairer *pairer, const struct pair_asked *asked, struct pair pair, size_t run_len, enum side side)
{
    int64_t expected = pair.refusal != 0 ? -pair.refusal : run_len < 2 ? -KYRLA_RUN_TOO_SHORT : 1;
    struct lent run = pen_lend(&pen, side, run_len, sizeof(int32_t));
    TALLY_ASKED(asked->a, asked->b, asked->n, asked->m, asked->k, asked->c, asked->d, (int64_t)run_len);
    int64_t answer = pairer->call(asked, run.at, run_len);
    const int32_t *numbers = run.at;
    int same = expected < 0 || (numbers[0] == pair.first && numbers[1] == pair.second);
    tally_judged(answer == expected && same && lent_kept(&run, expected < 0 ? 0 : 2));
}

/* One question with every length of the run. */
static void ask_lengths(const struct pairer *pairer, struct pair_asked asked)
{
    struct pair pair = pairer->expected(&asked);
    for (size_t run_len = 0; run_len <= LONGEST_RUN; run_len++) {
        ask(pairer, &asked, pair, run_len, BEHIND);
        ask(pairer, &asked, pair, run_len, IN_FRONT);
    }
}

/* Of a small map every index, every tile, every row and column, and those just outside. */
static void ask_map(const struct pairer *pairer, int32_t cx, int32_t cy, int32_t radius)
{
    int32_t far = radius + 2;
    for (int32_t x = -far; x <= far; x++) {
        for (int32_t y = -far; y <= far; y++) {
            uint32_t row = (uint32_t)(y + far);
            uint32_t number = pairer == &TILE ? row * (uint32_t)(2 * far + 1) + (uint32_t)(x + far) : row;
            ask_lengths(pairer, (struct pair_asked){cx, cy, (uint32_t)radius, number, (uint32_t)(x + far), cx + x, cy + y});
        }
    }
}

/* A map call takes two unsigned numbers, or two coordinates, beside its map. Those that it does not take are left 0. */
static void ask_extreme_map(const struct pairer *pairer, int32_t cx, int32_t cy, uint32_t radius)
{
    static const uint32_t NUMBERS[] = {0, 1, 6, 7, 60, 120, 121, 10980, 10981, INT32_MAX, UINT32_MAX - 1, UINT32_MAX};
    if (pairer == &ROW_COLUMN) {
        EACH(int32_t, x, COORDINATES) EACH(int32_t, y, COORDINATES) {
            ask_lengths(pairer, (struct pair_asked){cx, cy, radius, 0, 0, *x, *y});
        }
        return;
    }
    EACH(uint32_t, m, NUMBERS) EACH(uint32_t, k, NUMBERS) {
        if (pairer == &TILE_AT || *k == 0) {
            ask_lengths(pairer, (struct pair_asked){cx, cy, radius, *m, *k, 0, 0});
        }
    }
}

static void ask_maps(const struct pairer *pairer)
{
    tally_begin(pairer->name);
    for (int32_t radius = 0; radius <= 3; radius++) {
        ask_map(pairer, 0, 0, radius);
        ask_map(pairer, -LIMIT, LIMIT, radius);
    }
    EACH(int32_t, cx, COORDINATES) EACH(int32_t, cy, COORDINATES) EACH(uint32_t, radius, RADII) {
        ask_extreme_map(pairer, *cx, *cy, *radius);
    }
}

/* The widest pairs of a tile within the limit lie at 1,500,000 and 3,000,000. */
static void ask_grid(const struct pairer *pairer)
{
    static const int32_t NUMBERS[] = {INT32_MIN, INT32_MIN + 1, -3000001, -3000000, -1500000, -LIMIT - 1, -LIMIT, -3, -2, -1, 0, 1, 2, 3,
                                      LIMIT, LIMIT + 1, 1500000, 1500001, 3000000, INT32_MAX - 1, INT32_MAX};
    tally_begin(pairer->name);
    EACH(int32_t, a, NUMBERS) EACH(int32_t, b, NUMBERS) EACH(uint32_t, n, CHOICES) EACH(uint32_t, m, CHOICES) {
        if (pairer < GRIDS + 2 || *m == 0) {
            ask_lengths(pairer, (struct pair_asked){*a, *b, *n, *m, 0, 0, 0});
        }
    }
}

void ask_pairs(void)
{
    pen_make(&pen, LONGEST_RUN * sizeof(int32_t));
    ask_maps(&TILE);
    ask_maps(&ROW_COLUMN);
    ask_maps(&TILE_AT);
    EACH(struct pairer, pairer, GRIDS) {
        ask_grid(pairer);
    }
    pen_free(&pen);
}
