/* The pairs as the rules tell them: see grids.h. */
#include "grids.h"

#include "rules.h"

static struct pair refused(int refusal)
{
    return (struct pair){refusal, 0, 0};
}

/* A tile has the index, or the row and column, that is asked for. */
typedef int has(const struct pair_asked *asked, int64_t x, int64_t y);

static int has_index(const struct pair_asked *asked, int64_t x, int64_t y)
{
    return index_of(asked->n, x, y) == asked->m;
}

static int has_row_column(const struct pair_asked *asked, int64_t x, int64_t y)
{
    return row_of(asked->n, y) == asked->m && column_of(asked->n, x, y) == asked->k;
}

/* The way back is by search: the tile of the map that has what is asked for. */
static struct pair found(const struct pair_asked *asked, has *fits)
{
    int refusal = map_refusal(asked->a, asked->b, asked->n);
    if (refusal != 0) {
        return refused(refusal);
    }
    int64_t radius = asked->n;
    for (int64_t x = -radius; x <= radius; x++) {
        for (int64_t y = -radius; y <= radius; y++) {
            if (distance_of(0, 0, x, y) <= radius && fits(asked, x, y)) {
                return (struct pair){0, asked->a + x, asked->b + y};
            }
        }
    }
    return refused(5);
}

struct pair tile_of_index(const struct pair_asked *asked)
{
    return found(asked, has_index);
}

struct pair tile_of_row_column(const struct pair_asked *asked)
{
    return found(asked, has_row_column);
}

struct pair row_column_of_tile(const struct pair_asked *asked)
{
    int refusal = map_refusal(asked->a, asked->b, asked->n);
    if (refusal != 0) {
        return refused(refusal);
    }
    int64_t x = (int64_t)asked->c - asked->a;
    int64_t y = (int64_t)asked->d - asked->b;
    if (distance_of(0, 0, x, y) > asked->n) {
        return refused(5);
    }
    return (struct pair){0, row_of(asked->n, y), column_of(asked->n, x, y)};
}

/* What the other coordinate is shifted by: the half of a number, an odd one made even first, upwards by mode 0 and downwards by 1. */
static int64_t shift(int64_t number, uint32_t mode)
{
    int64_t odd = number % 2 != 0;
    return (mode == 0 ? number + odd : number - odd) / 2;
}

struct pair offset_of_tile(const struct pair_asked *asked)
{
    int64_t x = asked->a;
    int64_t y = asked->b;
    if (!within_limit(x, y)) {
        return refused(1);
    }
    if (asked->n > 1 || asked->m > 1) {
        return refused(3);
    }
    return asked->m == 0 ? (struct pair){0, x, y + shift(x, asked->n)} : (struct pair){0, x + shift(y, asked->n), y};
}

struct pair tile_of_offset(const struct pair_asked *asked)
{
    if (asked->n > 1 || asked->m > 1) {
        return refused(3);
    }
    int64_t column = asked->a;
    int64_t row = asked->b;
    int64_t x = asked->m == 0 ? column : column - shift(row, asked->n);
    int64_t y = asked->m == 0 ? row - shift(column, asked->n) : row;
    return within_limit(x, y) ? (struct pair){0, x, y} : refused(1);
}

struct pair doubled_of_tile(const struct pair_asked *asked)
{
    int64_t x = asked->a;
    int64_t y = asked->b;
    if (!within_limit(x, y)) {
        return refused(1);
    }
    if (asked->n > 1) {
        return refused(3);
    }
    return asked->n == 0 ? (struct pair){0, 2 * x + y, y} : (struct pair){0, x, 2 * y + x};
}

struct pair tile_of_doubled(const struct pair_asked *asked)
{
    if (asked->n > 1) {
        return refused(3);
    }
    int64_t column = asked->a;
    int64_t row = asked->b;
    if ((column + row) % 2 != 0) {
        return refused(4);
    }
    int64_t x = asked->n == 0 ? (column - row) / 2 : column;
    int64_t y = asked->n == 0 ? row : (row - column) / 2;
    return within_limit(x, y) ? (struct pair){0, x, y} : refused(1);
}
