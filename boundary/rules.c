/* The rules in plain 64-bit numbers: see rules.h. */
#include "rules.h"

#include "extremes.h"

const int32_t STEPS[6][2] = {{1, 0}, {1, -1}, {0, -1}, {-1, 0}, {-1, 1}, {0, 1}};

static int64_t size_of(int64_t number)
{
    return number < 0 ? -number : number;
}

static int64_t larger(int64_t a, int64_t b)
{
    return a < b ? b : a;
}

int within_limit(int64_t x, int64_t y)
{
    return size_of(x) <= LIMIT && size_of(y) <= LIMIT;
}

int64_t distance_of(int64_t ax, int64_t ay, int64_t bx, int64_t by)
{
    int64_t dx = bx - ax;
    int64_t dy = by - ay;
    return larger(larger(size_of(dx), size_of(dy)), size_of(dx + dy));
}

int64_t area_of(int64_t radius)
{
    return 3 * radius * (radius + 1) + 1;
}

int map_refusal(int64_t cx, int64_t cy, int64_t radius)
{
    if (!within_limit(cx, cy)) {
        return 1;
    }
    return radius > LARGEST_RADIUS ? 2 : 0;
}

int64_t index_of(int64_t radius, int64_t x, int64_t y)
{
    int64_t area = area_of(radius);
    int64_t rest = (y + (3 * radius + 2) * x) % area;
    return rest < 0 ? rest + area : rest;
}

int64_t row_of(int64_t radius, int64_t y)
{
    return y + radius;
}

int64_t column_of(int64_t radius, int64_t x, int64_t y)
{
    return x + radius - larger(0, radius - row_of(radius, y));
}
