/* The numbers that arguments are tried with, in combination: the ends of 32 bits, the limits of the rules, and both sides of them; and
 * how far lengths go. */
#ifndef BOUNDARY_EXTREMES_H
#define BOUNDARY_EXTREMES_H

#include <stdint.h>

enum { LIMIT = 1000000, LARGEST_RANGE = 1000, LARGEST_RADIUS = 60 };

/* Lengths go to so many entries past what is needed, over maps up to the small radius, which have up to the small area of tiles. */
enum { SPARE = 3, SMALL_RADIUS = 3, SMALL_AREA = 37 };

static const int32_t COORDINATES[] = {INT32_MIN, -LIMIT - 1, -LIMIT, 0, 1, LIMIT, LIMIT + 1, INT32_MAX};
static const uint32_t RANGES[] = {0, 1, 2, LARGEST_RANGE, LARGEST_RANGE + 1, UINT32_MAX};
static const uint32_t RADII[] = {0, 1, LARGEST_RADIUS, LARGEST_RADIUS + 1, UINT32_MAX};
static const uint32_t TURNS[] = {0, 5, 6, UINT32_MAX};
static const uint32_t CHOICES[] = {0, 1, 2, UINT32_MAX};

/* Of an array, each entry in turn. */
#define EACH(type, entry, array) \
    for (const type *entry = (array); entry < (array) + sizeof(array) / sizeof *(array); entry++)

#endif
