/* Slips of the calls that list, and of the distance. The linker puts these in the place of the calls. */
#include "kyrlamesh.h"

#include "slips.h"

int64_t __real_kyrla_distance(int32_t ax, int32_t ay, int32_t bx, int32_t by);
int64_t __real_kyrla_ring(int32_t cx, int32_t cy, uint32_t range, uint32_t direction, uint32_t sense, int32_t *run, size_t run_len);
int64_t __real_kyrla_ring_edge(int32_t cx, int32_t cy, uint32_t range, uint32_t vertex, uint32_t sense, int32_t *run, size_t run_len);
int64_t __real_kyrla_wedge(int32_t cx, int32_t cy, uint32_t first, uint32_t last, uint32_t vertex, uint32_t sense, int32_t *run,
                           size_t run_len);
int64_t __real_kyrla_corner_wedge(int32_t cx, int32_t cy, uint32_t first, uint32_t last, uint32_t direction, int32_t *run,
                                  size_t run_len);
int64_t __real_kyrla_spiral(int32_t cx, int32_t cy, uint32_t first, uint32_t last, uint32_t direction, uint32_t sense, int32_t *run,
                            size_t run_len);

int64_t __wrap_kyrla_distance(int32_t ax, int32_t ay, int32_t bx, int32_t by)
{
    int64_t distance = __real_kyrla_distance(ax, ay, bx, by);
    return made == DISTANCE_WRAPS ? (int32_t)distance : distance;
}

int64_t __wrap_kyrla_ring(int32_t cx, int32_t cy, uint32_t range, uint32_t direction, uint32_t sense, int32_t *run, size_t run_len)
{
    volatile int32_t *entries = run;
    if (made == RING_READS_PAST) {
        (void)entries[run_len];
    }
    if (made == RING_READS_BEFORE) {
        (void)entries[-1];
    }
    if (made == RING_WRITES_BEFORE) {
        entries[-1] = 0;
    }
    return __real_kyrla_ring(cx, cy, range, direction, sense, run, run_len + (made == RING_RUN));
}

int64_t __wrap_kyrla_ring_edge(int32_t cx, int32_t cy, uint32_t range, uint32_t vertex, uint32_t sense, int32_t *run, size_t run_len)
{
    return __real_kyrla_ring_edge(cx, cy, range, vertex, sense, run, run_len + (made == EDGE_RUN));
}

int64_t __wrap_kyrla_wedge(int32_t cx, int32_t cy, uint32_t first, uint32_t last, uint32_t vertex, uint32_t sense, int32_t *run,
                           size_t run_len)
{
    return __real_kyrla_wedge(cx, cy, first, last, vertex, sense, run, run_len + (made == WEDGE_RUN));
}

int64_t __wrap_kyrla_corner_wedge(int32_t cx, int32_t cy, uint32_t first, uint32_t last, uint32_t direction, int32_t *run,
                                  size_t run_len)
{
    return __real_kyrla_corner_wedge(cx, cy, first, last, direction, run, run_len + (made == CORNER_RUN));
}

int64_t __wrap_kyrla_spiral(int32_t cx, int32_t cy, uint32_t first, uint32_t last, uint32_t direction, uint32_t sense, int32_t *run,
                            size_t run_len)
{
    return __real_kyrla_spiral(cx, cy, first, last, direction, sense, run, run_len + (made == SPIRAL_RUN));
}
