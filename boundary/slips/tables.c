/* Slips of the calls over tables. The linker puts these in the place of the calls. */
#include "kyrlamesh.h"

#include "slips.h"

int64_t __real_kyrla_range(int32_t cx, int32_t cy, uint32_t radius, const uint16_t *efforts, size_t efforts_len, int32_t sx, int32_t sy,
                           uint32_t budget, uint32_t *totals, size_t totals_len);
int64_t __real_kyrla_check(int32_t cx, int32_t cy, uint32_t radius, const uint16_t *efforts, size_t efforts_len, int32_t sx, int32_t sy,
                           uint32_t budget, const uint32_t *totals, size_t totals_len, uint32_t *broken, size_t broken_len);
int64_t __real_kyrla_route(int32_t cx, int32_t cy, uint32_t radius, const uint16_t *efforts, size_t efforts_len, int32_t sx, int32_t sy,
                           int32_t ex, int32_t ey, uint64_t *ranks, size_t ranks_len, int32_t *run, size_t run_len);

/* Writes the first effort, where there is one, as it was. */
static void write_effort(const uint16_t *efforts, size_t efforts_len)
{
    volatile uint16_t *entries = (uint16_t *)(uintptr_t)efforts;
    if (efforts_len > 0) {
        entries[0] = entries[0];
    }
}

int64_t __wrap_kyrla_range(int32_t cx, int32_t cy, uint32_t radius, const uint16_t *efforts, size_t efforts_len, int32_t sx, int32_t sy,
                           uint32_t budget, uint32_t *totals, size_t totals_len)
{
    if (made == RANGE_READS_PAST) {
        (void)((const volatile uint16_t *)efforts)[efforts_len];
    }
    if (made == RANGE_WRITES_TABLE) {
        write_effort(efforts, efforts_len);
    }
    int64_t answer = __real_kyrla_range(cx, cy, radius, efforts, efforts_len + (made == RANGE_EFFORTS), sx, sy, budget, totals,
                                        totals_len + (made == RANGE_TOTALS));
    if (made == RANGE_REFUSED_WRITES && answer < 0 && totals_len > 0) {
        totals[0] = 0;
    }
    return answer;
}

int64_t __wrap_kyrla_check(int32_t cx, int32_t cy, uint32_t radius, const uint16_t *efforts, size_t efforts_len, int32_t sx, int32_t sy,
                           uint32_t budget, const uint32_t *totals, size_t totals_len, uint32_t *broken, size_t broken_len)
{
    volatile uint32_t *entries = (uint32_t *)(uintptr_t)totals;
    if (made == CHECK_WRITES_TABLE && totals_len > 0) {
        entries[0] = entries[0];
    }
    int64_t answer = __real_kyrla_check(cx, cy, radius, efforts, efforts_len + (made == CHECK_EFFORTS), sx, sy, budget, totals,
                                        totals_len + (made == CHECK_TOTALS), broken, broken_len + (made == CHECK_BROKEN));
    if (made == CHECK_ALWAYS_NOTES && answer == 0 && broken_len > 0) {
        broken[0] = 0;
    }
    return answer;
}

int64_t __wrap_kyrla_route(int32_t cx, int32_t cy, uint32_t radius, const uint16_t *efforts, size_t efforts_len, int32_t sx, int32_t sy,
                           int32_t ex, int32_t ey, uint64_t *ranks, size_t ranks_len, int32_t *run, size_t run_len)
{
    if (made == ROUTE_WRITES_TABLE) {
        write_effort(efforts, efforts_len);
    }
    int64_t answer = __real_kyrla_route(cx, cy, radius, efforts, efforts_len + (made == ROUTE_EFFORTS), sx, sy, ex, ey, ranks,
                                        ranks_len + (made == ROUTE_RANKS), run, run_len + (made == ROUTE_RUN));
    if (made == ROUTE_7_WRITES && answer == -KYRLA_RUN_TOO_SHORT && run_len > 0) {
        run[0] = 0;
    }
    if (made == ROUTE_8_CLEARS && answer == -KYRLA_NO_OPEN_PATH) {
        ranks[ranks_len - 1] = 0;
    }
    return made == ROUTE_SHORT && answer > 0 ? answer - 1 : answer;
}
