/* Slips of the calls that answer a pair. The linker puts these in the place of the calls. */
#include "kyrlamesh.h"

#include "slips.h"

int64_t __real_kyrla_tile(int32_t cx, int32_t cy, uint32_t radius, uint32_t index, int32_t *run, size_t run_len);
int64_t __real_kyrla_row_column(int32_t cx, int32_t cy, uint32_t radius, int32_t x, int32_t y, int32_t *run, size_t run_len);
int64_t __real_kyrla_tile_at(int32_t cx, int32_t cy, uint32_t radius, uint32_t row, uint32_t column, int32_t *run, size_t run_len);
int64_t __real_kyrla_to_offset(int32_t x, int32_t y, uint32_t mode, uint32_t orientation, int32_t *run, size_t run_len);
int64_t __real_kyrla_from_offset(int32_t column, int32_t row, uint32_t mode, uint32_t orientation, int32_t *run, size_t run_len);
int64_t __real_kyrla_to_doubled(int32_t x, int32_t y, uint32_t mode, int32_t *run, size_t run_len);
int64_t __real_kyrla_from_doubled(int32_t column, int32_t row, uint32_t mode, int32_t *run, size_t run_len);

int64_t __wrap_kyrla_tile(int32_t cx, int32_t cy, uint32_t radius, uint32_t index, int32_t *run, size_t run_len)
{
    if (made == TILE_READS_FAR) {
        (void)((volatile int32_t *)run)[UINT32_MAX];
    }
    int64_t answer = __real_kyrla_tile(cx, cy, radius, index, run, run_len + (made == TILE_RUN));
    if (made == TILE_WRITES_ON && answer == 1 && run_len > 2) {
        run[2] = 0;
    }
    return answer;
}

int64_t __wrap_kyrla_row_column(int32_t cx, int32_t cy, uint32_t radius, int32_t x, int32_t y, int32_t *run, size_t run_len)
{
    return __real_kyrla_row_column(cx, cy, radius, x, y, run, run_len + (made == ROW_COLUMN_RUN));
}

int64_t __wrap_kyrla_tile_at(int32_t cx, int32_t cy, uint32_t radius, uint32_t row, uint32_t column, int32_t *run, size_t run_len)
{
    return __real_kyrla_tile_at(cx, cy, radius, row, column, run, run_len + (made == TILE_AT_RUN));
}

int64_t __wrap_kyrla_to_offset(int32_t x, int32_t y, uint32_t mode, uint32_t orientation, int32_t *run, size_t run_len)
{
    return __real_kyrla_to_offset(x, y, mode, orientation, run, run_len + (made == TO_OFFSET_RUN));
}

int64_t __wrap_kyrla_from_offset(int32_t column, int32_t row, uint32_t mode, uint32_t orientation, int32_t *run, size_t run_len)
{
    return __real_kyrla_from_offset(column, row, mode, orientation, run, run_len + (made == FROM_OFFSET_RUN));
}

int64_t __wrap_kyrla_to_doubled(int32_t x, int32_t y, uint32_t mode, int32_t *run, size_t run_len)
{
    return __real_kyrla_to_doubled(x, y, mode, run, run_len + (made == TO_DOUBLED_RUN));
}

int64_t __wrap_kyrla_from_doubled(int32_t column, int32_t row, uint32_t mode, int32_t *run, size_t run_len)
{
    return __real_kyrla_from_doubled(column, row, mode, run, run_len + (made == FROM_DOUBLED_RUN));
}
