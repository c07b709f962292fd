/* Guarded memory, by mapped pages: see guard.h. */
#define _DEFAULT_SOURCE
#include "guard.h"

#include <stdint.h>
#include <stdio.h>
#include <stdlib.h>
#include <string.h>
#include <sys/mman.h>
#include <unistd.h>

/* So many bytes trap on either side: from a buffer's first entry on, whatever 32-bit number a call might take for an index, signed or
 * not, of entries of up to 8 bytes. They are addresses alone and take no memory. */
#define GUARD ((size_t)1 << 35)

static void stop(const char *what)
{
    perror(what);
    exit(1);
}

static void protect(const struct pen *pen, int access)
{
    if (mprotect(pen->body, pen->size, access) != 0) {
        stop("mprotect");
    }
}

/* Numbers that repeat nowhere near, so that an entry copied from its neighbour shows. */
static void make_noise(unsigned char *noise, size_t size)
{
    uint32_t state = 2463534242u;
    for (size_t at = 0; at < size; at++) {
        state ^= state << 13;
        state ^= state >> 17;
        state ^= state << 5;
        noise[at] = (unsigned char)(state >> 11);
    }
}

void pen_make(struct pen *pen, size_t bytes)
{
    size_t page = (size_t)sysconf(_SC_PAGESIZE);
    pen->size = (bytes + page - 1) / page * page;
    unsigned char *all = mmap(NULL, pen->size + 2 * GUARD, PROT_NONE, MAP_PRIVATE | MAP_ANONYMOUS | MAP_NORESERVE, -1, 0);
    if (all == MAP_FAILED) {
        stop("mmap");
    }
    pen->body = all + GUARD;
    pen_open(pen);
    pen->noise = malloc(pen->size);
    pen->was = malloc(pen->size);
    if (pen->noise == NULL || pen->was == NULL) {
        stop("malloc");
    }
    make_noise(pen->noise, pen->size);
}

void pen_free(struct pen *pen)
{
    munmap(pen->body - GUARD, pen->size + 2 * GUARD);
    free(pen->noise);
    free(pen->was);
}

void pen_open(struct pen *pen)
{
    protect(pen, PROT_READ | PROT_WRITE);
}

/* An empty buffer in front lies in the middle of what traps, so that a step to either side of it traps too. */
static unsigned char *place(const struct pen *pen, enum side side, size_t bytes)
{
    if (side == BEHIND) {
        return pen->body + pen->size - bytes;
    }
    return bytes == 0 ? pen->body - GUARD / 2 : pen->body;
}

struct lent pen_lend(struct pen *pen, enum side side, size_t entries, size_t width)
{
    if (entries > pen->size / width) {
        fprintf(stderr, "A pen is too small for %zu entries.\n", entries);
        exit(1);
    }
    memcpy(pen->body, pen->noise, pen->size);
    memcpy(pen->was, pen->noise, pen->size);
    return (struct lent){pen, place(pen, side, entries * width), entries, width};
}

struct lent pen_lend_table(struct pen *pen, enum side side, size_t entries, size_t width, const void *data, size_t count)
{
    struct lent lent = pen_lend(pen, side, entries, width);
    size_t bytes = (entries < count ? entries : count) * width;
    if (bytes != 0) {
        memcpy(lent.at, data, bytes);
        memcpy(pen->was + ((unsigned char *)lent.at - pen->body), data, bytes);
    }
    protect(pen, PROT_READ);
    return lent;
}

int lent_kept(const struct lent *lent, size_t written)
{
    const struct pen *pen = lent->pen;
    if (written == 0) {
        return memcmp(pen->body, pen->was, pen->size) == 0;
    }
    size_t from = (size_t)((unsigned char *)lent->at - pen->body);
    size_t to = from + written * lent->width;
    return memcmp(pen->body, pen->was, from) == 0 && memcmp(pen->body + to, pen->was + to, pen->size - to) == 0;
}
