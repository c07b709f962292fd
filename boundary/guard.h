/* Guarded memory: buffers to lend to a call, each flush against pages that may not be touched.
 *
 * The archive is not built with a sanitizer, so none sees what it reads or writes. Pages without access do: one entry too many traps.
 */
#ifndef BOUNDARY_GUARD_H
#define BOUNDARY_GUARD_H

#include <stddef.h>

/* A pen is memory between pages that trap. What a call was not lent of it holds noise, which must be there afterwards. */
struct pen {
    unsigned char *body;
    size_t size;
    unsigned char *noise;
    unsigned char *was;
};

/* The side on which a buffer touches the pages that trap. */
enum side { BEHIND, IN_FRONT, SIDES };

/* A buffer of a pen. `at` is what the call gets; where there are no entries it points into those pages. */
struct lent {
    struct pen *pen;
    void *at;
    size_t entries;
    size_t width;
};

/* Makes room for so many bytes, rounded up to whole pages. */
void pen_make(struct pen *pen, size_t bytes);
void pen_free(struct pen *pen);

/* Lends entries of a width in bytes, full of noise. */
struct lent pen_lend(struct pen *pen, enum side side, size_t entries, size_t width);

/* Lends a table that is only read: the data, as many of them as there are and as fit, then noise. Until the pen is opened a write to it
 * traps. */
struct lent pen_lend_table(struct pen *pen, enum side side, size_t entries, size_t width, const void *data, size_t count);
void pen_open(struct pen *pen);

/* Whether all of the pen is as it was, but for the first entries of the buffer, so many of them. */
int lent_kept(const struct lent *lent, size_t written);

#endif
