/* The tally: how many calls were made of each kind and how many were wrong, and what the one that is under way was asked. */
#ifndef BOUNDARY_TALLY_H
#define BOUNDARY_TALLY_H

#include <stddef.h>
#include <stdint.h>

/* From here on a call that touches what it may not ends the program with a line that names the call. */
void tally_watch(void);

/* Names the call that the questions below are put to, and prints the line of the one before. */
void tally_begin(const char *call);

/* Notes a question before it is put: its arguments as in the header, of a buffer the length alone. */
void tally_asked(const int64_t *arguments, size_t count);
#define TALLY_ASKED(...) \
    tally_asked((const int64_t[]){__VA_ARGS__}, sizeof((const int64_t[]){__VA_ARGS__}) / sizeof(int64_t))

/* Notes whether the question was answered as it should be. */
void tally_judged(int right);

/* Prints the last line and the sum. Tells whether nothing was wrong. */
int tally_end(void);

#endif
