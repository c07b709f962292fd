/* The parts of the program: each puts questions to some of the calls and notes the answers in the tally. */
#ifndef BOUNDARY_PARTS_H
#define BOUNDARY_PARTS_H

void ask_numbers(void);
void ask_lists(void);
void ask_pairs(void);
void ask_ranges(void);
void ask_checks(void);
void ask_routes(void);

/* All of them, in this order. */
void ask_all(void);

#endif
