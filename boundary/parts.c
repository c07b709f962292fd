/* The parts of the program, one after the other: see parts.h. */
#include "parts.h"

void ask_all(void)
{
    ask_numbers();
    ask_lists();
    ask_pairs();
    ask_ranges();
    ask_checks();
    ask_routes();
}
