/* Puts questions to every call for C, with lent memory that traps one entry past its ends, and tells how many were answered wrong. */
#include "parts.h"
#include "tally.h"

int main(void)
{
    tally_watch();
    ask_all();
    return tally_end() ? 0 : 1;
}
