/* Makes one slip, by number, and runs the part of the program that must notice it; 0 makes none and runs all parts. Without a number it
 * prints how many slips there are. */
#include <stdio.h>
#include <stdlib.h>

#include "../parts.h"
#include "../tally.h"
#include "slips.h"

enum slip made = NO_SLIP;

struct row {
    const char *text;
    void (*part)(void);
};

#define SLIP_ROW(name, text, part) {text, part},
static const struct row ROWS[] = {{"no slip", ask_all}, SLIPS(SLIP_ROW)};
#undef SLIP_ROW

int main(int count, char **words)
{
    if (count < 2) {
        printf("%d\n", SLIPS_END - 1);
        return 0;
    }
    long number = strtol(words[1], NULL, 10);
    if (number < 0 || number >= SLIPS_END) {
        return 2;
    }
    made = (enum slip)number;
    printf("%s\n", ROWS[number].text);
    tally_watch();
    ROWS[number].part();
    return tally_end() ? 0 : 1;
}
