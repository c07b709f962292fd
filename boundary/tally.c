/* The tally of calls: see tally.h. */
#define _DEFAULT_SOURCE
#include "tally.h"

#include <inttypes.h>
#include <signal.h>
#include <stdio.h>
#include <string.h>
#include <unistd.h>

/* More wrong answers than these are counted and not shown. */
enum { SHOWN = 5, MOST_ARGUMENTS = 16 };

static const char *name = NULL;
static int64_t asked[MOST_ARGUMENTS];
static size_t asked_count = 0;
static long calls = 0;
static long wrong = 0;
static long all_calls = 0;
static long all_wrong = 0;

static void show(const char *what)
{
    printf("%s: %s(", what, name == NULL ? "no call" : name);
    for (size_t at = 0; at < asked_count; at++) {
        printf("%s%" PRId64, at == 0 ? "" : ", ", asked[at]);
    }
    printf(")\n");
}

/* The archive uses nothing of the C library but copying and filling, so printing is safe where it trapped. */
static void trapped(int number)
{
    (void)number;
    show("touched what it may not");
    printf("trapped at call %ld\n", all_calls + calls + 1);
    fflush(stdout);
    _exit(1);
}

void tally_watch(void)
{
    struct sigaction action;
    memset(&action, 0, sizeof action);
    action.sa_handler = trapped;
    sigaction(SIGSEGV, &action, NULL);
    sigaction(SIGBUS, &action, NULL);
}

static void print_line(void)
{
    if (name != NULL) {
        printf("%-20s %8ld calls, %ld wrong\n", name, calls, wrong);
        fflush(stdout);
    }
    all_calls += calls;
    all_wrong += wrong;
    calls = 0;
    wrong = 0;
}

void tally_begin(const char *call)
{
    print_line();
    name = call;
    asked_count = 0;
}

void tally_asked(const int64_t *arguments, size_t count)
{
    asked_count = count < MOST_ARGUMENTS ? count : MOST_ARGUMENTS;
    memcpy(asked, arguments, asked_count * sizeof *asked);
}

void tally_judged(int right)
{
    calls++;
    if (!right) {
        wrong++;
        if (wrong <= SHOWN) {
            show("wrong");
        }
    }
}

int tally_end(void)
{
    print_line();
    printf("%ld calls, %ld wrong\n", all_calls, all_wrong);
    return all_wrong == 0;
}
