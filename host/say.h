/* What the gateway says of itself, a line at a time. It never waits for a reader and never floods one: beyond some lines a second, and where nobody reads,
   lines are left out and counted. */
#ifndef SAY_H
#define SAY_H

#include <stdbool.h>
#include <stdint.h>

/* A measure of lines: so many at once, and so many more each second. It begins as zero. */
struct measure {
    uint64_t filled; /* when, by a clock of seconds */
    unsigned left;
    unsigned long left_out; /* lines since the last that went out */
};

#define LINES_A_SECOND 20
#define LINES_AT_ONCE 200

/* Whether one more line is within the measure; if not, it is counted as left out. */
bool measure_allows(struct measure *m);

/* Whether a line would go out now. */
bool say_is_heard(void);

/* A line on standard output, at most 500 bytes of it. */
void say(const char *form, ...) __attribute__((format(printf, 1, 2)));

/* A line that is within any measure. */
void say_last(const char *line);

#endif
