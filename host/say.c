#define _GNU_SOURCE
#include "say.h"

#include <poll.h>
#include <stdarg.h>
#include <stdio.h>
#include <time.h>
#include <unistd.h>

static void fill(struct measure *m) {
    struct timespec t;
    clock_gettime(CLOCK_MONOTONIC, &t);
    uint64_t at = (uint64_t)t.tv_sec + LINES_AT_ONCE, more = (at - m->filled) * LINES_A_SECOND; /* a fresh measure is full at once */
    m->filled = at;
    m->left = more > LINES_AT_ONCE - m->left ? LINES_AT_ONCE : m->left + (unsigned)more;
}

bool measure_allows(struct measure *m) {
    fill(m);
    if (!m->left) {
        m->left_out++;
        return false;
    }
    m->left--;
    return true;
}

/* A pipe that is ready has room for 4,096 bytes, so that the line is written as a whole. */
static bool is_read(void) {
    struct pollfd out = {.fd = STDOUT_FILENO, .events = POLLOUT};
    return poll(&out, 1, 0) == 1 && out.revents & POLLOUT && !(out.revents & (POLLERR | POLLHUP));
}

static struct measure measure;

bool say_is_heard(void) {
    fill(&measure);
    return measure.left && is_read();
}

static bool put(const char *line, int count) { return count > 0 && is_read() && write(STDOUT_FILENO, line, (size_t)count) == count; }

__attribute__((format(printf, 1, 0))) static void put_line(const char *form, va_list rest) {
    char line[512];
    int n = vsnprintf(line, sizeof line - 1, form, rest);
    if (n < 0) return;
    if (n > (int)sizeof line - 2) n = (int)sizeof line - 2;
    line[n++] = '\n';
    if (!put(line, n)) measure.left_out++;
}

static void put_left_out(void) {
    char line[64];
    if (measure.left_out && put(line, snprintf(line, sizeof line, "%lu lines left out\n", measure.left_out))) measure.left_out = 0;
}

void say(const char *form, ...) {
    if (!measure_allows(&measure)) return;
    put_left_out();
    va_list rest;
    va_start(rest, form);
    put_line(form, rest);
    va_end(rest);
}

void say_last(const char *line) {
    measure.left = 2; /* for this one there is always room */
    say("%s", line);
}
