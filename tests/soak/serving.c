#define _GNU_SOURCE
#include "serving.h"

#include <fcntl.h>
#include <inttypes.h>
#include <signal.h>
#include <stdarg.h>
#include <stdio.h>
#include <stdlib.h>
#include <string.h>
#include <sys/prctl.h>
#include <sys/stat.h>
#include <sys/wait.h>
#include <unistd.h>

#define TURN_US 5000
#define START_TURNS 4000
#define STOP_TURNS 4000

static const char *program;
static char said[512], dryer[512], settings[600];
static pid_t owner, process; /* this one's id, and the gateway's while there is one */
static uint16_t port;

void fail(const char *form, ...) {
    va_list rest;
    va_start(rest, form);
    fputs("FAILED: ", stdout);
    vprintf(form, rest);
    va_end(rest);
    puts("");
    exit(1);
}

pid_t fork_child(void) {
    fflush(stdout);
    pid_t parent = getpid(), child = fork();
    if (child < 0) fail("no process can be started");
    if (child) return child;
    prctl(PR_SET_PDEATHSIG, SIGKILL);
    if (getppid() != parent) _exit(1);
    return 0;
}

/* Nothing outlives the soak: other children are killed as it ends, the gateway may be writing and is waited for. */
static void end_gateway(void) {
    if (!process || getpid() != owner) return;
    kill(process, SIGKILL);
    waitpid(process, NULL, 0);
}

static void on_stop(int signal) {
    end_gateway();
    _exit(128 + signal);
}

void serving_begin(const char *p, const char *folder) {
    owner = getpid();
    atexit(end_gateway);
    signal(SIGTERM, on_stop);
    signal(SIGINT, on_stop);
    program = p;
    snprintf(said, sizeof said, "%s/said", folder);
    snprintf(dryer, sizeof dryer, "%s/dryer", folder);
    snprintf(settings, sizeof settings, "%s/settings", dryer);
}

const char *serving_folder(void) { return dryer; }

/* ---- files */

static uint8_t *read_file(const char *name, size_t *count) {
    FILE *f = fopen(name, "rb");
    if (!f) return NULL;
    size_t room = 1 << 16, got;
    uint8_t *bytes = malloc(room + 1);
    *count = 0;
    while (bytes && (got = fread(bytes + *count, 1, room - *count, f)) > 0) {
        *count += got;
        if (*count == room) bytes = realloc(bytes, (room *= 2) + 1);
    }
    if (!bytes || ferror(f)) fail("%s cannot be read", name);
    fclose(f);
    bytes[*count] = 0;
    return bytes;
}

uint8_t *serving_settings(size_t *count) { return read_file(settings, count); }

size_t serving_memory(void) {
    char name[64];
    size_t count, kib = 0;
    snprintf(name, sizeof name, "/proc/%d/status", (int)process);
    char *status = (char *)read_file(name, &count);
    const char *line = status ? strstr(status, "VmRSS:") : NULL;
    if (!line || sscanf(line, "VmRSS: %zu kB", &kib) != 1) fail("the gateway's memory cannot be seen");
    free(status);
    return kib;
}

/* ---- what it says */

/* Anything but its own three lines is a fault: a sanitizer's report, or an error. */
static told read_said(bool *stopped) {
    told t = {0};
    size_t count = 0;
    char *text = (char *)read_file(said, &count), *rest = text, *line;
    *stopped = false;
    while ((line = strsep(&rest, "\n")) != NULL && rest) {
        uint64_t whole, refused;
        size_t taken;
        int end = 0;
        if (!strncmp(line, "listening on ", 13)) continue;
        if (!strcmp(line, "stopped")) {
            *stopped = true;
            continue;
        }
        size_t many = 1;
        char *over = line;
        if (*line >= '0' && *line <= '9') many = strtoul(line, &over, 10); /* a line for several, where there would be too many */
        sscanf(over, many == 1 ? "connection over: %" SCNu64 " whole, %" SCNu64 " refused, %zu request records taken%n"
                               : " connections over: %" SCNu64 " whole, %" SCNu64 " refused, %zu request records taken%n", &whole, &refused, &taken, &end);
        end += (int)(over - line);
        if (end == (int)(over - line) || line[end]) fail("the gateway said: %s\n%s", line, rest);
        if (taken) fail("%zu request records are still taken after a connection's end", taken);
        t.connections += many;
        t.whole += whole;
        t.refused += refused;
    }
    free(text);
    return t;
}

/* ---- its life */

static uint16_t port_said(void) {
    size_t count = 0;
    unsigned found = 0;
    char *text = (char *)read_file(said, &count);
    if (text && strchr(text, '\n')) sscanf(text, "listening on 127.0.0.1:%u,", &found);
    free(text);
    return (uint16_t)found;
}

static void become_gateway(void) {
    char idle[16];
    int file = open(said, O_CREAT | O_TRUNC | O_WRONLY | O_APPEND, 0644);
    snprintf(idle, sizeof idle, "%d", IDLE_SECONDS);
    if (file < 0 || dup2(file, 1) < 0 || dup2(file, 2) < 0) _exit(1);
    execl(program, program, "0", dryer, idle, (char *)NULL);
    _exit(1);
}

void serving_start(void) {
    unlink(said);
    process = fork_child();
    if (!process) become_gateway();
    for (int k = 0; k < START_TURNS && !serving_has_ended(); k++) {
        port = port_said();
        if (port) return;
        usleep(TURN_US);
    }
    fail("the gateway did not start");
}

uint16_t serving_port(void) { return port; }

pid_t serving_process(void) { return process; }

bool serving_has_ended(void) {
    siginfo_t about = {0};
    return !waitid(P_PID, (id_t)process, &about, WEXITED | WNOHANG | WNOWAIT) && about.si_pid == process;
}

/* How it ended. */
static int reap(void) {
    int status = -1;
    waitpid(process, &status, 0);
    process = 0;
    return status;
}

void serving_reap_killed(void) {
    bool stopped;
    int status = reap();
    if (!WIFSIGNALED(status) || WTERMSIG(status) != SIGKILL) fail("the gateway ended before it was killed");
    read_said(&stopped);
}

told serving_stop(size_t *memory) {
    bool stopped;
    sleep(IDLE_SECONDS + 2); /* the two are for a busy machine */
    told idle = read_said(&stopped);
    *memory = serving_memory();
    kill(process, SIGTERM);
    for (int k = 0; k < STOP_TURNS && !serving_has_ended(); k++) usleep(TURN_US);
    if (!serving_has_ended()) fail("the gateway does not stop");
    int status = reap();
    told t = read_said(&stopped);
    if (status || !stopped) fail("the gateway stopped with status %d", status);
    if (t.connections != idle.connections) fail("%zu connections were left after the idle timeout", t.connections - idle.connections);
    return t;
}
