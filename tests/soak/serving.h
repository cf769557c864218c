/* The gateway as a process under test: started, killed, stopped, and held to what it says. A failure of any kind ends the soak. */
#ifndef SOAK_SERVING_H
#define SOAK_SERVING_H

#include <stdbool.h>
#include <stddef.h>
#include <stdint.h>
#include <sys/types.h>

#define IDLE_SECONDS 4

/* Prints what failed, and ends the process with status 1. Whatever was started by it dies with it. */
__attribute__((noreturn, format(printf, 1, 2))) void fail(const char *form, ...);

/* In a folder that exists. */
void serving_begin(const char *program, const char *folder);
const char *serving_folder(void); /* where the settings file is */

void serving_start(void); /* returns when it listens */
uint16_t serving_port(void);
pid_t serving_process(void);
bool serving_has_ended(void);

/* Forks a process that dies with this one: 0 in it, else its id. */
pid_t fork_child(void);

/* The bytes of the settings file, the caller's to free; NULL if there is none. */
uint8_t *serving_settings(size_t *count);

/* Its memory now, in KiB (VmRSS). */
size_t serving_memory(void);

/* What a life of the gateway said of its connections. */
typedef struct {
    size_t connections;
    uint64_t whole, refused;
} told;

/* After it was killed, and by nothing else. */
void serving_reap_killed(void);

/* Waits until the clients are forgotten, then stops it by SIGTERM. `memory` gets what was in use before that. */
told serving_stop(size_t *memory);

#endif
