/* A run in virtual time: `canbusd-run --virtual`. */
#ifndef COORDINATOR_H
#define COORDINATOR_H

#include <stdint.h>
#include <sys/types.h>

struct virtual_options {
    uint64_t epoch;  /* the time of the start, in nanoseconds since 1970 */
    uint64_t until;  /* the end of the run, in nanoseconds of virtual time; UINT64_MAX: no end */
    double stall;    /* how many seconds the run may make no progress */
    uint64_t seed;   /* 0: threads continue in the order of their births */
    uint64_t jitter; /* the largest number of nanoseconds by which a wait is extended */
};

/* Runs the program in this file with these arguments, and all programs that it starts. Returns the exit status. */
int virtual_run(const struct virtual_options *options, const char *file, char **words);

/* Runs a child that the caller has already forked, and all programs that the child starts. Returns the exit status. The
 * child gets the settings of the run through a pipe; `settings` is the write end of that pipe. Each setting is
 * NAME=VALUE followed by a NUL. */
int virtual_run_child(const struct virtual_options *options, pid_t child, int settings);

#endif
