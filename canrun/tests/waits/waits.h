/* Kinds of waits, as tables of small cases. Each case runs in a separate process, and prints its duration and its
 * result. */
#ifndef WAITS_H
#define WAITS_H

#ifndef _GNU_SOURCE
#define _GNU_SOURCE
#endif

#include <errno.h>
#include <signal.h>
#include <stdbool.h>
#include <stdint.h>
#include <stdio.h>
#include <stdlib.h>
#include <string.h>
#include <time.h>
#include <unistd.h>

/* The awaited event occurs after SOON milliseconds. A wait without an event has the timeout SOON, and a wait that must
 * end early has the timeout LONG. */
#define SOON 30
#define LONG 4000

struct wait {
    const char *name;
    int ms; /* the expected length */
    void (*call)(void);
};

/* The tables of waits. Every table ends with an entry without a name. */
extern const struct wait sleeps[], polls[], signals[], awaited[], signalfds[], cancels[], locks[], conditions[],
    threads[], timers[], timerfds[], files[], queues[], sockets[], processes[], by_number[];

/* `begin` starts the measurement. `end` stops it, and stores the result of the call and its errno. */
void begin(void);
void end(long result);
/* Ends the measurement of a call that returns its error number. */
void ends_with(int error);

/* Appends to the result that is printed. */
void note(const char *format, ...) __attribute__((format(printf, 1, 2)));

/* `in_ms` returns a duration. `after_ms` returns the time after this duration on this clock. */
struct timespec in_ms(int ms);
struct timespec after_ms(clockid_t id, int ms);

/* Calls this function in another thread after `ms` milliseconds. */
void later(int ms, void (*call)(void *), void *of);

/* Sends SIGALRM after `ms` milliseconds. The handler has these flags, and counts the signals. */
void alarm_in(int ms, int flags);
extern volatile sig_atomic_t alarms;

/* `make_pipe` makes a pipe. `write_byte` and `close_it` are functions for `later`. */
void make_pipe(int ends[2]);
void write_byte(void *fd);
void close_it(void *fd);

#define CHECK(is_so)                                        \
    do {                                                    \
        if (!(is_so)) {                                     \
            note("line %d: %s", __LINE__, strerror(errno)); \
            _exit(1);                                       \
        }                                                   \
    } while (0)

#endif
