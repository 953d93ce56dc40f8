/* The coordinator's messages, on standard error. */
#ifndef MESSAGES_H
#define MESSAGES_H

#include "run.h"

#include <stdbool.h>
#include <stddef.h>

/* The real clock, in seconds. */
double real_now(void);

/* Prints a line with the run's time. */
void say(const char *format, ...) __attribute__((format(printf, 1, 2)));

/* Prints a line, but only once for each combination of process and message. */
void say_once(uint32_t pid, const char *format, ...) __attribute__((format(printf, 2, 3)));

/* Prints a line, and ends the run with status 125. */
void fail(const char *format, ...) __attribute__((format(printf, 1, 2)));

/* Prints the notices of programs: see tell.h. */
void say_notices(void);

/* Describes a thread by its name, process ID and thread ID. */
const char *who(uint32_t pid, uint32_t tid);

/* Lists at most ten waiting threads, each with the reason for its wait. */
void say_waits(void);

#endif
