/* Reads information about processes and threads from /proc. */
#ifndef PROC_H
#define PROC_H

#include <stdbool.h>
#include <stddef.h>
#include <stdint.h>

/* Reads /proc/PID/task/TID/NAME, or /proc/PID/NAME if tid is 0. Returns the number of bytes, or 0 if there is no such
 * file. */
size_t proc_read(uint32_t pid, uint32_t tid, const char *name, char *text, size_t room);

/* Returns the letter of the thread's state, as in proc(5), or X if the thread has ended. */
char proc_state(uint32_t pid, uint32_t tid);

/* Returns the parent of a process, or 0 if there is no such process. */
uint32_t proc_parent(uint32_t pid);

/* Returns whether a process is a descendant of `top`, or is `top` itself. */
bool proc_is_below(uint32_t pid, uint32_t top);

/* How long a thread has run and how long it has waited for a processor, in nanoseconds, and how often it was scheduled.
 */
struct usage {
    uint64_t run, waited, times;
};
struct usage proc_usage(uint32_t pid, uint32_t tid);

/* proc_tracer returns the tracer of this process, or 0. proc_is_of_user returns whether a process has the privileges of
 * this user. */
uint32_t proc_tracer(uint32_t pid);
bool proc_is_of_user(uint32_t pid, uint32_t user);

/* Returns whether a signal that is not blocked is pending for this process. */
bool proc_has_signal(uint32_t pid);

#endif
