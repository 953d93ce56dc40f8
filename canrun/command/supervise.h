/* Declarations that the supervisor's source files share; see static.h. */
#ifndef SUPERVISE_H
#define SUPERVISE_H

#include <linux/seccomp.h>
#include <stdbool.h>
#include <stddef.h>
#include <stdint.h>
#include <sys/time.h>
#include <sys/types.h>

/* A system call of the program, which waits for the supervisor's reply. */
struct call {
    int listener;
    const struct seccomp_notif *asked;
    pid_t thread, process;
    int fd; /* a copy of the program's descriptor */
    const __u64 *words;
};

/* ---- remote.c: the program's memory and descriptors ---- */

/* Copy from or to the program's memory. Return false if the address is invalid. */
bool take(const struct call *call, void *here, uint64_t there, size_t length);
bool give(const struct call *call, uint64_t there, const void *here, size_t length);

/* Converts the result of a library call to the kernel's convention, in which a failure is a negative errno. */
int64_t result(int64_t value);

/* `reply` replies to the call. `let_go_on` lets the kernel make the call. */
void reply(const struct call *call, int64_t value, uint32_t flags);
void let_go_on(const struct call *call);

/* is_waited_for returns whether the program still waits for the call. has_signal returns whether the program's thread
 * has a pending signal that is neither blocked nor ignored. */
bool is_waited_for(const struct call *call);
bool has_signal(const struct call *call);

/* Returns whether the program of this thread loads the library, and so makes its calls itself. */
bool has_library(pid_t thread);

/* Returns the process to which a thread belongs. */
pid_t process_of(pid_t thread);

/* Copies a file descriptor of a process. Returns -1 with errno set if the process has no such descriptor, or this
 * process is not allowed to copy it. */
int copy_descriptor(pid_t process, int fd);

/* ---- parcels.c ---- */

/* Waits until the socket is readable or writable. Returns 0, or the negative errno that ends the call if a signal
 * arrives or `limit` has passed. */
int64_t wait_for(const struct call *call, short events, const struct timeval *limit);

/* Makes a system call that sends or receives a message. */
int64_t carry_message(const struct call *call, bool sends);

#endif
