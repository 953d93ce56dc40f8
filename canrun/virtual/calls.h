/* Declarations that the source files of this library share. The library's functions replace calls of the C library. */
#ifndef CALLS_H
#define CALLS_H

#include "raw.h"
#include "turns.h"

#include <dlfcn.h>
#include <poll.h>
#include <pthread.h>
#include <signal.h>
#include <stddef.h>
#include <stdint.h>
#include <sys/socket.h>
#include <sys/types.h>
#include <time.h>

#define EXPORT __attribute__((visibility("default")))
/* Exports the function that is defined before this line under another name of the C library. */
#define ALSO(name, of) EXPORT __typeof__(of) also_##name __asm__(#name) __attribute__((alias(#of), copy(of)));
/* The bridge is linked with clock.c and descriptors.c by means of --wrap, so that it can be linked statically. */
#ifdef FOR_BRIDGE
#define CALL(name) __wrap_##name
#else
#define CALL(name) name
#endif

/* Finds the C library's function with this name and stores it in a variable `real`. */
#define REAL(name)                                         \
    static __typeof__(&name) real;                         \
    if (!real) {                                           \
        real = (__typeof__(&name))dlsym(RTLD_NEXT, #name); \
    }

/* length_of converts a timespec to nanoseconds. is_proper returns whether a timespec is a valid duration. */
static inline uint64_t length_of(const struct timespec *t) {
    return (uint64_t)t->tv_sec >= NEVER / SECOND / 2 ? NEVER / 2 : (uint64_t)t->tv_sec * SECOND + (uint64_t)t->tv_nsec;
}
static inline bool is_proper(const struct timespec *t) {
    return t->tv_sec >= 0 && t->tv_nsec >= 0 && t->tv_nsec < (long)SECOND;
}
/* Returns whether a timespec is a valid point in time, which may be before 1970. */
static inline bool is_proper_moment(const struct timespec *t) {
    return t->tv_nsec >= 0 && t->tv_nsec < (long)SECOND;
}
static inline struct timespec spec_of(uint64_t n) {
    return (struct timespec){(time_t)(n / SECOND), (long)(n % SECOND)};
}

/* The timeout for calls that must not wait. The kernel writes the remaining time here, which is zero. */
__attribute__((unused)) static struct timespec no_time;

/* ---- cancel.c ---- */

#ifdef FOR_BRIDGE
static inline void cancel_point(void) {
}
#else
/* Whether any thread of this process has been cancelled. */
extern bool may_be_cancelled;
/* Ends this thread if it was cancelled and cancellation is enabled. The caller must not hold anything that requires
 * cleanup. */
static inline void cancel_point(void) {
    if (may_be_cancelled) {
        pthread_testcancel();
    }
}
#endif
/* Calls wait_turn in a function that is a cancellation point. A thread with cancellation disabled continues to wait. */
uint32_t wait_turn_or_cancel(uint64_t deadline, uint64_t key, enum kind kind);
/* Returns whether an event ends the wait of a call that is restarted after a handler with SA_RESTART. */
static inline bool ends_wait(uint32_t flags) {
    return flags & IS_INTERRUPTED && my.has_to_return;
}

/* ---- clock.c ---- */

bool is_of_day(clockid_t id);
/* Converts a time of this clock to virtual time. */
uint64_t moment_of(clockid_t id, const struct timespec *t);
/* Counts that this thread has read the clock, or has polled for something that is not ready. Virtual time passes if a
 * thread does so repeatedly. */
void looked(void);
/* Removes the last clock read or poll from that count, because it was not part of a wait. */
void forget_look(void);

/* ---- descriptors.c ---- */

/* Waits until one of these descriptors may be ready. Returns the flags of wait_turn. */
uint32_t wait_for(const struct pollfd *fds, nfds_t count, uint64_t deadline);
/* Waits until an epoll may be ready. note_entry records that an epoll contains this descriptor. */
uint32_t wait_for_epoll(int fd, uint64_t deadline);
void note_entry(int fd);
/* Asks the kernel which of these descriptors are ready now, and returns the kernel's result. */
long look_at(struct pollfd *fds, nfds_t count);
/* Waits once more in a blocking call on a descriptor. Returns false and sets errno if the timeout has passed, a signal
 * has arrived, or the descriptor does not block. `deadline` is 0 in the first call. */
bool await_later(int fd, short events, uint64_t *deadline);
/* Waits until a blocking call on a descriptor can be performed. Returns false and sets errno if the timeout has passed
 * or a signal has arrived. */
bool await_ready(int fd, short events, int flags);
/* Waits until a blocking call on a descriptor can be performed, or until this deadline. */
bool await_until(int fd, short events, uint64_t deadline);
/* Does recvfrom. */
ssize_t receive(int fd, void *data, size_t length, int flags, struct sockaddr *from, socklen_t *room);
/* Returns the deadline according to SO_RCVTIMEO or SO_SNDTIMEO, which the kernel stores. */
uint64_t timeout_of(int fd, short events);
/* Records, in the child of a fork, that the epoll contains none of the child's descriptors. */
void descriptors_forget(void);
/* Removes all descriptors from the run's epoll, so that no epoll of a program stays there without a waiting thread. */
void descriptors_leave(void);
/* Returns the deadline of a wait of this many milliseconds; -1 means no deadline. */
uint64_t after_ms(int ms);

/* ---- kernel_waits.c ---- */

/* Repeats a system call until it does not return `would_wait`, the error of a call that would block. Returns the call's
 * result, -EINTR or -ETIMEDOUT. `restarts` means that the call is restarted after a handler with SA_RESTART. */
long try_until(long (*call)(void *), void *given, int would_wait, uint64_t deadline, bool restarts);

/* ---- mappings.c ---- */

/* Returns the key of a memory location. The key is the same in all processes that share the memory. For private memory
 * it is the result of key_of. */
uint64_t key_of_any(const volatile void *at, uint64_t salt);

/* ---- signals.c ---- */

/* The state that set_mask saves when it replaces the signal mask during a wait. put_mask_back restores the mask.
 * `handled` is the value of my.handled before the wait. */
struct masked {
    sigset_t before;
    uint32_t handled;
    bool is_set;
};
struct masked set_mask(const sigset_t *mask);
void put_mask_back(const struct masked *masked);
void start_signals(void);
/* Records that a signal has been sent to a process, to a group (0 or a negative number), or to all processes that this
 * process may signal (-1). */
void signal_sent(pid_t pid, int number);

/* ---- signalfds.c ---- */

/* has_signalfds returns whether this process may have a signalfd, and signalfds_note records that it has one.
 * is_signalfd returns whether this descriptor is a signalfd. */
bool has_signalfds(void);
void signalfds_note(void);
bool is_signalfd(int fd);
/* Adds this process's signalfds to an epoll again, because another process may have polled the epoll and found no
 * signal. */
void signalfds_look(int epoll);

/* ---- timerfds.c ---- */

/* timers_due returns when the next timerfd of this process is due. timers_fire handles the timerfds that are due. */
uint64_t timers_due(void);
void timers_fire(void);
/* Called before a read of a descriptor that may be a timerfd. */
void timers_read(int fd);
/* Called after a descriptor that may have been a timerfd was closed. */
void timers_closed(int fd);
/* Finds the timerfds and signalfds that were open before the program began, or that were received in a message. */
void timers_find(void);

/* ---- timers.c ---- */

struct itimerspec left_of(uint64_t deadline, uint64_t period);
uint64_t deadline_for(clockid_t id, const struct itimerspec *value, bool is_absolute);
/* Returns how often a timer has expired by now, and moves its deadline to the next expiry. */
uint64_t take_due(uint64_t *deadline, uint64_t period);

/* ---- futex.c ---- */

long futex(long word, long operation, long value, long fourth, long fifth, long sixth);

/* ---- threads.c, processes.c ---- */

/* Waits for a child as the C library does. The C library waits inside the kernel, where this library does not see it.
 */
long wait_for_child(int number, long pid, int *status, int options, void *usage);
/* Prepares the first thread of a program as later threads are prepared. */
void begin_first_thread(void);
/* Marks the robust mutexes of a thread that ends, so that their next owner gets EOWNERDEAD. */
void leave_mutexes(void);
/* Creates a child with this system call, or with _Fork if the number is -1. */
pid_t fork_by(long number, const long of[6]);

#endif
