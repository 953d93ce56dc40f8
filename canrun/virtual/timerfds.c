/* Timers that programs read. The descriptor of such a timer is a kernel timerfd that never runs; the timerfd's interval
 * contains the number of the run's timer. When the timer expires, a process with the descriptor writes the number of
 * expirations into the timerfd. That call fails for any other file, so no data is written to a file that now has the
 * same descriptor number. */
#define _GNU_SOURCE
#include "calls.h"
#include "tell.h"

#include <dirent.h>
#include <pthread.h>
#include <stdlib.h>
#include <sys/ioctl.h>
#include <sys/timerfd.h>
#include <unistd.h>

#ifndef TFD_IOC_SET_TICKS
#define TFD_IOC_SET_TICKS _IOW('T', 0, uint64_t)
#endif
/* The interval has this many seconds, and the timer's number as nanoseconds. No program uses an interval of 126 years.
 */
#define OURS 4000000000
/* The limit at which the part of the number above the index starts again at zero. */
#define MOST_NUMBERS 900000

/* The timers for which this process has descriptors. Each entry contains one descriptor of its timer. */
static struct {
    int fd;
    uint32_t number;
} known[TIMERS];
static int known_count;

static struct timer *timer_of_number(uint32_t number) {
    struct timer *timer = &run->timers[number % TIMERS];
    return number && timer->number == number ? timer : NULL;
}

/* Returns the number of a descriptor's timer, or 0 if the descriptor has no timer. */
static uint32_t number_of(int fd) {
    struct itimerspec value;
    bool is_one = !RAW(SYS_timerfd_gettime, fd, &value) && value.it_interval.tv_sec == OURS;
    return is_one ? (uint32_t)value.it_interval.tv_nsec : 0;
}

static void know(int fd, uint32_t number) {
    for (int i = 0; i < known_count; i++) {
        if (known[i].number == number) {
            return;
        }
    }
    if (known_count < TIMERS) {
        known[known_count].fd = fd;
        known[known_count++].number = number;
    }
}

static void forget(int i) {
    known[i] = known[--known_count];
}

/* Calls `is_it` for each descriptor of this process until `is_it` returns true. Returns that descriptor, or -1. */
static int find_descriptor(bool (*is_it)(int fd, uint32_t number), uint32_t number) {
    int found = -1;
    DIR *folder = opendir("/proc/self/fd");
    for (struct dirent *entry; folder && found < 0 && (entry = readdir(folder));) {
        int fd = atoi(entry->d_name);
        found = entry->d_name[0] != '.' && is_it(fd, number) ? fd : -1;
    }
    if (folder) {
        closedir(folder);
    }
    return found;
}

static bool has_number(int fd, uint32_t number) {
    return number_of(fd) == number;
}

/* Returns whether this process still has a descriptor of the timer at this index. */
static bool is_there(int i) {
    if (number_of(known[i].fd) != known[i].number) {
        known[i].fd = find_descriptor(has_number, known[i].number);
    }
    return known[i].fd >= 0;
}

uint64_t timers_due(void) {
    uint64_t due = NEVER;
    for (int i = 0; i < known_count; i++) {
        struct timer *timer = timer_of_number(known[i].number);
        /* After a timer has expired, it causes no further event until it is read. */
        due = timer && timer->deadline > run->now && timer->deadline < due ? timer->deadline : due;
    }
    return due;
}

static bool is_unread(int fd) {
    struct pollfd polled = {fd, POLLIN, 0};
    return RAW(SYS_ppoll, &polled, 1, &no_time, NULL, 8) > 0;
}

static void fire(int fd, struct timer *timer, bool is_more) {
    uint64_t times = take_due(&timer->deadline, timer->period);
    timer->unread = times + (is_more ? timer->unread : 0);
    if (RAW(SYS_ioctl, fd, TFD_IOC_SET_TICKS, &timer->unread)) {
        tell(true, "%.60s (process %ld) has a timerfd, for which the kernel has no TFD_IOC_SET_TICKS",
             program_invocation_short_name, RAW(SYS_getpid, 0));
    }
}

void timers_fire(void) {
    for (int i = 0; i < known_count; i++) {
        struct timer *timer = timer_of_number(known[i].number);
        if (timer && timer->deadline > run->now) {
            continue;
        }
        if (!timer || !is_there(i)) {
            forget(i--);
        } else if (!is_unread(known[i].fd)) {
            fire(known[i].fd, timer, false);
        }
    }
}

void timers_read(int fd) {
    struct timer *timer = known_count ? timer_of_number(number_of(fd)) : NULL;
    if (timer && timer->deadline <= run->now) {
        fire(fd, timer, is_unread(fd));
        wake_descriptors(timer->is_shared ? 0 : my_slot()->pid);
    }
}

/* Returns the time until the next expiry, and the interval. */
static struct itimerspec next_of(const struct timer *timer) {
    uint64_t deadline = timer->deadline;
    take_due(&deadline, timer->period);
    return left_of(deadline, timer->period);
}

void timers_closed(int fd) {
    for (int i = 0; i < known_count; i++) {
        struct timer *timer = known[i].fd == fd ? timer_of_number(known[i].number) : NULL;
        if (timer && !is_there(i)) {
            timer->number = timer->is_shared ? timer->number : 0;
            forget(i);
            return;
        }
    }
}

/* Registers a descriptor from another process, if it belongs to a timer. */
static bool adopt(int fd, uint32_t nothing) {
    (void)nothing;
    struct timer *timer = timer_of_number(number_of(fd));
    if (timer) {
        timer->is_shared = 1;
        know(fd, timer->number);
    }
    if (run->has_signalfds && is_signalfd(fd)) {
        signalfds_note();
    }
    return false;
}

void timers_find(void) {
    if (run->timer_count || run->has_signalfds) {
        find_descriptor(adopt, 0);
    }
}

/* ---- calls ---- */

/* Takes a free timer, or returns NULL if there is none. */
static struct timer *new_timer(void) {
    static const uint32_t taken = UINT32_MAX;
    for (uint32_t i = 0; i < TIMERS; i++) {
        struct timer *timer = &run->timers[i];
        uint32_t none = 0;
        if (!timer->number && __atomic_compare_exchange_n((uint32_t *)&timer->number, &none, taken, 0, __ATOMIC_SEQ_CST,
                                                          __ATOMIC_SEQ_CST)) {
            uint32_t number = (1 + run->timer_count++ % MOST_NUMBERS) * TIMERS + i;
            timer->owner = (uint32_t)RAW(SYS_getpid, 0);
            timer->is_shared = 0;
            timer->deadline = NEVER;
            timer->period = timer->unread = 0;
            timer->number = number;
            return timer;
        }
    }
    return NULL;
}

/* Stops the kernel's timer and clears its expirations. */
static long make_still(int fd, uint32_t number) {
    struct itimerspec still = {{OURS, number}, {0, 0}};
    return RAW(SYS_timerfd_settime, fd, 0, &still, NULL);
}

EXPORT int timerfd_create(clockid_t id, int flags) {
    int fd = (int)RAW(SYS_timerfd_create, id, flags);
    struct timer *timer = run && fd >= 0 ? new_timer() : NULL;
    if (!run || fd < 0) {
        return (int)answer(fd);
    }
    if (!timer) {
        RAW(SYS_close, fd);
        return errno = EMFILE, -1;
    }
    timer->clock = id;
    make_still(fd, timer->number);
    know(fd, timer->number);
    return fd;
}

EXPORT int timerfd_settime(int fd, int flags, const struct itimerspec *value, struct itimerspec *old) {
    struct timer *timer = run ? timer_of_number(number_of(fd)) : NULL;
    if (!timer) {
        return (int)answer(RAW(SYS_timerfd_settime, fd, flags, value, old));
    }
    if (!is_proper(&value->it_value) || !is_proper(&value->it_interval) ||
        flags & ~(TFD_TIMER_ABSTIME | TFD_TIMER_CANCEL_ON_SET)) {
        return errno = EINVAL, -1;
    }
    know(fd, timer->number);
    if (old) {
        *old = next_of(timer);
    }
    make_still(fd, timer->number);
    timer->period = length_of(&value->it_interval);
    timer->deadline = deadline_for(timer->clock, value, flags & TFD_TIMER_ABSTIME);
    wake_descriptors(timer->is_shared ? 0 : my_slot()->pid);
    return 0;
}

EXPORT int timerfd_gettime(int fd, struct itimerspec *value) {
    struct timer *timer = run ? timer_of_number(number_of(fd)) : NULL;
    if (!timer) {
        return (int)answer(RAW(SYS_timerfd_gettime, fd, value));
    }
    *value = next_of(timer);
    return 0;
}

/* Marks all timers as shared, because the child of a fork has them too. */
static void share(void) {
    for (int i = 0; i < known_count; i++) {
        run->timers[known[i].number % TIMERS].is_shared = 1;
    }
}

__attribute__((constructor(102))) static void share_with_children(void) {
    pthread_atfork(share, NULL, NULL);
}
