/* Waits for many descriptors: select and epoll. */
#define _GNU_SOURCE
#include "calls.h"

#include <string.h>
#include <sys/epoll.h>
#include <sys/select.h>
#include <sys/time.h>

#define POLL_MOST 1024

/* ---- select ---- */

struct sets {
    int count;
    fd_set *of[3];
    fd_set asked[3], found[3];
};
static const short EVENTS[3] = {POLLIN, POLLOUT, POLLPRI};

static size_t bytes_of(const struct sets *sets) {
    return ((size_t)sets->count + 63) / 64 * 8;
}

/* Checks which descriptors are ready now. */
static int select_now(struct sets *sets) {
    fd_set *at[3];
    timers_fire();
    for (int i = 0; i < 3; i++) {
        at[i] = sets->of[i] ? &sets->found[i] : NULL;
        sets->found[i] = sets->asked[i];
    }
    return (int)answer(RAW(SYS_pselect6, sets->count, at[0], at[1], at[2], &no_time, NULL));
}

/* Copies the descriptors of the sets to `fds`. Returns how many were copied. */
static nfds_t take_sets(struct sets *sets, struct pollfd *fds) {
    nfds_t count = 0;
    for (int i = 0; i < 3; i++) {
        memset(&sets->asked[i], 0, sizeof sets->asked[i]);
        if (sets->of[i]) {
            memcpy(&sets->asked[i], sets->of[i], bytes_of(sets));
        }
    }
    for (int fd = 0; fd < sets->count && count < POLL_MOST; fd++) {
        short events = 0;
        for (int i = 0; i < 3; i++) {
            events |= FD_ISSET(fd, &sets->asked[i]) ? EVENTS[i] : 0;
        }
        if (events) {
            fds[count++] = (struct pollfd){fd, events, 0};
        }
    }
    return count;
}

/* Writes the result to the sets. After a failure the sets stay unchanged. */
static void give_sets(const struct sets *sets, int result) {
    for (int i = 0; i < 3 && result >= 0; i++) {
        if (sets->of[i]) {
            memcpy(sets->of[i], &sets->found[i], bytes_of(sets));
        }
    }
}

/* Returns whether a signal handler has ended the wait, so that select does not poll again. */
static bool is_ended(uint32_t flags) {
    return (flags & (IS_INTERRUPTED | HAS_EVENT)) == IS_INTERRUPTED;
}

static bool is_interrupted(uint32_t flags, const struct masked *masked) {
    return flags & IS_INTERRUPTED || (masked->is_set && my.handled != masked->handled);
}

static int select_until(struct sets *sets, uint64_t deadline, const sigset_t *mask) {
    struct pollfd fds[POLL_MOST];
    uint32_t flags = 0;
    cancel_point();
    if (sets->count < 0 || sets->count > FD_SETSIZE) {
        return errno = EINVAL, -1;
    }
    nfds_t count = take_sets(sets, fds);
    struct masked masked = set_mask(mask);
    if (deadline <= run->now) {
        looked();
    }
    int result;
    while (!(result = is_ended(flags) ? 0 : select_now(sets))) {
        if (is_interrupted(flags, &masked)) {
            result = (int)answer(-EINTR);
            break;
        }
        if (deadline <= run->now) {
            break;
        }
        flags = wait_for(fds, count, deadline);
    }
    my.has_tried &= !result;
    put_mask_back(&masked);
    give_sets(sets, result);
    return result;
}

EXPORT int select(int count, fd_set *restrict r, fd_set *restrict w, fd_set *restrict x, struct timeval *restrict t) {
    if (!run) {
        return (int)answer(RAW(SYS_select, count, r, w, x, t));
    }
    struct sets sets = {.count = count, .of = {r, w, x}};
    if (t && (t->tv_sec < 0 || t->tv_usec < 0)) {
        return errno = EINVAL, -1;
    }
    uint64_t deadline = t ? after((uint64_t)t->tv_sec * SECOND + (uint64_t)t->tv_usec * 1000) : NEVER;
    int result = select_until(&sets, deadline, NULL);
    if (t) {
        uint64_t left = deadline > run->now ? deadline - run->now : 0;
        *t = (struct timeval){(time_t)(left / SECOND), (suseconds_t)(left % SECOND / 1000)};
    }
    return result;
}

EXPORT int pselect(int count, fd_set *restrict r, fd_set *restrict w, fd_set *restrict x,
                   const struct timespec *restrict t, const sigset_t *restrict mask) {
    struct timespec copy = t ? *t : no_time;
    struct {
        const void *set;
        size_t size;
    } sixth = {mask, 8};
    struct sets sets = {.count = count, .of = {r, w, x}};
    if (!run) {
        return (int)answer(RAW(SYS_pselect6, count, r, w, x, t ? &copy : NULL, &sixth));
    }
    if (t && !is_proper(t)) {
        return errno = EINVAL, -1;
    }
    return select_until(&sets, t ? after(length_of(t)) : NEVER, mask);
}

/* ---- epoll: the run's epoll contains the epoll of the program ---- */

/* Returns the ready events. `flags` are the flags that the last wait returned. */
static long epoll_now(int fd, struct epoll_event *events, int most, uint32_t flags) {
    timers_fire();
    if (flags & LOOKS_AGAIN) {
        signalfds_look(fd);
    }
    return RAW(SYS_epoll_pwait, fd, events, most, 0, NULL, 8);
}

static int epoll_until(int fd, struct epoll_event *events, int most, uint64_t deadline, const sigset_t *mask) {
    cancel_point();
    struct masked masked = set_mask(mask);
    uint32_t flags = 0;
    long result;
    if (deadline <= run->now) {
        looked();
    }
    while (!(result = is_ended(flags) ? 0 : epoll_now(fd, events, most, flags))) {
        if (is_interrupted(flags, &masked)) {
            result = -EINTR;
            break;
        }
        if (deadline <= run->now) {
            break;
        }
        flags = wait_for_epoll(fd, deadline);
    }
    my.has_tried &= !result;
    put_mask_back(&masked);
    return (int)answer(result);
}

EXPORT int epoll_ctl(int epoll, int operation, int fd, struct epoll_event *event) {
    if (run && operation == EPOLL_CTL_ADD) {
        note_entry(fd);
    }
    return (int)answer(RAW(SYS_epoll_ctl, epoll, operation, fd, event));
}

EXPORT int epoll_pwait(int fd, struct epoll_event *events, int most, int ms, const sigset_t *mask) {
    return run ? epoll_until(fd, events, most, after_ms(ms), mask)
               : (int)answer(RAW(SYS_epoll_pwait, fd, events, most, ms, mask, 8));
}

EXPORT int epoll_wait(int fd, struct epoll_event *events, int most, int ms) {
    return epoll_pwait(fd, events, most, ms, NULL);
}

EXPORT int epoll_pwait2(int fd, struct epoll_event *events, int most, const struct timespec *t, const sigset_t *mask) {
    if (!run) {
        return (int)answer(RAW(SYS_epoll_pwait2, fd, events, most, t, mask, 8));
    }
    if (t && !is_proper(t)) {
        return errno = EINVAL, -1;
    }
    return epoll_until(fd, events, most, t ? after(length_of(t)) : NEVER, mask);
}
