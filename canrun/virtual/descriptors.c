/* Waits for descriptors: poll, and the common part of blocking calls. Each call first checks whether a descriptor is
 * ready, because a thread that has the turn may continue at once. If none is ready, the thread waits for its turn, with
 * its descriptors in the run's epoll. */
#define _GNU_SOURCE
#include "calls.h"

#include <fcntl.h>
#include <string.h>
#include <sys/epoll.h>
#include <sys/select.h>
#include <sys/socket.h>
#include <sys/stat.h>
#include <sys/sysmacros.h>
#include <sys/time.h>
#include <sys/uio.h>
#include <unistd.h>

#define POLL_MOST 1024
/* After a wait for at most this many descriptors, they stay in the epoll for the next wait. */
#define FEW 16

#ifdef FOR_BRIDGE
/* A bridge has no timers, no signal handlers and no cancelled threads. */
uint64_t timers_due(void) {
    return NEVER;
}
void timers_fire(void) {
}
bool has_signalfds(void) {
    return false;
}
struct masked set_mask(const sigset_t *mask) {
    return (struct masked){.is_set = mask != NULL};
}
void put_mask_back(const struct masked *masked) {
    (void)masked;
}
#endif

static long control(int operation, int fd, short events) {
    struct epoll_event event = {.events = (uint32_t)(uint16_t)events | EPOLLONESHOT,
                                .data.u64 = (uint64_t)my.slot->generation << 32 | my.index};
    long result = RAW(SYS_epoll_ctl, run_epoll, operation, fd, &event);
    if (result == -EBADF && RAW(SYS_fcntl, fd, F_GETFD) >= 0 && register_process()) {
        result = RAW(SYS_epoll_ctl, run_epoll, EPOLL_CTL_ADD, fd, &event);
    }
    return result;
}

/* A kernel thread carries bytes from a terminal's writer to its reader. A reader that polls gets the bytes at once, so
 * it polls once more before the clock moves. The terminal of the run is an exception, because its writer is outside the
 * run. */
#define TERMINALS 136 /* the first of eight device numbers; the other end is device 5, 2 */
static bool is_terminal(int fd) {
    struct stat status;
    if (RAW(SYS_fstat, fd, &status) || !S_ISCHR(status.st_mode) || status.st_rdev == run->terminal) {
        return false;
    }
    return major(status.st_rdev) / 8 == TERMINALS / 8 || status.st_rdev == makedev(5, 2);
}

/* For each descriptor of this process that stays in the epoll, 1 + the index of its thread's slot. A closed descriptor
 * leaves the epoll automatically. If its number is used again, the new descriptor is added. */
#define STAYING 1024
static uint16_t keepers[STAYING];
static bool are_terminals[STAYING];

void descriptors_forget(void) {
    memset(keepers, 0, sizeof keepers);
}

void descriptors_leave(void) {
    for (int fd = 0; fd < STAYING; fd++) {
        if (keepers[fd]) {
            RAW(SYS_epoll_ctl, run_epoll, EPOLL_CTL_DEL, fd, NULL);
        }
    }
    descriptors_forget();
}

/* Returns whether the epoll contains this descriptor for a thread of this process that is not waiting for it now. */
static bool is_idle(int fd) {
    const struct slot *slot = &run->slots[(keepers[fd] - 1) % SLOTS];
    return keepers[fd] && (keepers[fd] - 1U == my.index || slot->state != SLOT_WAITS || slot->kind != KIND_DESCRIPTOR);
}

/* Keeps the descriptor in the epoll for this thread and these events, even after the wait. Returns false if that is not
 * possible. */
static bool watch_staying(int fd, short events) {
    bool is_in = keepers[fd] == my.index + 1 && !control(EPOLL_CTL_MOD, fd, events);
    if (!is_in) {
        long result = control(EPOLL_CTL_ADD, fd, events);
        are_terminals[fd] = result == 0 ? is_terminal(fd) : are_terminals[fd];
        is_in = result == 0 || (result == -EEXIST && is_idle(fd) && !control(EPOLL_CTL_MOD, fd, events));
    }
    keepers[fd] = is_in ? (uint16_t)(my.index + 1) : keepers[fd];
    return is_in;
}

/* Registers a descriptor for one event. Returns the descriptor to remove after the wait, which is `fd`, or a copy of it
 * if another thread waits for `fd`. Returns -1 if the descriptor stays registered, or is always ready. */
static int watch(int fd, short events, bool may_stay) {
    if (may_stay && fd < STAYING && watch_staying(fd, events)) {
        return -1;
    }
    long result = control(EPOLL_CTL_ADD, fd, events);
    if (result != -EEXIST) {
        return result ? -1 : fd;
    }
    int other = (int)RAW(SYS_fcntl, fd, F_DUPFD_CLOEXEC, 512 + my.index);
    other = other < 0 ? (int)RAW(SYS_fcntl, fd, F_DUPFD_CLOEXEC, 0) : other;
    if (other >= 0 && control(EPOLL_CTL_ADD, other, events)) {
        RAW(SYS_close, other);
        return -1;
    }
    return other;
}

/* Returns the events that a wait requests for a descriptor, which may be in the list several times. */
static short events_of(const struct pollfd *fds, nfds_t count, int fd) {
    short events = 0;
    for (nfds_t i = 0; i < count; i++) {
        events |= fds[i].fd == fd ? fds[i].events : 0;
    }
    return events;
}

static void unwatch(int fd, int watched) {
    if (watched >= 0) {
        RAW(SYS_epoll_ctl, run_epoll, EPOLL_CTL_DEL, watched, NULL);
        if (watched != fd) {
            RAW(SYS_close, watched);
        }
    }
}

/* Waits until one of these descriptors may be ready, or the key is woken. Returns the flags of wait_turn. `tries` means
 * that perhaps no thread of the run ends this wait. */
static uint32_t wait_with_key(const struct pollfd *fds, nfds_t count, uint64_t deadline, uint64_t key, bool tries) {
    int watched[POLL_MOST];
    uint64_t timers = timers_due();
    bool may_stay = count <= FEW && !has_signalfds();
    count = count > POLL_MOST ? POLL_MOST : count;
    regain_turn();
    my_slot()->generation++;
    for (nfds_t i = 0; i < count; i++) {
        short events = may_stay ? events_of(fds, count, fds[i].fd) : fds[i].events;
        watched[i] = fds[i].fd < 0 ? -1 : watch(fds[i].fd, events, may_stay);
        tries |=
            fds[i].fd >= 0 && (may_stay && fds[i].fd < STAYING ? are_terminals[fds[i].fd] : is_terminal(fds[i].fd));
    }
    my.tries = !tries ? TRIES_NOT : my.has_tried ? TRIES_ON : TRIES;
    uint32_t flags = wait_turn(deadline < timers ? deadline : timers, key, KIND_DESCRIPTOR);
    for (nfds_t i = 0; i < count; i++) {
        unwatch(fds[i].fd, watched[i]);
    }
    my.has_tried = flags == TRIES_AGAIN;
    cancel_point();
    return flags;
}

uint32_t wait_for(const struct pollfd *fds, nfds_t count, uint64_t deadline) {
    /* With a signalfd another poll is necessary, because no thread reports signals that the kernel itself sends. */
    return wait_with_key(fds, count, deadline, 0, has_signalfds());
}

static bool has_terminals;

uint32_t wait_for_epoll(int fd, uint64_t deadline) {
    return wait_with_key(&(struct pollfd){fd, POLLIN, 0}, 1, deadline, 0, has_signalfds() || has_terminals);
}

void note_entry(int fd) {
    has_terminals |= is_terminal(fd);
}

long look_at(struct pollfd *fds, nfds_t count) {
    timers_fire();
    long result = RAW(SYS_ppoll, fds, count, &no_time, NULL, 8);
    my.has_tried &= !result;
    return result;
}

/* Waits until one of these descriptors is ready, and returns the result of poll. After a signal handler it does not
 * poll again. */
static int poll_until(struct pollfd *fds, nfds_t count, uint64_t deadline) {
    uint32_t flags = 0;
    /* A bridge spends most of its time waiting, so it only polls if a descriptor may be ready. */
    bool looks = !is_bridge || deadline <= run->now;
    for (;; looks = true) {
        long result = (flags & (IS_INTERRUPTED | HAS_EVENT)) == IS_INTERRUPTED ? -EINTR
                      : looks                                                  ? look_at(fds, count)
                                                                               : 0;
        if (result) {
            return (int)answer(result);
        }
        if (flags & IS_INTERRUPTED) {
            return errno = EINTR, -1;
        }
        if (deadline <= run->now) {
            return 0;
        }
        flags = wait_for(fds, count, deadline);
    }
}

static int poll_masked(struct pollfd *fds, nfds_t count, uint64_t deadline, const sigset_t *mask) {
    cancel_point();
    struct masked masked = set_mask(mask);
    if (deadline <= run->now) {
        looked();
    }
    bool is_handled = masked.is_set && my.handled != masked.handled;
    int result = poll_until(fds, count, is_handled ? 0 : deadline);
    put_mask_back(&masked);
    return result == 0 && is_handled ? (errno = EINTR, -1) : result;
}

uint64_t after_ms(int ms) {
    return ms < 0 ? NEVER : after((uint64_t)ms * 1000000);
}

EXPORT int CALL(poll)(struct pollfd *fds, nfds_t count, int ms) {
    return run ? poll_masked(fds, count, after_ms(ms), NULL) : (int)answer(RAW(SYS_poll, fds, count, ms));
}

EXPORT int CALL(ppoll)(struct pollfd *fds, nfds_t count, const struct timespec *t, const sigset_t *mask) {
    if (!run) {
        struct timespec copy = t ? *t : no_time;
        return (int)answer(RAW(SYS_ppoll, fds, count, t ? &copy : NULL, mask, 8));
    }
    if (t && !is_proper(t)) {
        return errno = EINVAL, -1;
    }
    return poll_masked(fds, count, t ? after(length_of(t)) : NEVER, mask);
}

/* ---- calls that block ---- */

uint64_t timeout_of(int fd, short events) {
    struct timeval t = {0, 0};
    socklen_t length = sizeof t;
    int option = events & POLLIN ? SO_RCVTIMEO : SO_SNDTIMEO;
    if (RAW(SYS_getsockopt, fd, SOL_SOCKET, option, &t, &length) || (!t.tv_sec && !t.tv_usec)) {
        return NEVER;
    }
    return after((uint64_t)t.tv_sec * SECOND + (uint64_t)t.tv_usec * 1000);
}

static bool is_nonblocking(int fd) {
    return RAW(SYS_fcntl, fd, F_GETFL) & O_NONBLOCK;
}

bool await_later(int fd, short events, uint64_t *deadline) {
    if (!*deadline) {
        if (is_nonblocking(fd)) {
            looked();
            return errno = EAGAIN, false;
        }
        *deadline = timeout_of(fd, events);
    }
    struct pollfd polled = {fd, events, 0};
    uint32_t flags = wait_for(&polled, 1, *deadline);
    timers_fire();
    /* If the socket has a timeout, the call is not restarted, whatever flags the handler has. */
    bool ends = flags & IS_INTERRUPTED && (my.has_to_return || *deadline != NEVER);
    if (ends && !(flags & HAS_EVENT && look_at(&polled, 1) > 0)) {
        return errno = EINTR, false;
    }
    return flags || run->now < *deadline ? true : (errno = EAGAIN, false);
}

bool await_until(int fd, short events, uint64_t deadline) {
    struct pollfd polled = {fd, events, 0};
    cancel_point();
    while (!look_at(&polled, 1)) {
        if (!await_later(fd, events, &deadline)) {
            return false;
        }
    }
    return true;
}

bool await_ready(int fd, short events, int flags) {
    /* A nonblocking call itself reports that it would block. */
    return !run || flags & MSG_DONTWAIT || await_until(fd, events, 0) || (errno == EAGAIN && is_nonblocking(fd));
}

/* Returns whether the call must receive all requested bytes, as a stream with MSG_WAITALL does. */
static bool is_whole(int fd, int flags) {
    int type = 0;
    socklen_t size = sizeof type;
    return flags & MSG_WAITALL && !RAW(SYS_getsockopt, fd, SOL_SOCKET, SO_TYPE, &type, &size) && type == SOCK_STREAM;
}

ssize_t receive(int fd, void *data, size_t length, int flags, struct sockaddr *from, socklen_t *room) {
    /* The sockets of a server block and have no timeouts. */
    uint64_t deadline = is_server ? NEVER : 0;
    size_t done = 0;
    my.has_talked = my.has_acted = true;
    cancel_point();
    if (!run || flags & MSG_DONTWAIT || (flags & MSG_WAITALL && flags & MSG_PEEK)) {
        return await_ready(fd, POLLIN, flags) ? answer(RAW(SYS_recvfrom, fd, data, length, flags, from, room)) : -1;
    }
    bool is_all = is_whole(fd, flags);
    for (;;) {
        int how = (flags & ~MSG_WAITALL) | MSG_DONTWAIT;
        long result = RAW(SYS_recvfrom, fd, (char *)data + done, length - done, how, from, room);
        done += result > 0 ? (size_t)result : 0;
        if (result != -EAGAIN && (result <= 0 || !is_all || done == length)) {
            return done ? (ssize_t)done : answer(result);
        }
        if (result == -EAGAIN && !await_later(fd, POLLIN, &deadline)) {
            return done ? (ssize_t)done : -1;
        }
    }
}

#ifdef FOR_BRIDGE
ssize_t receive_within(int fd, void *data, size_t length, uint64_t nanoseconds);

ssize_t receive_within(int fd, void *data, size_t length, uint64_t nanoseconds) {
    uint64_t deadline = after(nanoseconds);
    for (;;) {
        wait_for(&(struct pollfd){fd, POLLIN, 0}, 1, deadline);
        long result = RAW(SYS_recvfrom, fd, data, length, MSG_DONTWAIT, NULL, NULL);
        if (result != -EAGAIN || run->now >= deadline) {
            return answer(result);
        }
    }
}
#endif

EXPORT ssize_t CALL(recv)(int fd, void *data, size_t length, int flags) {
    return receive(fd, data, length, flags, NULL, NULL);
}

#ifndef FOR_BRIDGE

/* Takes the turn, for libcanbusd-run.so. Returns false if there is no virtual time. */
EXPORT bool canbusd_virtual_turn(void);
/* Sends `text`, for libcanbusd-run.so, and reads the reply into the same buffer. Returns the reply's length, or -1 if
 * the text was not sent. Returns 0 if no reply arrived within this time, or if another thread has changed the word and
 * woken the key. */
EXPORT long canbusd_virtual_talk(int fd, char *text, size_t length, size_t room, uint32_t *word, uint64_t key,
                                 const struct timespec *t);

bool canbusd_virtual_turn(void) {
    if (run) {
        regain_turn();
    }
    return run;
}

long canbusd_virtual_talk(int fd, char *text, size_t length, size_t room, uint32_t *word, uint64_t key,
                          const struct timespec *t) {
    uint64_t deadline = after(length_of(t));
    uint32_t expected = *word;
    if (RAW(SYS_sendto, fd, text, length, MSG_DONTWAIT | MSG_NOSIGNAL, NULL, 0) != (long)length) {
        return -1;
    }
    for (;;) {
        wait_with_key(&(struct pollfd){fd, POLLIN, 0}, 1, deadline, key_of_number(key), false);
        long result =
            *(volatile uint32_t *)word != expected ? 0 : RAW(SYS_recvfrom, fd, text, room, MSG_DONTWAIT, NULL, NULL);
        if (result != -EAGAIN || run->now >= deadline) {
            return result < 0 ? 0 : result;
        }
    }
}

EXPORT int __poll_chk(struct pollfd *fds, nfds_t count, int ms, size_t room);
EXPORT int __ppoll_chk(struct pollfd *fds, nfds_t count, const struct timespec *t, const sigset_t *mask, size_t room);

int __poll_chk(struct pollfd *fds, nfds_t count, int ms, size_t room) {
    return room / sizeof *fds < count ? (errno = EFAULT, -1) : poll(fds, count, ms);
}

int __ppoll_chk(struct pollfd *fds, nfds_t count, const struct timespec *t, const sigset_t *mask, size_t room) {
    return room / sizeof *fds < count ? (errno = EFAULT, -1) : ppoll(fds, count, t, mask);
}

#endif
