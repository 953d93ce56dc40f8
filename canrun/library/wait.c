/* Waiting: poll and epoll for sockets that can have an error of their own, such as ISO-TP sockets. The bridge reports
 * such an error with an empty datagram. The kernel reports POLLIN for the datagram, but a CAN socket must report
 * POLLERR. For select there is no difference. Programs without such sockets, and all other sockets, are not affected.
 */
#define _GNU_SOURCE
#include "library.h"

#include <errno.h>
#include <fcntl.h>
#include <poll.h>
#include <stdio.h>
#include <stdlib.h>
#include <string.h>
#include <sys/epoll.h>
#include <sys/ioctl.h>
#include <sys/syscall.h>
#include <time.h>

#define KNOWN_MOST 4096
#define WORD 64
/* A set of file descriptors. */
struct noted {
    uint64_t words[KNOWN_MOST / WORD];
    bool has_any;
};
/* `known`: descriptors that were sockets with an error of their own when they were last used. This is only a hint,
 * because the descriptor may belong to another file now. `queues`: descriptors of sockets with an error queue. */
static struct noted known, queues;

static void note(struct noted *noted, int fd) {
    uint64_t bit = 1ull << fd % WORD;
    if (fd < KNOWN_MOST && !(__atomic_load_n(&noted->words[fd / WORD], __ATOMIC_RELAXED) & bit)) {
        __atomic_fetch_or(&noted->words[fd / WORD], bit, __ATOMIC_RELAXED);
        __atomic_store_n(&noted->has_any, true, __ATOMIC_RELAXED);
    }
}

static bool is_noted(const struct noted *noted, int fd) {
    return fd >= 0 && fd < KNOWN_MOST && __atomic_load_n(&noted->words[fd / WORD], __ATOMIC_RELAXED) >> fd % WORD & 1;
}

void note_error_of(int fd) {
    note(&known, fd);
}

void note_queue_of(int fd) {
    note(&queues, fd);
}

bool has_error_queue(int fd) {
    struct socket sock = is_noted(&queues, fd) ? socket_of(fd) : (struct socket){0};
    return HAS(sock, has_ways);
}

static bool is_any_queue(struct pollfd *fds, nfds_t count) {
    bool is_any = false;
    for (nfds_t i = 0; i < count && !is_any && __atomic_load_n(&queues.has_any, __ATOMIC_RELAXED); i++) {
        struct pollfd one;
        is_any = copy_from(&one, &fds[i], sizeof one) && has_error_queue(one.fd);
    }
    return is_any;
}

bool has_error(int fd) {
    int before = errno;
    long length = syscall(SYS_recvfrom, fd, NULL, 0L, MSG_PEEK | MSG_DONTWAIT | MSG_TRUNC, NULL, NULL);
    errno = before;
    return length == 0 && is_can_socket(fd);
}

void drop_error(int fd) {
    int before = errno;
    if (has_error(fd)) {
        syscall(SYS_recvfrom, fd, NULL, 0L, MSG_DONTWAIT, NULL, NULL);
    }
    errno = before;
}

/* poll and epoll use the same bits for these events. */
uint32_t error_events(int fd, uint32_t events) {
    int waiting = 0, before = errno;
    syscall(SYS_ioctl, fd, FIONREAD, &waiting);
    errno = before;
    events |= POLLERR;
    return waiting > 0 ? events : events & ~(uint32_t)(POLLIN | POLLRDNORM);
}

/* Returns whether a socket that is reported as ready has an error. */
static bool shows_error(int fd, uint32_t events) {
    return is_noted(&known, fd) && events & (POLLIN | POLLRDNORM | POLLOUT) && has_error(fd);
}

static int polled(struct pollfd *fds, nfds_t count, int result) {
    for (nfds_t i = 0; i < count && result > 0 && __atomic_load_n(&known.has_any, __ATOMIC_RELAXED); i++) {
        if (shows_error(fds[i].fd, (uint32_t)fds[i].revents)) {
            fds[i].revents = (short)error_events(fds[i].fd, (uint32_t)fds[i].revents);
        }
    }
    return result;
}

EXPORT int poll(struct pollfd *fds, nfds_t count, int timeout) {
    const struct timespec time = {timeout / 1000, timeout % 1000 * 1000000L};
    if (is_any_queue(fds, count)) {
        return watched_poll(fds, count, timeout < 0 ? NULL : &time, NULL);
    }
    return polled(fds, count, real()->poll(fds, count, timeout));
}

EXPORT int ppoll(struct pollfd *fds, nfds_t count, const struct timespec *timeout, const sigset_t *mask) {
    if (is_any_queue(fds, count)) {
        return watched_poll(fds, count, timeout, mask);
    }
    return polled(fds, count, real()->ppoll(fds, count, timeout, mask));
}

/* ---- epoll: only the kernel stores the descriptor of an event, and lists it in a file in /proc ---- */

static void mark(struct epoll_event *events, int count, int fd, uint64_t data) {
    for (int i = 0; i < count; i++) {
        if (events[i].data.u64 == data && events[i].events & (EPOLLIN | EPOLLRDNORM | EPOLLOUT)) {
            events[i].events = error_events(fd, events[i].events);
        }
    }
}

/* Reads a line of the epoll's file in /proc, such as `tfd: 5 events: 19 data: 7fff0005 pos:0 ..`. Returns false if the
 * line has another form. */
static bool read_line(const char *line, int *fd, uint64_t *data) {
    unsigned long long number;
    bool is_one = sscanf(line, "tfd: %d events: %*x data: %llx", fd, &number) == 2;
    *data = is_one ? number : 0;
    return is_one;
}

/* Corrects the events of the sockets in this epoll that have an error. */
static void mark_all(int epoll, struct epoll_event *events, int count) {
    char text[4096], *line = text, *end;
    size_t have = 0;
    snprintf(text, sizeof text, "/proc/self/fdinfo/%d", epoll);
    int file = (int)syscall(SYS_openat, AT_FDCWD, text, O_RDONLY | O_CLOEXEC, 0);
    for (long part; file >= 0 && (part = syscall(SYS_read, file, text + have, sizeof text - 1 - have)) > 0;) {
        have += (size_t)part;
        text[have] = 0;
        for (line = text; (end = strchr(line, '\n')); line = end + 1) {
            int fd;
            uint64_t data;
            if (read_line(line, &fd, &data) && is_noted(&known, fd) && has_error(fd)) {
                mark(events, count, fd, data);
            }
        }
        have -= (size_t)(line - text);
        memmove(text, line, have);
    }
    if (file >= 0) {
        syscall(SYS_close, file);
    }
}

static bool has_any_error(void) {
    for (int word = 0; word < KNOWN_MOST / WORD; word++) {
        uint64_t bits = __atomic_load_n(&known.words[word], __ATOMIC_RELAXED);
        for (; bits; bits &= bits - 1) {
            if (has_error(word * WORD + __builtin_ctzll(bits))) {
                return true;
            }
        }
    }
    return false;
}

static int epolled(int epoll, struct epoll_event *events, int result) {
    int before = errno;
    if (result > 0 && __atomic_load_n(&known.has_any, __ATOMIC_RELAXED) && has_any_error()) {
        mark_all(epoll, events, result);
    }
    errno = before;
    return result;
}

EXPORT int epoll_wait(int epoll, struct epoll_event *events, int most, int timeout) {
    return epolled(epoll, events, real()->epoll_wait(epoll, events, most, timeout));
}

EXPORT int epoll_pwait(int epoll, struct epoll_event *events, int most, int timeout, const sigset_t *mask) {
    return epolled(epoll, events, real()->epoll_pwait(epoll, events, most, timeout, mask));
}

EXPORT int epoll_pwait2(int epoll, struct epoll_event *events, int most, const struct timespec *timeout,
                        const sigset_t *mask) {
    return epolled(epoll, events, real()->epoll_pwait2(epoll, events, most, timeout, mask));
}

/* Called by programs that were built with _FORTIFY_SOURCE. */
EXPORT int __poll_chk(struct pollfd *fds, nfds_t count, int timeout, size_t room);
EXPORT int __ppoll_chk(struct pollfd *fds, nfds_t count, const struct timespec *timeout, const sigset_t *mask,
                       size_t room);

int __poll_chk(struct pollfd *fds, nfds_t count, int timeout, size_t room) {
    if (room / sizeof *fds < count) {
        __chk_fail();
    }
    return poll(fds, count, timeout);
}

int __ppoll_chk(struct pollfd *fds, nfds_t count, const struct timespec *timeout, const sigset_t *mask, size_t room) {
    if (room / sizeof *fds < count) {
        __chk_fail();
    }
    return ppoll(fds, count, timeout, mask);
}
