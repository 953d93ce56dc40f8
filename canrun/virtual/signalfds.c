/* Descriptors that read signals. The kernel reports a signal only to the process that polls. If another process polls
 * an epoll with a signalfd for the run, the kernel removes the signalfd's entry from the epoll's ready list. So a
 * process adds its signalfds again before it polls. */
#define _GNU_SOURCE
#include "calls.h"

#include <fcntl.h>
#include <stdio.h>
#include <stdlib.h>
#include <string.h>
#include <sys/epoll.h>
#include <sys/signalfd.h>

#define NESTED 8
/* The event bits that an entry with EPOLLONESHOT still has after an event. */
#define PRIVATE_EVENTS (EPOLLWAKEUP | EPOLLONESHOT | EPOLLET | EPOLLEXCLUSIVE)
#define LISTED 65536

static bool has_them;

bool has_signalfds(void) {
    return has_them;
}

void signalfds_note(void) {
    if (!has_them) {
        has_them = true;
        run->has_signalfds = 1;
        descriptors_leave();
    }
}

EXPORT int signalfd(int fd, const sigset_t *mask, int flags) {
    long result = RAW(SYS_signalfd4, fd, mask, 8, flags);
    if (run && result >= 0) {
        signalfds_note();
    }
    return (int)answer(result);
}

static bool is_link_to(int fd, const char *what) {
    char path[40], name[64];
    snprintf(path, sizeof path, "/proc/self/fd/%d", fd);
    long length = RAW(SYS_readlinkat, AT_FDCWD, path, name, sizeof name - 1);
    name[length > 0 ? length : 0] = 0;
    return !strcmp(name, what);
}

bool is_signalfd(int fd) {
    return is_link_to(fd, "anon_inode:[signalfd]");
}

static void look(int epoll, int depth);

/* Handles a line in an epoll's list, such as `tfd:        5 events:       19 data:   ff  pos:0 ..`. */
static void look_at_entry(int epoll, const char *line, int depth) {
    int fd;
    unsigned events;
    unsigned long long data;
    if (sscanf(line, "tfd: %d events: %x data: %llx", &fd, &events, &data) != 3) {
        return;
    }
    if (is_link_to(fd, "anon_inode:[eventpoll]")) {
        look(fd, depth + 1);
    }
    bool has_had_one = !(events & ~(unsigned)PRIVATE_EVENTS);
    if (!has_had_one && (is_signalfd(fd) || is_link_to(fd, "anon_inode:[eventpoll]"))) {
        struct epoll_event event = {.events = events, .data.u64 = data};
        RAW(SYS_epoll_ctl, epoll, EPOLL_CTL_MOD, fd, &event);
    }
}

static void look(int epoll, int depth) {
    char path[40];
    char *text = depth < NESTED ? malloc(LISTED) : NULL;
    snprintf(path, sizeof path, "/proc/self/fdinfo/%d", epoll);
    int fd = text ? (int)RAW(SYS_openat, AT_FDCWD, path, O_RDONLY | O_CLOEXEC) : -1;
    long length = 0, part;
    while (fd >= 0 && length < LISTED - 1 && (part = RAW(SYS_read, fd, text + length, LISTED - 1 - length)) > 0) {
        length += part;
    }
    if (fd >= 0) {
        RAW(SYS_close, fd);
        text[length] = 0;
    }
    for (char *line = fd >= 0 ? text : NULL; line; line = strchr(line, '\n')) {
        line += *line == '\n';
        look_at_entry(epoll, line, depth);
    }
    free(text);
}

void signalfds_look(int epoll) {
    if (has_them) {
        look(epoll, 0);
    }
}
