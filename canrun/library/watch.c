/* poll for sockets that have an error queue, such as J1939 sockets. Such a socket reports POLLERR as soon as its queue
 * has an entry, whichever events were requested. The bridge writes to a pipe when there is an entry, and poll waits for
 * the pipe as well as for the socket. */
#define _GNU_SOURCE
#include "library.h"

#include <errno.h>
#include <fcntl.h>
#include <string.h>
#include <sys/syscall.h>

/* The maximum number of descriptors in one poll for which error queues are watched. */
#define MOST 256

/* The polled descriptors: those of the program, followed by one pipe for each socket with an error queue. */
struct watch {
    struct pollfd all[2 * MOST];
    nfds_t count, with_pipes;
    int of[MOST]; /* the index of the socket to which each pipe belongs */
};

/* Returns whether the socket has an error, or an entry in its error queue. */
static bool is_shown(int fd) {
    struct answer answer = {0};
    int before = errno;
    bool is_shown = !ask(fd, "poll", &(struct wire_request){.kind = WIRE_WATCH}, NULL, 0, &answer) && answer.value;
    errno = before;
    return is_shown;
}

static void add_pipe(struct watch *watch, nfds_t place) {
    int ends[2], before = errno;
    struct wire_request request = {.kind = WIRE_WATCH, .number = 1};
    if (syscall(SYS_pipe2, ends, O_CLOEXEC)) {
        errno = before;
        return;
    }
    if (put_request(watch->all[place].fd, ends[1], &request, NULL, 0)) {
        syscall(SYS_close, ends[0]);
    } else {
        watch->of[watch->with_pipes - watch->count] = (int)place;
        watch->all[watch->with_pipes++] = (struct pollfd){ends[0], POLLIN, 0};
    }
    syscall(SYS_close, ends[1]);
    errno = before;
}

static void close_pipes(struct watch *watch) {
    int before = errno;
    for (nfds_t i = watch->count; i < watch->with_pipes; i++) {
        syscall(SYS_close, watch->all[i].fd);
    }
    errno = before;
}

static short shown_events(const struct pollfd *one) {
    int is_select = 0;
    real()->getsockopt(one->fd, SOL_SOCKET, SO_SELECT_ERR_QUEUE, &is_select, &(socklen_t){sizeof is_select});
    short events = (short)error_events(one->fd, (uint32_t)one->revents);
    return (short)(events | (is_select ? one->events & POLLPRI : 0));
}

/* Copies the events back to the program. Returns how many descriptors have events. */
static int give_events(const struct watch *watch, struct pollfd *fds, const bool *has_error) {
    int ready = 0;
    for (nfds_t i = 0; i < watch->count; i++) {
        fds[i].revents = watch->all[i].revents;
        fds[i].revents = has_error[i] ? shown_events(&fds[i]) : fds[i].revents;
        ready += fds[i].revents != 0;
    }
    return ready;
}

int watched_poll(struct pollfd *fds, nfds_t count, const struct timespec *timeout, const sigset_t *mask) {
    struct watch watch = {.count = count, .with_pipes = count};
    bool has_error[MOST] = {false}, is_ready = false;
    if (count > MOST || !copy_from(watch.all, fds, count * sizeof *fds)) {
        return real()->ppoll(fds, count, timeout, mask);
    }
    for (nfds_t i = 0; i < count; i++) {
        has_error[i] = has_error_queue(fds[i].fd) && is_shown(fds[i].fd);
        is_ready |= has_error[i];
    }
    bool waits = !is_ready && !(timeout && !timeout->tv_sec && !timeout->tv_nsec);
    for (nfds_t i = 0; i < count && waits; i++) {
        if (has_error_queue(fds[i].fd)) {
            add_pipe(&watch, i);
        }
    }
    int result = real()->ppoll(watch.all, watch.with_pipes, is_ready ? &(struct timespec){0, 0} : timeout, mask);
    for (nfds_t i = count; i < watch.with_pipes; i++) {
        has_error[watch.of[i - count]] |= result > 0 && watch.all[i].revents & POLLIN;
    }
    close_pipes(&watch);
    return result < 0 ? result : give_events(&watch, fds, has_error);
}
