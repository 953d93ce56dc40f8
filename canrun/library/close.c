/* close, dup2 and dup3. As in the kernel, closing a socket of certain protocols (`lingers`) waits until the socket's
 * message has been sent. */
#define _GNU_SOURCE
#include "library.h"

#include <errno.h>
#include <fcntl.h>
#include <poll.h>
#include <sys/syscall.h>
#include <time.h>

static void put_byte(int fd) {
    syscall(SYS_sendto, fd, "", 1L, MSG_NOSIGNAL, NULL, 0L);
}

/* Waits until the bridge exits, or closes its end of the pair. A signal ends the wait: the bridge then abandons the
 * message and sends no more of its frames. */
static void await_end(int fd) {
    struct pollfd polled = {fd, POLLIN, 0};
    if (syscall(SYS_ppoll, &polled, 1L, NULL, NULL, 0L) < 0) {
        put_byte(fd);
        syscall(SYS_ppoll, &polled, 1L, &(struct timespec){1, 0}, NULL, 0L);
    }
}

static int close_patiently(int fd) {
    int pair[2], before = errno;
    struct wire_request request = {.kind = WIRE_CLOSE};
    if (syscall(SYS_socketpair, AF_UNIX, SOCK_STREAM | SOCK_CLOEXEC, 0, pair)) {
        return real()->close(fd);
    }
    int error = put_request(fd, pair[1], &request, NULL, 0);
    syscall(SYS_close, pair[1]);
    int result = real()->close(fd);
    /* Tells the bridge to check whether this was the last copy of the socket. */
    put_byte(pair[0]);
    if (!error) {
        await_end(pair[0]);
    }
    syscall(SYS_close, pair[0]);
    errno = before;
    return result;
}

static bool lingers(int fd) {
    struct socket sock = socket_of(fd);
    return HAS(sock, lingers);
}

EXPORT int close(int fd) {
    return lingers(fd) ? close_patiently(fd) : real()->close(fd);
}

/* Duplicates a socket that dup2 or dup3 is about to replace. The duplicate is closed after the call. Returns -1 if no
 * duplicate is needed. */
static int copy_of_replaced(int from, int to) {
    return from != to && lingers(to) ? fcntl(to, F_DUPFD_CLOEXEC, 0) : -1;
}

static int replaced(int copy, int result) {
    if (copy >= 0) {
        close_patiently(copy);
    }
    return result;
}

EXPORT int dup2(int from, int to) {
    int copy = copy_of_replaced(from, to);
    return replaced(copy, real()->dup2(from, to));
}

EXPORT int dup3(int from, int to, int flags) {
    int copy = copy_of_replaced(from, to);
    return replaced(copy, real()->dup3(from, to, flags));
}
