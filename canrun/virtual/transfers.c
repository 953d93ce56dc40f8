/* Calls that read, write, send, receive and accept. */
#define _GNU_SOURCE
#include "calls.h"
#include "peers.h"
#include "random.h"

#include <fcntl.h>
#include <string.h>
#include <sys/eventfd.h>
#include <sys/ioctl.h>
#include <sys/sendfile.h>
#include <sys/socket.h>
#include <sys/stat.h>
#include <sys/uio.h>
#include <termios.h>
#include <unistd.h>

/* How many bytes a ready pipe accepts without waiting. */
#define PIECE 4096
/* The maximum number of buffers of a message that is received or sent in pieces. */
#define PARTS 64

/* ---- messages ---- */

/* The rest of a message, after the bytes that have already been transferred. */
struct rest {
    struct msghdr message;
    struct iovec parts[PARTS];
};

static void take_rest(struct rest *rest, const struct msghdr *whole, size_t done) {
    size_t first = 0;
    for (; first < whole->msg_iovlen && done >= whole->msg_iov[first].iov_len; first++) {
        done -= whole->msg_iov[first].iov_len;
    }
    rest->message = (struct msghdr){.msg_iov = rest->parts, .msg_iovlen = whole->msg_iovlen - first};
    for (size_t i = first; i < whole->msg_iovlen; i++) {
        const struct iovec *part = &whole->msg_iov[i];
        rest->parts[i - first] = (struct iovec){(char *)part->iov_base + done, part->iov_len - done};
        done = 0;
    }
}

static size_t length_of_message(const struct msghdr *message) {
    size_t length = 0;
    for (size_t i = 0; i < message->msg_iovlen; i++) {
        length += message->msg_iov[i].iov_len;
    }
    return length;
}

static bool is_stream(int fd) {
    int type = 0;
    socklen_t size = sizeof type;
    return !RAW(SYS_getsockopt, fd, SOL_SOCKET, SO_TYPE, &type, &size) && type == SOCK_STREAM;
}

/* Searches the descriptors that were received with a message for timers. */
static long received(struct msghdr *message, long result) {
    if (result < 0 || !message->msg_controllen || !run || !run->timer_count) {
        return result;
    }
    for (struct cmsghdr *head = CMSG_FIRSTHDR(message); head; head = CMSG_NXTHDR(message, head)) {
        if (head->cmsg_level == SOL_SOCKET && head->cmsg_type == SCM_RIGHTS) {
            timers_find();
            break;
        }
    }
    return result;
}

EXPORT ssize_t recvfrom(int fd, void *restrict data, size_t length, int flags, struct sockaddr *restrict from,
                        socklen_t *restrict room) {
    return receive(fd, data, length, flags, from, room);
}

EXPORT ssize_t recvmsg(int fd, struct msghdr *message, int flags) {
    uint64_t deadline = 0;
    size_t done = 0, length;
    struct rest rest;
    cancel_point();
    if (!run || flags & (MSG_DONTWAIT | MSG_ERRQUEUE)) {
        return answer(received(message, RAW(SYS_recvmsg, fd, message, flags)));
    }
    bool is_all = flags & MSG_WAITALL && !(flags & MSG_PEEK) && message->msg_iovlen <= PARTS && is_stream(fd);
    length = is_all ? length_of_message(message) : 0;
    for (;;) {
        struct msghdr *to = done ? &rest.message : message;
        long result = received(to, RAW(SYS_recvmsg, fd, to, (flags & ~MSG_WAITALL) | MSG_DONTWAIT));
        done += result > 0 ? (size_t)result : 0;
        if (result != -EAGAIN && (result <= 0 || !is_all || done == length)) {
            return done ? (ssize_t)done : answer(result);
        }
        take_rest(&rest, message, done);
        if (result == -EAGAIN && !await_later(fd, POLLIN, &deadline)) {
            return done ? (ssize_t)done : -1;
        }
    }
}

EXPORT int recvmmsg(int fd, struct mmsghdr *messages, unsigned count, int flags, struct timespec *timeout) {
    uint64_t deadline = run && timeout ? after(length_of(timeout)) : NEVER;
    unsigned done = 0;
    if (!run) {
        return (int)answer(RAW(SYS_recvmmsg, fd, messages, count, flags, timeout));
    }
    if (timeout && !is_proper(timeout)) {
        return errno = EINVAL, -1;
    }
    while (done < count && (!done || run->now < deadline)) {
        ssize_t length = recvmsg(fd, &messages[done].msg_hdr, flags & ~MSG_WAITFORONE);
        if (length < 0) {
            return done ? (int)done : -1;
        }
        messages[done++].msg_len = (unsigned)length;
        flags |= flags & MSG_WAITFORONE ? MSG_DONTWAIT : 0;
    }
    return (int)done;
}

EXPORT ssize_t sendto(int fd, const void *data, size_t length, int flags, const struct sockaddr *to, socklen_t room) {
    uint64_t deadline = 0;
    size_t done = 0;
    my.has_talked = my.has_acted = true;
    cancel_point();
    check_datagram(fd, to);
    if (!run || flags & MSG_DONTWAIT) {
        return answer(RAW(SYS_sendto, fd, data, length, flags, to, room));
    }
    for (;;) {
        long result = RAW(SYS_sendto, fd, (const char *)data + done, length - done, flags | MSG_DONTWAIT, to, room);
        if (result < 0 && result != -EAGAIN) {
            return done ? (ssize_t)done : answer(result);
        }
        done += result > 0 ? (size_t)result : 0;
        if (result >= 0 && done == length) {
            return (ssize_t)done;
        }
        if (!await_later(fd, POLLOUT, &deadline)) {
            return done ? (ssize_t)done : -1;
        }
    }
}

EXPORT ssize_t send(int fd, const void *data, size_t length, int flags) {
    return sendto(fd, data, length, flags, NULL, 0);
}
ALSO(__send, send)

EXPORT ssize_t sendmsg(int fd, const struct msghdr *message, int flags) {
    uint64_t deadline = 0;
    size_t done = 0;
    struct rest rest;
    my.has_talked = my.has_acted = true;
    cancel_point();
    check_datagram(fd, message->msg_name);
    if (!run || flags & MSG_DONTWAIT || message->msg_iovlen > PARTS) {
        return await_ready(fd, POLLOUT, flags) ? answer(RAW(SYS_sendmsg, fd, message, flags)) : -1;
    }
    size_t length = length_of_message(message);
    for (;;) {
        long result = RAW(SYS_sendmsg, fd, done ? &rest.message : message, flags | MSG_DONTWAIT);
        if (result < 0 && result != -EAGAIN) {
            return done ? (ssize_t)done : answer(result);
        }
        done += result > 0 ? (size_t)result : 0;
        if (result >= 0 && done >= length) {
            return (ssize_t)done;
        }
        take_rest(&rest, message, done);
        if (!await_later(fd, POLLOUT, &deadline)) {
            return done ? (ssize_t)done : -1;
        }
    }
}

EXPORT int sendmmsg(int fd, struct mmsghdr *messages, unsigned count, int flags) {
    unsigned done = 0;
    if (!run) {
        return (int)answer(RAW(SYS_sendmmsg, fd, messages, count, flags));
    }
    for (; done < count; done++) {
        ssize_t length = sendmsg(fd, &messages[done].msg_hdr, flags);
        if (length < 0) {
            return done ? (int)done : -1;
        }
        messages[done].msg_len = (unsigned)length;
    }
    return (int)done;
}

EXPORT int accept4(int fd, struct sockaddr *restrict from, socklen_t *restrict room, int flags) {
    my.has_talked = my.has_acted = true;
    return await_ready(fd, POLLIN, 0) ? (int)answer(RAW(SYS_accept4, fd, from, room, flags)) : -1;
}

EXPORT int accept(int fd, struct sockaddr *restrict from, socklen_t *restrict room) {
    return accept4(fd, from, room, 0);
}

/* ---- reading ---- */

#define TENTH (SECOND / 10)

/* Returns whether a terminal that delivers single bytes (not lines) has a timeout, VTIME. */
static bool has_timeout(int fd, struct termios *settings) {
    return !RAW(SYS_ioctl, fd, TCGETS, settings) && !(settings->c_lflag & ICANON) && settings->c_cc[VTIME];
}

/* Reads from a terminal with a timeout. If VMIN is 0, VTIME limits the wait for the first byte, and otherwise the wait
 * between two bytes. */
static ssize_t read_terminal(int fd, char *data, size_t length, const struct termios *settings) {
    uint64_t most = settings->c_cc[VTIME] * TENTH, deadline = settings->c_cc[VMIN] ? NEVER : after(most);
    size_t done = 0, least = settings->c_cc[VMIN] ? settings->c_cc[VMIN] : 1;
    for (;;) {
        int count = 0;
        if (!await_until(fd, POLLIN, deadline)) {
            return done || errno == EAGAIN ? (ssize_t)done : -1;
        }
        RAW(SYS_ioctl, fd, FIONREAD, &count);
        size_t part = count > 0 && (size_t)count < length - done ? (size_t)count : length - done;
        long result = RAW(SYS_read, fd, data + done, count > 0 ? part : length - done);
        if (result <= 0) {
            return done ? (ssize_t)done : answer(result);
        }
        done += (size_t)result;
        if (done >= least || done == length) {
            return (ssize_t)done;
        }
        deadline = after(most);
    }
}

EXPORT ssize_t read(int fd, void *data, size_t length) {
    struct pollfd polled = {fd, POLLIN, 0};
    struct termios settings;
    cancel_point();
    if (run && !look_at(&polled, 1)) {
        if (!(RAW(SYS_fcntl, fd, F_GETFL) & O_NONBLOCK) && has_timeout(fd, &settings)) {
            return read_terminal(fd, data, length, &settings);
        }
        if (!await_ready(fd, POLLIN, 0)) {
            return -1;
        }
    }
    if (run) {
        timers_read(fd);
    }
    ssize_t result = answer(RAW(SYS_read, fd, data, length));
    random_read(fd, &(struct iovec){data, length}, 1, result);
    return result;
}
ALSO(__read, read)

EXPORT ssize_t readv(int fd, const struct iovec *parts, int count) {
    bool is_ready = await_ready(fd, POLLIN, 0);
    if (run && is_ready) {
        timers_read(fd);
    }
    ssize_t result = is_ready ? answer(RAW(SYS_readv, fd, parts, count)) : -1;
    random_read(fd, parts, count, result);
    return result;
}

/* With the offset -1 the call reads at the descriptor's own position, and may wait. */
EXPORT ssize_t preadv2(int fd, const struct iovec *parts, int count, off_t offset, int flags) {
    bool is_ready = offset != -1 || flags & RWF_NOWAIT || await_ready(fd, POLLIN, 0);
    return is_ready ? answer(RAW(SYS_preadv2, fd, parts, count, offset, 0, flags)) : -1;
}
ALSO(preadv64v2, preadv2)

EXPORT int eventfd_read(int fd, eventfd_t *value) {
    return read(fd, value, sizeof *value) == sizeof *value ? 0 : -1;
}

/* The fortified forms of these functions, which also receive the size of the buffer. */
extern void __chk_fail(void) __attribute__((noreturn));
EXPORT ssize_t __read_chk(int fd, void *data, size_t length, size_t room);
ssize_t __read_chk(int fd, void *data, size_t length, size_t room) {
    return room < length ? (__chk_fail(), -1) : read(fd, data, length);
}

EXPORT ssize_t __recv_chk(int fd, void *data, size_t length, size_t room, int flags);
ssize_t __recv_chk(int fd, void *data, size_t length, size_t room, int flags) {
    return room < length ? (__chk_fail(), -1) : recv(fd, data, length, flags);
}

EXPORT ssize_t __recvfrom_chk(int fd, void *data, size_t length, size_t room, int flags, struct sockaddr *from,
                              socklen_t *size);
ssize_t __recvfrom_chk(int fd, void *data, size_t length, size_t room, int flags, struct sockaddr *from,
                       socklen_t *size) {
    return room < length ? (__chk_fail(), -1) : recvfrom(fd, data, length, flags, from, size);
}

/* ---- writing ---- */

/* Writes data in pieces if there is more than a pipe accepts at once. A single call would make the kernel wait for the
 * reader. */
static ssize_t write_pieces(int fd, const char *data, size_t length) {
    size_t done = 0;
    while (done < length) {
        size_t piece = length - done < PIECE ? length - done : PIECE;
        long result = await_until(fd, POLLOUT, 0) ? answer(RAW(SYS_write, fd, data + done, piece)) : -1;
        if (result < 0) {
            return done ? (ssize_t)done : -1;
        }
        done += (size_t)result;
    }
    return (ssize_t)done;
}

/* Returns the mode of a file if a write to it may wait. This is so if the file blocks, and has no room or gets more
 * than a pipe accepts. Otherwise returns 0. */
static mode_t mode_of_blocking(int fd, size_t length) {
    struct pollfd polled = {fd, POLLOUT, 0};
    struct stat status;
    bool waits = run && (length > PIECE || !look_at(&polled, 1));
    return waits && !(RAW(SYS_fcntl, fd, F_GETFL) & O_NONBLOCK) && !RAW(SYS_fstat, fd, &status) ? status.st_mode : 0;
}

EXPORT ssize_t write(int fd, const void *data, size_t length) {
    my.has_acted = true;
    cancel_point();
    check_datagram(fd, NULL);
    mode_t mode = mode_of_blocking(fd, length);
    if (length > PIECE && S_ISFIFO(mode)) {
        return write_pieces(fd, data, length);
    }
    if (S_ISSOCK(mode)) {
        return sendto(fd, data, length, 0, NULL, 0);
    }
    return !mode || await_ready(fd, POLLOUT, 0) ? answer(RAW(SYS_write, fd, data, length)) : -1;
}
ALSO(__write, write)

EXPORT ssize_t writev(int fd, const struct iovec *parts, int count) {
    my.has_acted = true;
    cancel_point();
    mode_t mode = mode_of_blocking(fd, 0);
    if (S_ISSOCK(mode)) {
        return sendmsg(fd, &(struct msghdr){.msg_iov = (struct iovec *)parts, .msg_iovlen = (size_t)count}, 0);
    }
    return !mode || await_ready(fd, POLLOUT, 0) ? answer(RAW(SYS_writev, fd, parts, count)) : -1;
}

EXPORT ssize_t pwritev2(int fd, const struct iovec *parts, int count, off_t offset, int flags) {
    bool is_ready = offset != -1 || flags & RWF_NOWAIT || await_ready(fd, POLLOUT, 0);
    return is_ready ? answer(RAW(SYS_pwritev2, fd, parts, count, offset, 0, flags)) : -1;
}
ALSO(pwritev64v2, pwritev2)

EXPORT int eventfd_write(int fd, eventfd_t value) {
    return write(fd, &value, sizeof value) == sizeof value ? 0 : -1;
}

/* ---- from one descriptor to another ---- */

EXPORT ssize_t splice(int from, off64_t *at, int to, off64_t *there, size_t length, unsigned flags) {
    bool is_ready = flags & SPLICE_F_NONBLOCK || (await_ready(from, POLLIN, 0) && await_ready(to, POLLOUT, 0));
    return is_ready ? answer(RAW(SYS_splice, from, at, to, there, length, flags)) : -1;
}

EXPORT ssize_t tee(int from, int to, size_t length, unsigned flags) {
    bool is_ready = flags & SPLICE_F_NONBLOCK || (await_ready(from, POLLIN, 0) && await_ready(to, POLLOUT, 0));
    return is_ready ? answer(RAW(SYS_tee, from, to, length, flags)) : -1;
}

EXPORT ssize_t vmsplice(int fd, const struct iovec *parts, size_t count, unsigned flags) {
    short events = (RAW(SYS_fcntl, fd, F_GETFL) & O_ACCMODE) == O_RDONLY ? POLLIN : POLLOUT;
    bool is_ready = flags & SPLICE_F_NONBLOCK || await_ready(fd, events, 0);
    return is_ready ? answer(RAW(SYS_vmsplice, fd, parts, count, flags)) : -1;
}

EXPORT ssize_t sendfile(int to, int from, off_t *at, size_t length) {
    return await_ready(to, POLLOUT, 0) ? answer(RAW(SYS_sendfile, to, from, at, length)) : -1;
}
ALSO(sendfile64, sendfile)
