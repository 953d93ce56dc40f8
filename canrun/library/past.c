/* Reads and writes by calls that are not socket calls: with an offset that means the current position, to and from
 * pipes or files, through streams of the C library, and by system call number. The kernel's own calls would read the
 * right data from a CAN socket. These replacements also return the socket's errors and the refusals of writes. */
#define _GNU_SOURCE
#include "library.h"

#include <errno.h>
#include <fcntl.h>
#include <poll.h>
#include <stdarg.h>
#include <stdio.h>
#include <string.h>
#include <sys/sendfile.h>
#include <sys/syscall.h>

/* ---- calls with flags ---- */

/* The flags that the kernel supports. A call with any other flag is passed to the kernel, which refuses it. */
#define KNOWN_FLAGS (RWF_HIPRI | RWF_DSYNC | RWF_SYNC | RWF_NOWAIT | RWF_APPEND)
#define HERE (-1)

EXPORT ssize_t preadv2(int fd, const struct iovec *parts, int count, off_t offset, int flags) {
    bool is_ours = offset == HERE && !flags && is_can_socket(fd);
    return is_ours ? readv(fd, parts, count) : real()->preadv2(fd, parts, count, offset, flags);
}

EXPORT ssize_t preadv64v2(int fd, const struct iovec *parts, int count, off64_t offset, int flags) {
    return preadv2(fd, parts, count, offset, flags);
}

EXPORT ssize_t pwritev2(int fd, const struct iovec *parts, int count, off_t offset, int flags) {
    bool is_ours = offset == HERE && !(flags & ~KNOWN_FLAGS) && is_can_socket(fd);
    return is_ours ? writev(fd, parts, count) : real()->pwritev2(fd, parts, count, offset, flags);
}

EXPORT ssize_t pwritev64v2(int fd, const struct iovec *parts, int count, off64_t offset, int flags) {
    return pwritev2(fd, parts, count, offset, flags);
}

/* ---- pipes and files ---- */

/* This function exists only if the virtual time library is loaded. That library is not notified when splice waits. */
__attribute__((weak)) bool canbusd_virtual_turn(void);

static ssize_t splice_from(int socket, off64_t *offset, int pipe, off64_t *pipe_offset, size_t length, unsigned flags) {
    ssize_t done;
    do {
        if (canbusd_virtual_turn && !(flags & SPLICE_F_NONBLOCK) && !(fcntl(socket, F_GETFL) & O_NONBLOCK)) {
            poll(&(struct pollfd){socket, POLLIN, 0}, 1, -1);
        }
        done = real()->splice(socket, offset, pipe, pipe_offset, length, flags);
    } while (done == 0 && length && !take_shown(socket));
    return done == 0 && length ? -1 : done;
}

/* Sends one message from a pipe. The message is removed from the pipe only after it has been sent. */
static ssize_t splice_to(int socket, int pipe, size_t length, unsigned flags) {
    char data[WIRE_LARGEST];
    int copy[2], before = errno;
    if (syscall(SYS_pipe2, copy, O_CLOEXEC)) {
        return refuse("splice", errno, "there are no descriptors for a copy of the message");
    }
    ssize_t done = tee(pipe, copy[1], MIN(length, sizeof data), flags);
    if (done > 0) {
        done = syscall(SYS_read, copy[0], data, (size_t)done);
        done = write(socket, data, (size_t)done);
    }
    if (done > 0) {
        syscall(SYS_read, pipe, data, (size_t)done);
    }
    before = done < 0 ? errno : before;
    syscall(SYS_close, copy[0]);
    syscall(SYS_close, copy[1]);
    errno = before;
    return done;
}

EXPORT ssize_t splice(int from, off64_t *from_offset, int to, off64_t *to_offset, size_t length, unsigned flags) {
    struct stat status;
    bool is_from = is_can_socket(from), is_to = !is_from && !from_offset && !to_offset && is_can_socket(to);
    if (is_to && length && !fstat(from, &status) && S_ISFIFO(status.st_mode)) {
        return splice_to(to, from, length, flags);
    }
    return is_from ? splice_from(from, from_offset, to, to_offset, length, flags)
                   : real()->splice(from, from_offset, to, to_offset, length, flags);
}

/* Sends part of a file as one message, as the kernel does. */
static ssize_t send_part(int socket, int file, off64_t *offset, size_t length) {
    char data[WIRE_LARGEST];
    off64_t from = offset ? *offset : lseek64(file, 0, SEEK_CUR);
    ssize_t done = from < 0 ? -1 : pread64(file, data, MIN(length, sizeof data), from);
    if (done <= 0 || (done = write(socket, data, (size_t)done)) < 0) {
        return done;
    }
    if (offset) {
        *offset += done;
    } else {
        lseek64(file, done, SEEK_CUR);
    }
    return done;
}

EXPORT ssize_t sendfile(int to, int from, off_t *offset, size_t length) {
    return is_can_socket(to) ? send_part(to, from, offset, length) : real()->sendfile(to, from, offset, length);
}

EXPORT ssize_t sendfile64(int to, int from, off64_t *offset, size_t length) {
    return sendfile(to, from, offset, length);
}

/* ---- streams ---- */

static ssize_t read_stream(void *fd, char *data, size_t length) {
    return read((int)(intptr_t)fd, data, length);
}

/* Writes the data of a stream. A stream expects 0, not -1, as the result of a failed write. */
static ssize_t write_stream(void *fd, const char *data, size_t length) {
    ssize_t done = write((int)(intptr_t)fd, data, length);
    return done < 0 ? 0 : done;
}

static int close_stream(void *fd) {
    return close((int)(intptr_t)fd);
}

/* Opens a stream on a CAN socket. The stream reads and writes with this library's functions. */
EXPORT FILE *fdopen(int fd, const char *mode) {
    static const cookie_io_functions_t calls = {read_stream, write_stream, NULL, close_stream};
    if (!is_can_socket(fd)) {
        return real()->fdopen(fd, mode);
    }
    FILE *stream = fopencookie((void *)(intptr_t)fd, mode, calls);
    if (stream) {
        stream->_fileno = fd;
    }
    if (stream && strchr(mode, 'e')) {
        fcntl(fd, F_SETFD, FD_CLOEXEC);
    }
    return stream;
}

/* A glibc flag for streams of files. The C library ignores the descriptor of a stream that this fdopen has created. In
 * other streams without this flag the descriptor is arbitrary. */
#define IS_OF_FILE 0x2000
EXPORT int fileno(FILE *stream) {
    bool is_ours = !(stream->_flags & IS_OF_FILE) && stream->_fileno >= 0 && is_can_socket(stream->_fileno);
    return is_ours ? stream->_fileno : real()->fileno(stream);
}

EXPORT int fileno_unlocked(FILE *stream) {
    return fileno(stream);
}

/* ---- calls by system call number ---- */

#define FD ((int)of[0])
#define AT(index, type) ((type)of[index])

static long call_socket(long number, const long of[6]) {
    switch (number) {
    case SYS_bind: return bind(FD, AT(1, struct sockaddr *), AT(2, socklen_t));
    case SYS_connect: return connect(FD, AT(1, struct sockaddr *), AT(2, socklen_t));
    case SYS_getsockname: return getsockname(FD, AT(1, struct sockaddr *), AT(2, socklen_t *));
    case SYS_getpeername: return getpeername(FD, AT(1, struct sockaddr *), AT(2, socklen_t *));
    case SYS_shutdown: return shutdown(FD, AT(1, int));
    case SYS_setsockopt: return setsockopt(FD, AT(1, int), AT(2, int), AT(3, void *), AT(4, socklen_t));
    case SYS_getsockopt: return getsockopt(FD, AT(1, int), AT(2, int), AT(3, void *), AT(4, socklen_t *));
    case SYS_recvfrom:
        return recvfrom(FD, AT(1, void *), AT(2, size_t), AT(3, int), AT(4, struct sockaddr *), AT(5, socklen_t *));
    case SYS_recvmsg: return recvmsg(FD, AT(1, struct msghdr *), AT(2, int));
    case SYS_recvmmsg:
        return recvmmsg(FD, AT(1, struct mmsghdr *), AT(2, unsigned), AT(3, int), AT(4, struct timespec *));
    case SYS_sendto:
        return sendto(FD, AT(1, void *), AT(2, size_t), AT(3, int), AT(4, struct sockaddr *), AT(5, socklen_t));
    case SYS_sendmsg: return sendmsg(FD, AT(1, struct msghdr *), AT(2, int));
    default: return sendmmsg(FD, AT(1, struct mmsghdr *), AT(2, unsigned), AT(3, int));
    }
}

static long call_file(long number, const long of[6]) {
    switch (number) {
    case SYS_read: return read(FD, AT(1, void *), AT(2, size_t));
    case SYS_write: return write(FD, AT(1, void *), AT(2, size_t));
    case SYS_readv: return readv(FD, AT(1, struct iovec *), AT(2, int));
    case SYS_writev: return writev(FD, AT(1, struct iovec *), AT(2, int));
    /* The 64-bit offset occupies two arguments, so the flags are the sixth argument. */
    case SYS_preadv2: return preadv2(FD, AT(1, struct iovec *), AT(2, int), AT(3, off_t), AT(5, int));
    case SYS_pwritev2: return pwritev2(FD, AT(1, struct iovec *), AT(2, int), AT(3, off_t), AT(5, int));
    case SYS_splice: return splice(FD, AT(1, off64_t *), AT(2, int), AT(3, off64_t *), AT(4, size_t), AT(5, unsigned));
    case SYS_sendfile: return sendfile(FD, AT(1, int), AT(2, off_t *), AT(3, size_t));
    case SYS_ioctl: return ioctl(FD, AT(1, unsigned long), AT(2, void *));
    default: return close(FD);
    }
}

EXPORT long(syscall)(long number, ...) {
    va_list list;
    long of[6];
    va_start(list, number);
    for (int i = 0; i < 6; i++) {
        of[i] = va_arg(list, long);
    }
    va_end(list);
    switch (number) {
    case SYS_socket: return socket(FD, AT(1, int), AT(2, int));
    case SYS_bind:
    case SYS_connect:
    case SYS_getsockname:
    case SYS_getpeername:
    case SYS_shutdown:
    case SYS_setsockopt:
    case SYS_getsockopt:
    case SYS_recvfrom:
    case SYS_recvmsg:
    case SYS_recvmmsg:
    case SYS_sendto:
    case SYS_sendmsg:
    case SYS_sendmmsg: return call_socket(number, of);
    case SYS_read:
    case SYS_write:
    case SYS_readv:
    case SYS_writev:
    case SYS_preadv2:
    case SYS_pwritev2:
    case SYS_splice:
    case SYS_sendfile:
    case SYS_ioctl:
    case SYS_close: return call_file(number, of);
    default: return (real()->syscall)(number, of[0], of[1], of[2], of[3], of[4], of[5]);
    }
}
