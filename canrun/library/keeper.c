/* Sends requests to the keeper of the interfaces (see link.h), and starts the keeper if necessary. */
#define _GNU_SOURCE
#include "library.h"

#include "keeper.h"

#include <errno.h>
#include <stdlib.h>
#include <string.h>
#include <sys/syscall.h>
#include <sys/un.h>

/* How many milliseconds to wait for the keeper's reply. This is longer than the keeper waits for the server. */
#define PATIENCE 6000
/* How many connections from programs may wait for the keeper at the same time. */
#define BACKLOG 128

/* Updates an FNV-1a hash with data. */
static uint64_t mix(uint64_t sum, const void *data, size_t length) {
    for (const unsigned char *at = data, *end = at + length; at < end; at++) {
        sum = (sum ^ *at) * 0x100000001B3u;
    }
    return sum;
}

/* Builds the socket name of this user's keeper for this server and these interfaces. The hash includes the names of the
 * interfaces, because an index is only a position in the list of names. It also includes the device and inode of the
 * server's socket file, because another server may later use the same path. */
static socklen_t name_keeper(struct sockaddr_un *name) {
    const char *server = getenv("CANBUSD_ADDRESS");
    struct stat file;
    uint64_t sum = mix(0xCBF29CE484222325u, server ? server : "", server ? strlen(server) : 0);
    sum = mix(sum, interface_names(), strlen(interface_names()));
    if (server && *server == '/' && !stat(server, &file)) {
        sum = mix(sum, &file.st_dev, sizeof file.st_dev);
        sum = mix(sum, &file.st_ino, sizeof file.st_ino);
    }
    *name = (struct sockaddr_un){.sun_family = AF_UNIX};
    int length = snprintf(name->sun_path + 1, sizeof name->sun_path - 1, LINK_KEEPER "%u/%016llx", geteuid(),
                          (unsigned long long)sum);
    return (socklen_t)(offsetof(struct sockaddr_un, sun_path) + 1 + (size_t)length);
}

/* Starts a keeper that listens at this name. Returns 0 if another process has already started one. */
static int start_keeper(const struct sockaddr_un *name, socklen_t length) {
    int fd = (int)syscall(SYS_socket, AF_UNIX, SOCK_SEQPACKET | SOCK_CLOEXEC | SOCK_NONBLOCK, 0), error = 0;
    if (fd < 0) {
        return errno;
    }
    if (syscall(SYS_bind, fd, name, length)) {
        error = errno == EADDRINUSE ? 0 : errno;
    } else {
        error = syscall(SYS_listen, fd, BACKLOG) ? errno : start_bridge(fd, fd);
    }
    syscall(SYS_close, fd);
    return error;
}

/* Connects to the keeper. Returns a file descriptor, or -1 with errno set. A keeper that belongs to another user is
 * refused. */
static int connect_keeper(const struct sockaddr_un *name, socklen_t length) {
    struct ucred peer = {0};
    int fd = (int)syscall(SYS_socket, AF_UNIX, SOCK_SEQPACKET | SOCK_CLOEXEC, 0);
    int error = fd < 0 || syscall(SYS_connect, fd, name, length) ? errno : 0;
    if (!error && (syscall(SYS_getsockopt, fd, SOL_SOCKET, SO_PEERCRED, &peer, &(socklen_t){sizeof peer}) ||
                   peer.uid != geteuid())) {
        error = EACCES;
    }
    if (error && fd >= 0) {
        syscall(SYS_close, fd);
    }
    return error ? fail(error) : fd;
}

/* Sends the request and receives the reply. If `copy` is a file descriptor, it is sent with the request. Returns an
 * errno, or 0. */
static int talk(int fd, const struct link_request *request, int copy, struct link_reply *reply) {
    struct pollfd polled = {fd, POLLIN, 0};
    union {
        char room[CMSG_SPACE(sizeof(int))];
        struct cmsghdr align;
    } control = {.align = {.cmsg_level = SOL_SOCKET, .cmsg_type = SCM_RIGHTS, .cmsg_len = CMSG_LEN(sizeof copy)}};
    struct iovec part = {(void *)request, sizeof *request};
    struct msghdr message = {.msg_iov = &part, .msg_iovlen = 1};
    if (copy >= 0) {
        memcpy(CMSG_DATA(&control.align), &copy, sizeof copy);
        message.msg_control = &control;
        message.msg_controllen = sizeof control;
    }
    if (syscall(SYS_sendmsg, fd, &message, MSG_NOSIGNAL) < 0) {
        return ENXIO;
    }
    int ready;
    while ((ready = real()->poll(&polled, 1, PATIENCE)) < 0 && errno == EINTR) {
    }
    if (ready <= 0) {
        return ETIMEDOUT;
    }
    return syscall(SYS_recvfrom, fd, reply, sizeof *reply, MSG_DONTWAIT, NULL, NULL) == sizeof *reply ? 0 : ENXIO;
}

int keeper_ask(const struct link_request *request, int copy, struct link_reply *reply) {
    struct sockaddr_un name;
    socklen_t length = name_keeper(&name);
    int before = errno, error = 0;
    *reply = (struct link_reply){0};
    /* A second attempt is needed if the keeper is just exiting because its server has exited. */
    for (int i = 0; i < 2; i++) {
        int fd = connect_keeper(&name, length);
        if (fd < 0 && errno == ECONNREFUSED && request->kind != LINK_LOOK) {
            error = start_keeper(&name, length);
            fd = error ? -1 : connect_keeper(&name, length);
        }
        error = fd >= 0 ? talk(fd, request, copy, reply) : error ? error : errno;
        if (fd >= 0) {
            syscall(SYS_close, fd);
        }
        if (error != ENXIO) {
            break;
        }
    }
    errno = before;
    if (error) {
        reply->error = error == ENXIO || error == ECONNREFUSED ? ENODEV : error;
        strcpy(reply->text, error == EACCES ? "another user has the name of the process that keeps the interfaces"
                                            : "the process that keeps the interfaces does not reply");
    }
    return reply->error;
}
