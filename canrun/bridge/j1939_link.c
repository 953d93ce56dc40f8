/* The connection of a J1939 socket to the host of its interface. */
#define _GNU_SOURCE
#include "j1939.h"

#include <errno.h>
#include <poll.h>
#include <stddef.h>
#include <stdio.h>
#include <stdlib.h>
#include <string.h>
#include <sys/socket.h>
#include <sys/uio.h>
#include <unistd.h>

static int fd = -1;
static char data_room[WIRE_LARGEST_J1939];

/* Messages from the host that arrived before the reply. */
static struct kept {
    struct kept *next;
    struct j1939_told told;
    size_t length;
    char data[];
} * kept, **kept_end = &kept;

int link_fd(void) {
    return fd;
}

void link_close(void) {
    if (fd >= 0) {
        close(fd);
    }
    fd = -1;
}

/* Updates an FNV-1a hash with a string. The hashed strings identify the server and, in virtual time, the run. */
static uint64_t hash_of(const char *text, uint64_t hash) {
    for (; text && *text; text++) {
        hash = (hash ^ (uint8_t)*text) * 0x100000001b3;
    }
    return hash;
}

static int link_name(int index, struct sockaddr_un *name, socklen_t *length) {
    char interface[IFNAMSIZ];
    if (!interface_name(index, interface)) {
        return refused(ENODEV, "no interface has this index");
    }
    uint64_t hash = hash_of(getenv("CANBUSD_RUN_VIRTUAL"), hash_of(getenv("CANBUSD_ADDRESS"), 0xcbf29ce484222325));
    *name = (struct sockaddr_un){.sun_family = AF_UNIX};
    int written = snprintf(name->sun_path + 1, sizeof name->sun_path - 1, J1939_NAME "%u/%016llx/%s", geteuid(),
                           (unsigned long long)hash, interface);
    *length = (socklen_t)(offsetof(struct sockaddr_un, sun_path) + 1 + (size_t)written);
    return 0;
}

int link_open(int index, struct sockaddr_un *name, socklen_t *length) {
    struct ucred peer = {0};
    int error = link_name(index, name, length);
    if (error) {
        return error;
    }
    int made = socket(AF_UNIX, SOCK_SEQPACKET | SOCK_CLOEXEC, 0);
    if (made < 0) {
        return refused(errno, "the bridge of the socket has no descriptor for the host of its interface");
    }
    if (connect(made, (struct sockaddr *)name, *length)) {
        error = errno == ENOENT ? ECONNREFUSED : errno;
        close(made);
        return refused(error, "the host of the interface can't be reached");
    }
    if (getsockopt(made, SOL_SOCKET, SO_PEERCRED, &peer, &(socklen_t){sizeof peer}) || peer.uid != geteuid()) {
        close(made);
        return refused(EACCES, "another user has the place of the host of this interface");
    }
    fd = made;
    return 0;
}

/* Reads the next message from the connection. Returns the length of its data, or -1 if there is no message or the host
 * is gone. */
static ssize_t read_one(struct j1939_told *told) {
    struct iovec parts[] = {{told, sizeof *told}, {data_room, sizeof data_room}};
    ssize_t length = recvmsg(fd, &(struct msghdr){.msg_iov = parts, .msg_iovlen = 2}, MSG_DONTWAIT);
    if (length >= (ssize_t)sizeof *told) {
        return length - (ssize_t)sizeof *told;
    }
    if (length >= 0 || (errno != EAGAIN && errno != EINTR)) {
        link_close();
    }
    return -1;
}

static void keep(const struct j1939_told *told, size_t length) {
    struct kept *one = malloc(sizeof *one + length);
    if (one) {
        *one = (struct kept){NULL, *told, length};
        memcpy(one->data, data_room, length);
        *kept_end = one;
        kept_end = &one->next;
    }
}

/* Waits for the host's reply. Returns the error in the reply. */
static int reply(void) {
    static char why[256];
    struct j1939_told told;
    for (uint64_t until = clock_now() + PATIENCE * SECOND; fd >= 0;) {
        ssize_t length = read_one(&told);
        if (length >= 0 && told.kind == TOLD_REPLY) {
            snprintf(why, sizeof why, "%.*s", (int)MIN(length, (ssize_t)sizeof why - 1), data_room);
            return refused(told.error, why);
        }
        if (length >= 0) {
            keep(&told, (size_t)length);
        } else if (fd >= 0 && poll(&(struct pollfd){fd, POLLIN, 0}, 1, PATIENCE * 1000) <= 0 && clock_now() >= until) {
            link_close(); /* A late reply must not be mistaken for the reply to the next request. */
            return refused(ETIMEDOUT, "the host of the interface does not reply");
        }
    }
    return refused(ECONNRESET, "the host of the interface is gone");
}

int link_ask(const struct j1939_ask *ask, const void *data, size_t length) {
    struct iovec parts[] = {{(void *)ask, sizeof *ask}, {(void *)data, length}};
    struct msghdr message = {.msg_iov = parts, .msg_iovlen = 2};
    if (fd < 0 || sendmsg(fd, &message, MSG_NOSIGNAL) < 0) {
        return refused(ECONNRESET, "the host of the interface is gone");
    }
    return reply();
}

bool link_take(struct j1939_told *told, const char **data, size_t *length) {
    struct kept *first = kept;
    *data = data_room;
    if (first) {
        *told = first->told;
        *length = first->length;
        memcpy(data_room, first->data, first->length);
        kept = first->next;
        kept_end = kept ? kept_end : &kept;
        free(first);
        return true;
    }
    if (fd < 0) {
        return false;
    }
    ssize_t got = read_one(told);
    if (got < 0 && fd < 0) {
        *told = (struct j1939_told){.kind = TOLD_GONE};
        *length = 0;
        return true;
    }
    *length = got < 0 ? 0 : (size_t)got;
    return got >= 0;
}
