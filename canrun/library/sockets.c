/* Creates CAN sockets, recognizes them, and replaces calls that a CAN socket refuses. */
#define _GNU_SOURCE
#include "library.h"

#include <errno.h>
#include <fcntl.h>
#include <linux/can.h>
#include <stdio.h>
#include <string.h>
#include <sys/syscall.h>
#include <sys/un.h>
#include <time.h>
#include <unistd.h>

/* The protocols of CAN sockets, indexed by their numbers in linux/can.h, like proto_tab in the kernel. */
static const struct protocol *const protocols[CAN_NPROTO] = {
    [CAN_RAW] = &raw_protocol,
    [CAN_BCM] = &bcm_protocol,
    [CAN_J1939] = &j1939_protocol,
    [CAN_ISOTP] = &isotp_protocol,
};

static const struct protocol *protocol_of(int number) {
    const struct protocol *protocol = number < 0 || number >= CAN_NPROTO ? NULL : protocols[number];
    return protocol && protocol->family ? protocol : NULL;
}

struct socket socket_of(int fd) {
    const socklen_t head = offsetof(struct sockaddr_un, sun_path) + 1;
    struct socket sock = {.fd = fd};
    struct sockaddr_un name;
    socklen_t length = sizeof name;
    int before = errno;
    long failed = syscall(SYS_getsockname, fd, &name, &length);
    errno = before;
    if (!failed && name.sun_family == AF_NETLINK) {
        sock.protocol = &netlink_protocol;
    }
    if (failed || name.sun_family != AF_UNIX || length < head + sizeof WIRE_NAME || length >= head + sizeof sock.name ||
        name.sun_path[0] || memcmp(name.sun_path + 1, WIRE_NAME, sizeof WIRE_NAME - 1)) {
        return sock;
    }
    memcpy(sock.name, name.sun_path + 1, length - head);
    sock.protocol = protocol_of(name.sun_path[sizeof WIRE_NAME] - '0');
    if (HAS(sock, shows_error)) {
        note_error_of(fd);
    }
    if (HAS(sock, has_ways)) {
        note_queue_of(fd);
    }
    return sock;
}

bool is_can_socket(int fd) {
    struct socket sock = socket_of(fd);
    return sock.protocol && sock.protocol->family == PF_CAN;
}

/* Returns whether sockets of this type and protocol exist. If not, sets errno like can_create in the kernel. */
static bool has_protocol(int type, int number) {
    if (type < 0 || type > SOCK_PACKET) {
        refuse("socket", EINVAL, "there is no such type of sockets");
    } else if (number < 0 || number >= CAN_NPROTO) {
        refuse("socket", EINVAL, "this is no protocol of linux/can.h");
    } else if (protocols[number] && protocols[number]->type != type) {
        refuse("socket", EPROTOTYPE, "CAN_RAW is SOCK_RAW, the others are SOCK_DGRAM");
    } else if (!protocol_of(number)) {
        refuse("socket", EPROTONOSUPPORT, "of the protocols there are CAN_RAW, CAN_BCM, CAN_J1939 and CAN_ISOTP");
    } else {
        return true;
    }
    return false;
}

/* Assigns a unique name to a socket. Returns 0, or an errno. */
static int give_name(int fd, int protocol, struct sockaddr_un *name) {
    static unsigned number;
    struct timespec now;
    clock_gettime(CLOCK_MONOTONIC, &now);
    int length = snprintf(name->sun_path + 1, WIRE_NAME_ROOM, WIRE_NAME "%d/%ld.%u.%llx", protocol, syscall(SYS_gettid),
                          __atomic_fetch_add(&number, 1, __ATOMIC_RELAXED),
                          (unsigned long long)now.tv_sec * 1000000000 + (unsigned long long)now.tv_nsec);
    socklen_t whole = (socklen_t)(offsetof(struct sockaddr_un, sun_path) + 1 + (size_t)length);
    return syscall(SYS_bind, fd, name, whole) ? errno : 0;
}

/* Reports why the bridge could not be started. If the reason is a limit of the process or the system, the errno is the
 * same as for any other socket. */
static int refuse_bridge(int error) {
    bool is_limit = error == EMFILE || error == ENFILE || error == ENOMEM || error == EAGAIN;
    return refuse("socket", is_limit ? error : EPROTONOSUPPORT, strerror(error));
}

static int start_pair(int ends[2], int protocol) {
    struct sockaddr_un name = {.sun_family = AF_UNIX};
    int error = give_name(ends[0], protocol, &name);
    if (error) {
        return refuse("socket", error, "the pair gets no name");
    }
    int memory = share_make(name.sun_path + 1);
    if (memory < 0) {
        return refuse("socket", errno, "there is no memory to share with the bridge");
    }
    error = start_bridge(ends[1], memory);
    syscall(SYS_close, memory);
    return error ? refuse_bridge(error) : 0;
}

int can_socket(int type, int protocol) {
    int flags = type & (SOCK_NONBLOCK | SOCK_CLOEXEC), ends[2], before = errno;
    if (!has_protocol(type & ~flags, protocol) ||
        syscall(SYS_socketpair, AF_UNIX, SOCK_SEQPACKET | SOCK_CLOEXEC, 0, ends)) {
        return -1;
    }
    int result = start_pair(ends, protocol);
    int error = result ? errno : before;
    syscall(SYS_close, ends[1]);
    if (result) {
        syscall(SYS_close, ends[0]);
        return fail(error);
    }
    if (!(flags & SOCK_CLOEXEC)) {
        syscall(SYS_fcntl, ends[0], F_SETFD, 0);
    }
    if (flags & SOCK_NONBLOCK) {
        syscall(SYS_fcntl, ends[0], F_SETFL, O_RDWR | O_NONBLOCK);
    }
    errno = error;
    return ends[0];
}

EXPORT int socket(int family, int type, int protocol) {
    return family == PF_CAN ? can_socket(type, protocol) : real()->socket(family, type, protocol);
}

static int refuse_call(const char *call) {
    return refuse(call, EOPNOTSUPP, "a CAN socket has no such call");
}

EXPORT int socketpair(int family, int type, int protocol, int ends[2]) {
    return family == PF_CAN ? refuse_call("socketpair") : real()->socketpair(family, type, protocol, ends);
}

EXPORT int listen(int fd, int backlog) {
    return is_can_socket(fd) ? refuse_call("listen") : real()->listen(fd, backlog);
}

EXPORT int accept(int fd, struct sockaddr *restrict address, socklen_t *restrict length) {
    return is_can_socket(fd) ? refuse_call("accept") : real()->accept(fd, address, length);
}

EXPORT int accept4(int fd, struct sockaddr *restrict address, socklen_t *restrict length, int flags) {
    bool is_odd = flags & ~(SOCK_NONBLOCK | SOCK_CLOEXEC);
    return is_can_socket(fd) && !is_odd ? refuse_call("accept4") : real()->accept4(fd, address, length, flags);
}

EXPORT int shutdown(int fd, int how) {
    return is_can_socket(fd) ? refuse_call("shutdown") : real()->shutdown(fd, how);
}
