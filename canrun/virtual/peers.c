/* Connections to servers outside the run, which end the run. */
#define _GNU_SOURCE
#include "calls.h"
#include "peers.h"
#include "proc.h"
#include "tell.h"

#include <arpa/inet.h>
#include <fcntl.h>
#include <netinet/in.h>
#include <netinet/tcp.h>
#include <stdio.h>
#include <stdlib.h>
#include <string.h>
#include <sys/socket.h>
#include <sys/un.h>

#define NAME_SERVICES "/run/systemd/"

/* Ends the run, because time does not stop for a program outside the run. `host` is `, at ` followed by the address, or
 * is empty. */
static void fail_with(const char *does, const char *what, const char *host) {
    char test[TEST_ROOM];
    tell(true,
         "%.60s (thread %ld of process %ld) %s %s, which is no program of this run%s%s; start it inside of the run",
         program_invocation_short_name, RAW(SYS_gettid, 0), RAW(SYS_getpid, 0), does, what, host, tell_test(test));
}

void fail_outside(const char *does, const char *kind, const struct sockaddr *to) {
    char host[INET6_ADDRSTRLEN] = "?", what[60], at[80];
    const void *number = to->sa_family == AF_INET ? (const void *)&((const struct sockaddr_in *)to)->sin_addr
                                                  : &((const struct sockaddr_in6 *)to)->sin6_addr;
    inet_ntop(to->sa_family, number, host, sizeof host);
    snprintf(what, sizeof what, "%s %u", kind, port_of(to));
    snprintf(at, sizeof at, ", at %s", host);
    fail_with(does, what, at);
}

/* Returns whether a process belongs to the run, that is, whether it is a descendant of the coordinator. Returns true if
 * the process has ended. */
static bool is_of_run(uint32_t pid) {
    return proc_is_below(pid, (uint32_t)coordinator_pid) || !proc_parent(pid);
}

static bool has_port(uint32_t port) {
    return run->ports[port / 8] >> port % 8 & 1;
}

uint32_t port_of(const struct sockaddr *address) {
    return address->sa_family == AF_INET    ? ntohs(((const struct sockaddr_in *)address)->sin_port)
           : address->sa_family == AF_INET6 ? ntohs(((const struct sockaddr_in6 *)address)->sin6_port)
                                            : 0;
}

/* Makes a TCP socket send at once, because otherwise the kernel delays data by the real clock. Connections inherit this
 * option from the listening socket. */
static void send_at_once(int fd) {
    int on = 1;
    RAW(SYS_setsockopt, fd, IPPROTO_TCP, TCP_NODELAY, &on, sizeof on);
}

EXPORT int listen(int fd, int backlog) {
    struct sockaddr_storage address;
    socklen_t length = sizeof address;
    if (run) {
        send_at_once(fd);
    }
    long result = RAW(SYS_listen, fd, backlog);
    if (run && !result && !RAW(SYS_getsockname, fd, &address, &length)) {
        uint32_t port = port_of((struct sockaddr *)&address);
        run->ports[port / 8] |= (uint8_t)(1 << port % 8);
    }
    return (int)answer(result);
}

/* Ends the run if the other end of a connection is outside the run. Services that resolve user and host names may be
 * outside. */
static void check_peer(int fd, const struct sockaddr *to) {
    char text[160];
    int type = 0;
    struct ucred peer = {0};
    socklen_t length = sizeof peer, size = sizeof type;
    uint32_t port = port_of(to);
    RAW(SYS_getsockopt, fd, SOL_SOCKET, SO_TYPE, &type, &size);
    if (type != SOCK_STREAM && type != SOCK_SEQPACKET) {
        datagram_connected(fd, to);
        return;
    }
    if (to->sa_family == AF_UNIX) {
        const struct sockaddr_un *path = (const struct sockaddr_un *)to;
        bool is_known = !RAW(SYS_getsockopt, fd, SOL_SOCKET, SO_PEERCRED, &peer, &length);
        bool is_of_names = !strncmp(path->sun_path, NAME_SERVICES, sizeof NAME_SERVICES - 1);
        if (is_known && !is_of_names && peer.pid > 0 && !is_of_run((uint32_t)peer.pid)) {
            snprintf(text, sizeof text, "%.*s of process %d", (int)sizeof path->sun_path,
                     path->sun_path[0] ? path->sun_path : "a socket", peer.pid);
            fail_with("connects to", text, "");
        }
    } else if (port && !has_port(port)) {
        fail_outside("connects to", "TCP port", to);
    }
}

struct connection {
    int fd;
    const struct sockaddr *to;
    socklen_t length;
};

/* Tries to connect. The socket is nonblocking only during this call. */
static long try_connect(void *given) {
    struct connection *it = given;
    int flags = (int)RAW(SYS_fcntl, it->fd, F_GETFL);
    RAW(SYS_fcntl, it->fd, F_SETFL, flags | O_NONBLOCK);
    long result = RAW(SYS_connect, it->fd, it->to, it->length);
    RAW(SYS_fcntl, it->fd, F_SETFL, flags);
    return result;
}

/* Connects to a Unix socket, waiting while the listener's queue is full. */
static long connect_unix(int fd, const struct sockaddr *to, socklen_t length) {
    struct connection it = {fd, to, length};
    if (RAW(SYS_fcntl, fd, F_GETFL) & O_NONBLOCK) {
        return RAW(SYS_connect, fd, to, length);
    }
    uint64_t deadline = timeout_of(fd, POLLOUT);
    long result = try_until(try_connect, &it, EAGAIN, deadline, deadline == NEVER);
    return result == -ETIMEDOUT ? -EAGAIN : result;
}

/* The kernel's CAN sockets use the real clock. A canbusd-run inside the run provides its own CAN sockets, and sets this
 * variable. */
#define HAS_INTERFACES "CANBUSD_INTERFACES"

EXPORT int socket(int domain, int type, int protocol) {
    static _Atomic bool is_said;
    char test[TEST_ROOM];
    if (!run || domain != PF_CAN || getenv(HAS_INTERFACES)) {
        return (int)answer(RAW(SYS_socket, domain, type, protocol));
    }
    if (!is_said) {
        is_said = true;
        tell(false,
             "%.60s (process %ld) has no CAN sockets%s: they take a server and canbusd-run inside of the run, as in "
             "canbusd-run --virtual sh -c 'canbusd serve --bitrate 500000 can0 & sleep 1; canbusd-run %.60s ..'; "
             "examples/scenario.sh is a whole one",
             program_invocation_short_name, RAW(SYS_getpid, 0), tell_test(test), program_invocation_short_name);
    }
    return errno = EAFNOSUPPORT, -1;
}

EXPORT int connect(int fd, const struct sockaddr *to, socklen_t length) {
    my.has_talked = true;
    cancel_point();
    if (run && port_of(to)) {
        send_at_once(fd);
    }
    long result = run && to->sa_family == AF_UNIX ? connect_unix(fd, to, length) : RAW(SYS_connect, fd, to, length);
    if (run && (!result || result == -EINPROGRESS)) {
        check_peer(fd, to);
    }
    return (int)answer(result);
}
