/* Addresses and options of CAN sockets: bind, connect, getsockname, getpeername, setsockopt and getsockopt. */
#define _GNU_SOURCE
#include "library.h"

#include <errno.h>
#include <linux/can.h>
#include <stdint.h>
#include <string.h>

int copy_address(const struct socket *sock, const char *call, const struct sockaddr *address, socklen_t length,
                 struct sockaddr_can *can) {
    *can = (struct sockaddr_can){0};
    if (length > sizeof(struct sockaddr_storage) || length < sock->protocol->address_size) {
        return refuse(call, EINVAL, "the address is too short");
    }
    return copy_from(can, address, MIN(length, sizeof *can)) ? 0 : fail(EFAULT);
}

int ask_to_bind(const struct socket *sock, const char *call, enum wire_kind kind, const struct sockaddr_can *can) {
    struct wire_request request = {.kind = kind, .length = sizeof *can};
    struct iovec data = {(void *)can, sizeof *can};
    int result = ask(sock->fd, call, &request, &data, 1, NULL);
    return result && errno == ENXIO ? fail(ENODEV) : result;
}

int can_bind(const struct socket *sock, const struct sockaddr *address, socklen_t length) {
    struct sockaddr_can can;
    if (copy_address(sock, "bind", address, length, &can)) {
        return -1;
    }
    return can.can_family == AF_CAN ? ask_to_bind(sock, "bind", WIRE_BIND, &can)
                                    : refuse("bind", EINVAL, "the address is not of AF_CAN");
}

int no_connect(const struct socket *sock, const struct sockaddr *address, socklen_t length) {
    struct sockaddr_storage copy;
    (void)sock;
    if (length > sizeof copy) {
        return fail(EINVAL);
    }
    return copy_from(&copy, address, length)
               ? refuse("connect", EOPNOTSUPP, "CAN_RAW and CAN_ISOTP have bind in its place")
               : fail(EFAULT);
}

EXPORT int bind(int fd, const struct sockaddr *address, socklen_t length) {
    struct socket sock = socket_of(fd);
    return HAS(sock, bind) ? sock.protocol->bind(&sock, address, length) : real()->bind(fd, address, length);
}

EXPORT int connect(int fd, const struct sockaddr *address, socklen_t length) {
    struct socket sock = socket_of(fd);
    return HAS(sock, connect) ? sock.protocol->connect(&sock, address, length) : real()->connect(fd, address, length);
}

/* Copies a value into the program's buffer and reports the length. This is the full length if `is_whole` is true,
 * otherwise the number of copied bytes. */
static int copy_value(void *room, socklen_t *room_length, const void *value, socklen_t length, bool is_whole) {
    socklen_t has;
    if (!copy_from(&has, room_length, sizeof has)) {
        return fail(EFAULT);
    }
    if ((int)has < 0) {
        return fail(EINVAL);
    }
    has = MIN(has, length);
    socklen_t shown = is_whole ? length : has;
    return copy_to(room, value, has) && copy_to(room_length, &shown, sizeof shown) ? 0 : fail(EFAULT);
}

int can_getname(const struct socket *sock, struct sockaddr *address, socklen_t *length, bool is_peer) {
    struct sockaddr_can can = {0};
    struct answer answer = {.data = &can, .room = sizeof can};
    struct wire_request request = {.kind = WIRE_ADDRESS, .option = is_peer};
    if (ask(sock->fd, is_peer ? "getpeername" : "getsockname", &request, NULL, 0, &answer)) {
        return -1;
    }
    return copy_value(address, length, &can, sock->protocol->address_size, true);
}

EXPORT int getsockname(int fd, struct sockaddr *restrict address, socklen_t *restrict length) {
    struct socket sock = socket_of(fd);
    return HAS(sock, getname) ? sock.protocol->getname(&sock, address, length, false)
                              : real()->getsockname(fd, address, length);
}

EXPORT int getpeername(int fd, struct sockaddr *restrict address, socklen_t *restrict length) {
    struct socket sock = socket_of(fd);
    return HAS(sock, getname) ? sock.protocol->getname(&sock, address, length, true)
                              : real()->getpeername(fd, address, length);
}

/* Refuses an option whose level is not the protocol's own. CAN_BCM has no options at all. */
static int refuse_level(const struct socket *sock, const char *call) {
    return refuse(call, sock->protocol->level ? EINVAL : EOPNOTSUPP, "this protocol has no options of this level");
}

static bool is_of_device(int option) {
    return option == SO_BINDTODEVICE || option == SO_BINDTOIFINDEX;
}

/* Stores the device for SO_BINDTODEVICE. As in the kernel, a CAN socket otherwise ignores it. */
static int set_device(int fd, int option, const void *value, socklen_t length) {
    struct wire_request request = {.kind = WIRE_SET_DEVICE};
    char name[IFNAMSIZ] = "";
    if ((int)length < (option == SO_BINDTODEVICE ? 0 : (int)sizeof(int))) {
        return fail(EINVAL);
    }
    if (!(option == SO_BINDTODEVICE ? copy_from(name, value, MIN(length, sizeof name - 1))
                                    : copy_from(&request.ifindex, value, sizeof(int)))) {
        return fail(EFAULT);
    }
    if (*name && (request.ifindex = index_of_name(name)) < 0) {
        return -1;
    }
    return request.ifindex < 0 ? fail(EINVAL) : ask(fd, "setsockopt", &request, NULL, 0, NULL);
}

static int get_device(int fd, int option, void *value, socklen_t *length) {
    struct answer answer = {0};
    char name[IFNAMSIZ] = "";
    socklen_t has;
    if (!copy_from(&has, length, sizeof has)) {
        return fail(EFAULT);
    }
    if (ask(fd, "getsockopt", &(struct wire_request){.kind = WIRE_GET_DEVICE}, NULL, 0, &answer)) {
        return -1;
    }
    if (option == SO_BINDTOIFINDEX) {
        return copy_value(value, length, &answer.value, sizeof answer.value, false);
    }
    if (answer.value && has < sizeof name) {
        return fail(EINVAL);
    }
    socklen_t shown = answer.value && !name_of_index(answer.value, name) ? (socklen_t)strlen(name) + 1 : 0;
    return copy_value(value, length, name, shown, false);
}

/* Sets a SOL_SOCKET option in the kernel, and reports some of these options to the bridge. */
static int set_socket_option(const struct socket *sock, int option, const void *value, socklen_t length) {
    int result = real()->setsockopt(sock->fd, SOL_SOCKET, option, value, length);
    bool is_told = option == SO_RCVBUF || option == SO_RCVBUFFORCE || option == SO_RXQ_OVFL ||
                   option == SO_TIMESTAMPING_OLD || option == SO_TIMESTAMPING_NEW ||
                   ((option == SO_BROADCAST || option == SO_PRIORITY) && sock->protocol->has_ways);
    if (!result && is_told) {
        int error = errno;
        struct wire_request request = {.kind = WIRE_SOCKET_SET, .option = option};
        memcpy(&request.number, value, sizeof request.number);
        ask(sock->fd, "setsockopt", &request, NULL, 0, NULL);
        errno = error;
    }
    return result;
}

int can_setsockopt(const struct socket *sock, int level, int option, const void *value, socklen_t length) {
    if (level == SOL_SOCKET && is_of_device(option)) {
        return set_device(sock->fd, option, value, length);
    }
    if (level == SOL_SOCKET && option == SO_PEEK_OFF) {
        return refuse("setsockopt", EOPNOTSUPP, "a CAN socket has no such option");
    }
    if (level == SOL_SOCKET) {
        return set_socket_option(sock, option, value, length);
    }
    if (!sock->protocol->level || level != sock->protocol->level) {
        return refuse_level(sock, "setsockopt");
    }
    if (length > WIRE_REPLY) {
        return refuse("setsockopt", EINVAL, "the value is too long");
    }
    struct iovec data = {(void *)value, length};
    struct wire_request request = {.kind = WIRE_SET, .option = option, .length = length};
    int result = ask(sock->fd, "setsockopt", &request, &data, 1, NULL);
    /* Like the kernel, this code checks that the option exists before it reports that the value's address is invalid.
     */
    request = (struct wire_request){.kind = WIRE_GET, .option = option};
    return result && errno == EFAULT && !ask(sock->fd, "setsockopt", &request, NULL, 0, NULL) ? fail(EFAULT) : result;
}

EXPORT int setsockopt(int fd, int level, int option, const void *value, socklen_t length) {
    struct socket sock = socket_of(fd);
    return HAS(sock, setsockopt) ? sock.protocol->setsockopt(&sock, level, option, value, length)
                                 : real()->setsockopt(fd, level, option, value, length);
}

/* Takes the error of the socket, and the empty datagram that reports the error, so that no later read finds that
 * datagram. */
static int take_shown_error(int fd) {
    int error = take_error(fd);
    drop_error(fd);
    return error;
}

/* Returns SO_DOMAIN, SO_TYPE, SO_PROTOCOL or SO_ERROR of a CAN socket, or -1 for other options. In the kernel
 * SO_PROTOCOL is 0 for every CAN protocol except J1939. */
static int socket_fact(const struct socket *sock, int option) {
    switch (option) {
    case SO_ERROR: return take_shown_error(sock->fd);
    case SO_DOMAIN: return sock->protocol->family;
    case SO_TYPE: return sock->protocol->type;
    case SO_PROTOCOL: return sock->protocol->has_ways ? CAN_J1939 : 0;
    default: return -1;
    }
}

/* Returns the errno with which a CAN socket refuses this SOL_SOCKET option, or 0 if it does not refuse the option. */
static int socket_refusal(int option) {
    return option == SO_PEERNAME     ? ENOTCONN
           : option == SO_PEEK_OFF   ? EOPNOTSUPP
           : option == SO_PEERGROUPS ? ENODATA
                                     : 0;
}

/* Copies as much of a value as the kernel would. If the buffer is too short, the value is cut off, unless it is a list
 * of filters. */
static int get_protocol_option(const struct socket *sock, int option, void *value, socklen_t *length) {
    char whole[WIRE_REPLY];
    struct answer answer = {.data = whole, .room = sizeof whole};
    socklen_t has;
    if (!copy_from(&has, length, sizeof has)) {
        return fail(EFAULT);
    }
    if ((int)has < 0) {
        return fail(EINVAL);
    }
    if (ask(sock->fd, "getsockopt", &(struct wire_request){.kind = WIRE_GET, .option = option}, NULL, 0, &answer)) {
        return -1;
    }
    socklen_t needed = (socklen_t)answer.length;
    if (option == sock->protocol->uncut_option && has < needed) {
        return copy_to(length, &needed, sizeof needed) ? refuse("getsockopt", ERANGE, "the filters need more room")
                                                       : fail(EFAULT);
    }
    return copy_value(value, length, whole, needed, false);
}

int can_getsockopt(const struct socket *sock, int level, int option, void *value, socklen_t *length) {
    const struct ucred nobody = {0, (uid_t)-1, (gid_t)-1};
    if (level != SOL_SOCKET) {
        return sock->protocol->level && level == sock->protocol->level
                   ? get_protocol_option(sock, option, value, length)
                   : refuse_level(sock, "getsockopt");
    }
    if (option == SO_PEERCRED) {
        return copy_value(value, length, &nobody, sizeof nobody, false);
    }
    if (socket_refusal(option)) {
        return refuse("getsockopt", socket_refusal(option), "a CAN socket has no such option");
    }
    if (is_of_device(option)) {
        return get_device(sock->fd, option, value, length);
    }
    int fact = socket_fact(sock, option);
    return fact < 0 ? real()->getsockopt(sock->fd, level, option, value, length)
                    : copy_value(value, length, &fact, sizeof fact, false);
}

EXPORT int getsockopt(int fd, int level, int option, void *restrict value, socklen_t *restrict length) {
    struct socket sock = socket_of(fd);
    return HAS(sock, getsockopt) ? sock.protocol->getsockopt(&sock, level, option, value, length)
                                 : real()->getsockopt(fd, level, option, value, length);
}
