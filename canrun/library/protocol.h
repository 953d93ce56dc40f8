/* The calls that each protocol implements, like struct proto_ops in the kernel. Each protocol is a file in this
 * directory and an entry in the table in sockets.c. */
#ifndef PROTOCOL_H
#define PROTOCOL_H

#include "../shared/wire.h"

#include <linux/can.h>
#include <stdbool.h>
#include <stddef.h>
#include <sys/socket.h>
#include <sys/types.h>
#include <sys/uio.h>

/* The file descriptor on which a call was made, and the protocol of its socket. */
struct socket {
    int fd;
    const struct protocol *protocol; /* NULL: the descriptor is another socket, or no socket */
    char name[WIRE_NAME_ROOM];       /* for CAN sockets only */
};

struct protocol {
    int family, type;       /* PF_CAN or PF_NETLINK; SOCK_RAW or SOCK_DGRAM */
    socklen_t address_size; /* the minimum length of an address that the protocol accepts */
    int level;              /* the level of the protocol's own options; 0: it has no options */
    int uncut_option;       /* the option whose value is returned in full or not at all; 0: no such option */
    bool lingers;           /* close waits until the accepted messages have been sent */
    bool shows_error;       /* poll reports the socket's own error */
    bool has_ways; /* the protocol is J1939: messages have a source and destination, and sockets have error queues */

    /* If a pointer is NULL, the kernel's own call is used. All arguments point to the program's memory, except those
     * for a message and its list of pieces. */
    int (*bind)(const struct socket *sock, const struct sockaddr *address, socklen_t length);
    int (*connect)(const struct socket *sock, const struct sockaddr *address, socklen_t length);
    int (*getname)(const struct socket *sock, struct sockaddr *address, socklen_t *length, bool is_peer);
    int (*setsockopt)(const struct socket *sock, int level, int option, const void *value, socklen_t length);
    int (*getsockopt)(const struct socket *sock, int level, int option, void *value, socklen_t *length);
    ssize_t (*sendmsg)(const struct socket *sock, const struct msghdr *message, int flags);
    ssize_t (*recvmsg)(const struct socket *sock, struct msghdr *message, int flags);
};
extern const struct protocol raw_protocol, bcm_protocol, isotp_protocol, j1939_protocol, netlink_protocol;

/* socket_of returns a file descriptor and the protocol of its socket. is_can_socket returns whether the descriptor is a
 * CAN socket. Both leave errno unchanged. */
struct socket socket_of(int fd);
bool is_can_socket(int fd);

/* Whether the protocol of a socket replaces this call. If not, the kernel's own call is used. */
#define HAS(sock, call) ((sock).protocol && (sock).protocol->call)

/* The minimum length of an address that contains all members up to and including this one, as in the kernel. */
#define CAN_REQUIRED_SIZE(type, member) (offsetof(type, member) + sizeof(((type *)NULL)->member))

/* ---- options.c: addresses and options of most CAN protocols ---- */

int can_bind(const struct socket *sock, const struct sockaddr *address, socklen_t length);
int can_getname(const struct socket *sock, struct sockaddr *address, socklen_t *length, bool is_peer);
int can_setsockopt(const struct socket *sock, int level, int option, const void *value, socklen_t length);
int can_getsockopt(const struct socket *sock, int level, int option, void *value, socklen_t *length);

/* Refuses connect for a protocol whose sockets use bind. */
int no_connect(const struct socket *sock, const struct sockaddr *address, socklen_t length);

/* Copies the address argument of a call, as the kernel does. Returns 0, or -1 with errno set. */
int copy_address(const struct socket *sock, const char *call, const struct sockaddr *address, socklen_t length,
                 struct sockaddr_can *can);

/* Asks the bridge to bind or connect the socket. Returns 0, or -1 with errno set. */
int ask_to_bind(const struct socket *sock, const char *call, enum wire_kind kind, const struct sockaddr_can *can);

/* ---- send.c ---- */

/* Prepares the request of a write. Returns 0, or -1 with errno set. */
int begin_write(const struct msghdr *message, struct wire_request *request);

/* In the kernel a socket is writable while at most a quarter of SO_SNDBUF is used. If a socket has no room for writes,
 * a request is padded to a quarter of the buffer, so that poll does not report the socket as writable. This function
 * adds the padding and returns how many pieces the padding has. */
#define FILLERS 64
size_t add_fillers(int fd, size_t length, struct iovec fillers[FILLERS]);

/* Reads the interface index from the destination address of a message, if it has one. Returns 0, or -1 with errno set.
 */
int read_target(const struct msghdr *message, int32_t *index);

/* ---- receive.c ---- */

ssize_t can_recvmsg(const struct socket *sock, struct msghdr *message, int flags);

/* Like can_recvmsg, but also sets `length` to the full length of the message, which may exceed the buffer. */
ssize_t receive_message(const struct socket *sock, struct msghdr *message, int flags, ssize_t *length);

#endif
