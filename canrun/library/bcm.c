/* CAN_BCM, the broadcast manager. A program calls connect on its sockets instead of bind. The sockets have no options
 * and no address. */
#define _GNU_SOURCE
#include "library.h"

#include <errno.h>

static int bcm_bind(const struct socket *sock, const struct sockaddr *address, socklen_t length) {
    (void)sock;
    (void)address;
    (void)length;
    return refuse("bind", EOPNOTSUPP, "CAN_BCM has connect in its place");
}

/* As in the kernel, the address family is not checked. */
static int bcm_connect(const struct socket *sock, const struct sockaddr *address, socklen_t length) {
    struct sockaddr_can can;
    return copy_address(sock, "connect", address, length, &can) ? -1 : ask_to_bind(sock, "connect", WIRE_CONNECT, &can);
}

static ssize_t bcm_sendmsg(const struct socket *sock, const struct msghdr *message, int flags) {
    struct wire_request request;
    struct answer answer = {0};
    (void)flags;
    return begin_write(message, &request) || read_target(message, &request.ifindex) ||
                   ask_patiently(sock, &request, message, &answer)
               ? -1
               : answer.value;
}

/* Clears MSG_TRUNC. As in the kernel, the program is not told that a message was longer than its buffer. */
static ssize_t bcm_recvmsg(const struct socket *sock, struct msghdr *message, int flags) {
    ssize_t done = can_recvmsg(sock, message, flags);
    message->msg_flags &= ~MSG_TRUNC;
    return done;
}

const struct protocol bcm_protocol = {
    .family = PF_CAN,
    .type = SOCK_DGRAM,
    .address_size = CAN_REQUIRED_SIZE(struct sockaddr_can, can_ifindex),
    .bind = bcm_bind,
    .connect = bcm_connect,
    .getname = can_getname,
    .setsockopt = can_setsockopt,
    .getsockopt = can_getsockopt,
    .sendmsg = bcm_sendmsg,
    .recvmsg = bcm_recvmsg,
};
