/* CAN_ISOTP: the bridge splits each message into frames, and sends one message after another. */
#define _GNU_SOURCE
#include "library.h"

#include <errno.h>
#include <fcntl.h>
#include <linux/can/isotp.h>
#include <string.h>
#include <sys/syscall.h>

/* Called after a failed write. If the socket's error caused the failure, removes the error, so that no other call
 * reports it. */
static void forget_error(int fd) {
    static const int known[] = {EMSGSIZE, ECOMM, EBADMSG, EILSEQ, ETIMEDOUT};
    for (size_t i = 0; i < sizeof known / sizeof *known; i++) {
        if (errno == known[i]) {
            drop_error(fd);
            return;
        }
    }
}

static ssize_t isotp_sendmsg(const struct socket *sock, const struct msghdr *message, int flags) {
    struct wire_request request;
    struct answer answer = {0};
    struct iovec all[message->msg_iovlen + FILLERS];
    size_t count = message->msg_iovlen;
    if (begin_write(message, &request)) {
        return -1;
    }
    request.number = flags & MSG_DONTWAIT || fcntl(sock->fd, F_GETFL) & O_NONBLOCK ? WIRE_NO_WAIT : WIRE_WAIT;
    memcpy(all, message->msg_iov, count * sizeof *all);
    count += add_fillers(sock->fd, request.length, all + count);
    if (ask(sock->fd, "write", &request, all, count, &answer)) {
        forget_error(sock->fd);
        return -1;
    }
    return answer.value;
}

/* Checks a read. The kernel refuses flags other than these. It also refuses an unbound socket, which cannot have
 * received anything. */
static int check_read(const struct socket *sock, int flags) {
    struct sockaddr_can can = {0};
    struct answer answer = {.data = &can, .room = sizeof can};
    if (flags & ~(MSG_DONTWAIT | MSG_TRUNC | MSG_PEEK)) {
        return refuse("read", EINVAL, "CAN_ISOTP has no such flag");
    }
    int before = errno;
    bool has_any = syscall(SYS_recvfrom, sock->fd, NULL, 0L, MSG_PEEK | MSG_DONTWAIT, NULL, NULL) >= 0;
    errno = before;
    if (!has_any && !ask(sock->fd, "read", &(struct wire_request){.kind = WIRE_ADDRESS}, NULL, 0, &answer) &&
        !can.can_ifindex) {
        return refuse("read", EADDRNOTAVAIL, "bind comes first");
    }
    return 0;
}

static ssize_t isotp_recvmsg(const struct socket *sock, struct msghdr *message, int flags) {
    ssize_t length, done = check_read(sock, flags) ? -1 : receive_message(sock, message, flags, &length);
    return done >= 0 && flags & MSG_TRUNC ? length : done;
}

const struct protocol isotp_protocol = {
    .family = PF_CAN,
    .type = SOCK_DGRAM,
    .address_size = CAN_REQUIRED_SIZE(struct sockaddr_can, can_addr.tp),
    .level = SOL_CAN_ISOTP,
    .lingers = true,
    .shows_error = true,
    .bind = can_bind,
    .connect = no_connect,
    .getname = can_getname,
    .setsockopt = can_setsockopt,
    .getsockopt = can_getsockopt,
    .sendmsg = isotp_sendmsg,
    .recvmsg = isotp_recvmsg,
};
