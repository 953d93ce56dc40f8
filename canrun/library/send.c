/* Sending: all calls that write to a socket. Each call waits for the server's verdict on the frame, so that it can
 * return the right error. */
#define _GNU_SOURCE
#include "library.h"

#include <errno.h>
#include <fcntl.h>
#include <linux/can.h>
#include <signal.h>
#include <stdlib.h>
#include <string.h>
#include <sys/syscall.h>

/* Whether writes wait for room in the transmit queue (--wait). */
static bool waits_for_room;

__attribute__((constructor)) static void read_setting(void) {
    waits_for_room = getenv("CANBUSD_RUN_WAIT");
}

/* Whether this thread blocks SIGTERM. */
static bool is_deaf(void) {
    sigset_t mask;
    return !pthread_sigmask(SIG_BLOCK, NULL, &mask) && sigismember(&mask, SIGTERM) == 1;
}

/* Returns how long a write may wait for room. It reads the signal mask only if necessary, because reading it is a
 * system call. */
static enum wire_wait wait_for_room(void) {
    return !waits_for_room ? WIRE_WAIT : waits_are_over() ? WIRE_NO_WAIT : is_deaf() ? WIRE_SHORT_WAIT : WIRE_WAIT;
}

int ask_patiently(const struct socket *sock, struct wire_request *request, const struct msghdr *message,
                  struct answer *answer) {
    request->number = wait_for_room();
    return ask(sock->fd, "write", request, message->msg_iov, message->msg_iovlen, answer);
}

int begin_write(const struct msghdr *message, struct wire_request *request) {
    size_t length = room_of(message, WIRE_LARGEST + 1);
    *request = (struct wire_request){.kind = WIRE_SEND, .ifindex = WIRE_BOUND, .length = (uint32_t)length};
    return length > WIRE_LARGEST ? refuse("write", EINVAL, "the message is too long") : 0;
}

size_t add_fillers(int fd, size_t length, struct iovec fillers[FILLERS]) {
    static char nothing[16384];
    int room = 0;
    socklen_t size = sizeof room;
    real()->getsockopt(fd, SOL_SOCKET, SO_SNDBUF, &room, &size);
    size_t count = 0;
    for (; count < FILLERS && length < (size_t)room / 4; count++) {
        fillers[count] = (struct iovec){nothing, MIN(sizeof nothing, (size_t)room / 4 - length)};
        length += fillers[count].iov_len;
    }
    return count;
}

int read_target(const struct msghdr *message, int32_t *index) {
    struct sockaddr_can can = {0};
    if (!message->msg_name) {
        return 0;
    }
    if (message->msg_namelen < offsetof(struct sockaddr_can, can_addr)) {
        return refuse("sendto", EINVAL, "the address is too short");
    }
    if (!copy_from(&can, message->msg_name, MIN(message->msg_namelen, sizeof can))) {
        return fail(EFAULT);
    }
    if (can.can_family != AF_CAN) {
        return refuse("sendto", EINVAL, "the address is not of AF_CAN");
    }
    /* No interface has the index INT32_MAX. It replaces a negative index, which no interface has either. */
    *index = can.can_ifindex < 0 ? INT32_MAX : can.can_ifindex;
    return 0;
}

/* The maximum number of pieces of a message that are sent without joining them. */
#define PIECES 64

/* Calls the protocol's function for sending a message. If the message has too many pieces for one system call, they are
 * joined first. */
static ssize_t send_message(const struct socket *sock, struct msghdr *message, int flags) {
    size_t length = message->msg_iovlen <= PIECES ? 0 : room_of(message, WIRE_LARGEST + 1);
    if (message->msg_iovlen <= PIECES || length > WIRE_LARGEST) {
        return sock->protocol->sendmsg(sock, message, flags);
    }
    char whole[length + 1];
    struct iovec joined = {whole, length}, *part = message->msg_iov;
    for (size_t done = 0; done < length; done += part++->iov_len) {
        if (!copy_from(whole + done, part->iov_base, part->iov_len)) {
            return fail(EFAULT);
        }
    }
    message->msg_iov = &joined;
    message->msg_iovlen = 1;
    return sock->protocol->sendmsg(sock, message, flags);
}

/* Sends a message from a struct msghdr of the program. */
static ssize_t send_named(const struct socket *sock, const struct msghdr *named, int flags) {
    struct msghdr message;
    if (!copy_from(&message, named, sizeof message)) {
        return fail(EFAULT);
    }
    if (message.msg_iovlen > PIECES_MOST) {
        return fail(EMSGSIZE);
    }
    struct iovec parts[message.msg_iovlen + 1];
    if (!copy_from(parts, message.msg_iov, message.msg_iovlen * sizeof *parts)) {
        return fail(EFAULT);
    }
    message.msg_iov = parts;
    if ((int)message.msg_namelen < 0) {
        return fail(EINVAL);
    }
    char control[sizeof(struct cmsghdr)];
    if (!copy_from(control, message.msg_control, MIN(message.msg_controllen, sizeof control))) {
        return fail(EFAULT);
    }
    return send_message(sock, &message, flags);
}

static ssize_t send_one(const struct socket *sock, const void *data, size_t length, int flags,
                        const struct sockaddr *to, socklen_t to_length) {
    struct iovec part = {(void *)data, length};
    struct msghdr message = {.msg_iov = &part, .msg_iovlen = 1, .msg_name = (void *)to, .msg_namelen = to_length};
    if (to && to_length > sizeof(struct sockaddr_storage)) {
        return fail(EINVAL);
    }
    return send_message(sock, &message, flags);
}

EXPORT ssize_t sendmsg(int fd, const struct msghdr *message, int flags) {
    struct socket sock = socket_of(fd);
    return HAS(sock, sendmsg) ? send_named(&sock, message, flags) : real()->sendmsg(fd, message, flags);
}

EXPORT ssize_t sendto(int fd, const void *data, size_t length, int flags, const struct sockaddr *to,
                      socklen_t to_length) {
    struct socket sock = socket_of(fd);
    return HAS(sock, sendmsg) ? send_one(&sock, data, length, flags, to, to_length)
                              : real()->sendto(fd, data, length, flags, to, to_length);
}

EXPORT ssize_t send(int fd, const void *data, size_t length, int flags) {
    struct socket sock = socket_of(fd);
    return HAS(sock, sendmsg) ? send_one(&sock, data, length, flags, NULL, 0) : real()->send(fd, data, length, flags);
}

EXPORT ssize_t write(int fd, const void *data, size_t length) {
    struct socket sock = socket_of(fd);
    return HAS(sock, sendmsg) ? send_one(&sock, data, length, 0, NULL, 0) : real()->write(fd, data, length);
}

EXPORT ssize_t writev(int fd, const struct iovec *parts, int count) {
    struct socket sock = socket_of(fd);
    if (count < 0 || count > PIECES_MOST || !HAS(sock, sendmsg)) {
        return real()->writev(fd, parts, count);
    }
    struct iovec copy[count + 1];
    struct msghdr message = {.msg_iov = copy, .msg_iovlen = (size_t)count};
    if (!copy_from(copy, parts, (size_t)count * sizeof *copy)) {
        return fail(EFAULT);
    }
    return room_of(&message, 1) ? send_message(&sock, &message, 0) : 0;
}

EXPORT int sendmmsg(int fd, struct mmsghdr *messages, unsigned count, int flags) {
    struct socket sock = socket_of(fd);
    unsigned done = 0;
    if (!HAS(sock, sendmsg)) {
        return real()->sendmmsg(fd, messages, count, flags);
    }
    for (; done < count; done++) {
        ssize_t length = send_named(&sock, &messages[done].msg_hdr, flags);
        unsigned sent = (unsigned)length;
        if (length < 0) {
            return done ? (int)done : -1;
        }
        if (!copy_to(&messages[done].msg_len, &sent, sizeof sent)) {
            return done ? (int)done : fail(EFAULT);
        }
    }
    return (int)done;
}
