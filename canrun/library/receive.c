/* Receiving: all calls that read from a socket. A call that has to wait does so in the kernel, in the real recvmsg. */
#define _GNU_SOURCE
#include "library.h"

#include <errno.h>
#include <linux/can.h>
#include <linux/net_tstamp.h>
#include <poll.h>
#include <stdint.h>
#include <string.h>
#include <sys/syscall.h>
#include <time.h>

#define SECOND 1000000000u
/* A value for msg_flags before a message is received. It means that the program requests only the bytes. */
#define BYTES_ONLY MSG_NOSIGNAL

/* For Unix sockets the kernel also creates the control messages of SO_TIMESTAMP and SO_TIMESTAMPNS. This function
 * replaces the kernel's timestamp in them with the server's. Returns whether one of them is a SO_TIMESTAMPING message.
 */
static bool correct_stamps(struct msghdr *message, uint64_t nanoseconds) {
    bool has_three = false;
    for (struct cmsghdr *one = CMSG_FIRSTHDR(message); one; one = CMSG_NXTHDR(message, one)) {
        int64_t moment[2] = {(int64_t)(nanoseconds / SECOND), (int64_t)(nanoseconds % SECOND)};
        bool is_three = one->cmsg_type == SO_TIMESTAMPING_OLD || one->cmsg_type == SO_TIMESTAMPING_NEW;
        bool is_micro = one->cmsg_type == SO_TIMESTAMP_OLD || one->cmsg_type == SO_TIMESTAMP_NEW;
        bool is_nano = one->cmsg_type == SO_TIMESTAMPNS_OLD || one->cmsg_type == SO_TIMESTAMPNS_NEW;
        if (one->cmsg_level != SOL_SOCKET || one->cmsg_len < CMSG_LEN(sizeof moment) ||
            !(is_three || is_micro || is_nano)) {
            continue;
        }
        moment[1] /= is_micro ? 1000 : 1;
        memcpy(CMSG_DATA(one), moment, sizeof moment);
        has_three |= is_three;
    }
    return has_three;
}

/* Adds a control message after those that the kernel created. */
static void add_control(struct msghdr *message, size_t room, int type, const void *data, size_t length) {
    size_t used = CMSG_ALIGN(message->msg_controllen);
    if (used + CMSG_LEN(length) > room) {
        message->msg_flags |= MSG_CTRUNC;
        return;
    }
    struct cmsghdr head = {.cmsg_len = CMSG_LEN(length), .cmsg_level = SOL_SOCKET, .cmsg_type = type};
    char *place = (char *)message->msg_control + used;
    copy_to(place, &head, sizeof head);
    copy_to(place + CMSG_LEN(0), data, length);
    message->msg_controllen = MIN(used + CMSG_SPACE(length), room);
}

static void make_control(struct msghdr *message, size_t room, const struct wire_note *note) {
    bool has_three = correct_stamps(message, note->nanoseconds);
    if (note->is_stamped && !has_three) {
        int64_t three[6] = {(int64_t)(note->nanoseconds / SECOND), (int64_t)(note->nanoseconds % SECOND)};
        add_control(message, room, SO_TIMESTAMPING_OLD, three, sizeof three);
    }
    if (note->dropped) {
        add_control(message, room, SO_RXQ_OVFL, &note->dropped, sizeof note->dropped);
    }
}

/* Writes the sender's address. For ISO-TP the address contains no identifiers, as in the kernel. */
static bool make_name(const struct socket *sock, struct msghdr *message, int ifindex) {
    struct sockaddr_can can = {.can_family = AF_CAN, .can_ifindex = ifindex};
    socklen_t length = sock->protocol->address_size;
    bool is_copied = copy_to(message->msg_name, &can, MIN(message->msg_namelen, length));
    message->msg_namelen = length;
    return is_copied;
}

static ssize_t no_device(void) {
    return refuse("read", ENODEV, "the server is gone, and its interfaces with it");
}

/* Returns the error of a socket whose next datagram reports an error, or 0 if another call has already taken the error.
 * Only a fault makes the bridge exit before its socket is closed. */
static int error_of(int fd) {
    struct answer answer = {0};
    return ask(fd, "read", &(struct wire_request){.kind = WIRE_ERROR}, NULL, 0, &answer) ? ENODEV : answer.value;
}

static ssize_t refuse_read(int error) {
    return error == ENODEV ? no_device()
                           : refuse("read", error,
                                    "a message has not come whole, or a write went past "
                                    "canbusd-run and was refused");
}

int take_shown(int fd) {
    int error = error_of(fd);
    return error ? (int)refuse_read(error) : 0;
}

/* Takes the note of a J1939 message without data. Returns false if there is no such message. */
static bool take_empty(int fd, struct wire_empty *empty) {
    struct answer answer = {.data = empty, .room = sizeof *empty};
    return !ask(fd, "read", &(struct wire_request){.kind = WIRE_EMPTY}, NULL, 0, &answer) && answer.value;
}

/* Receives the next message. Returns its length, or -1 with errno set. An empty datagram reports an error of the
 * socket. If another call has already taken that error, this function continues with the next datagram. For J1939 an
 * empty datagram may also be a message without data. */
static ssize_t take(int fd, struct msghdr *message, int flags, struct wire_empty *empty) {
    size_t control = message->msg_controllen;
    for (;;) {
        int before = errno;
        ssize_t length = real()->recvmsg(fd, message, (flags & ~MSG_OOB) | MSG_TRUNC);
        if (length) {
            return length < 0 && errno == ECONNRESET ? no_device() : length;
        }
        if (flags & MSG_PEEK) {
            drop_error(fd);
        }
        if (take_shown(fd)) {
            return -1;
        }
        errno = before;
        if (empty && take_empty(fd, empty)) {
            return 0;
        }
        message->msg_controllen = control;
    }
}

size_t room_of(const struct msghdr *message, size_t length) {
    size_t room = 0;
    for (size_t i = 0; i < message->msg_iovlen && room < length; i++) {
        room += MIN(message->msg_iov[i].iov_len, length - room);
    }
    return room;
}

/* Copies the first bytes of a received message. Returns how many bytes were copied. */
static size_t copy_head(const struct msghdr *message, size_t length, char *head, size_t room) {
    size_t done = 0;
    length = MIN(length, room);
    for (const struct iovec *part = message->msg_iov; done < length; done += part++->iov_len) {
        if (!copy_from(head + done, part->iov_base, MIN(part->iov_len, length - done))) {
            return done;
        }
    }
    return length;
}

/* Fills in everything about a received message except its bytes. */
static int describe(const struct socket *sock, struct msghdr *message, size_t control, const struct wire_empty *of) {
    const struct wire_note *note = &of->note;
    if (!sock->protocol->has_ways && message->msg_name && !make_name(sock, message, note->ifindex)) {
        return fail(EFAULT);
    }
    if (message->msg_control) {
        make_control(message, control, note);
    }
    if (sock->protocol->has_ways && j1939_describe(message, control, &of->way, note->ifindex)) {
        return -1;
    }
    message->msg_flags |= (int)note->message_flags;
    return 0;
}

/* Receives a message, and finds the message's note in the shared memory of the socket. */
static ssize_t receive_noted(const struct socket *sock, struct msghdr *message, int flags, struct wire_memory *memory) {
    struct wire_empty of = {0};
    char head[sizeof of.note.head];
    void *name = message->msg_name;
    size_t control = message->msg_controllen;
    message->msg_name = NULL;
    ssize_t length = take(sock->fd, message, flags, sock->protocol->has_ways ? &of : NULL);
    message->msg_name = name;
    if (length < 0) {
        return -1;
    }
    size_t known = copy_head(message, room_of(message, (size_t)length), head, sizeof head);
    if (length) {
        note_of(memory, sock->fd, flags & MSG_PEEK, head, known, &of.note, sock->protocol->has_ways ? &of.way : NULL);
    }
    return describe(sock, message, control, &of) ? -1 : length;
}

/* Records that this read does not look for a note. */
static void note_plain(const struct socket *sock) {
    struct shared *one = share_enter(sock);
    if (one) {
        note_plain_read(&one->memory->received);
        share_leave(one);
    }
}

ssize_t receive_message(const struct socket *sock, struct msghdr *message, int flags, ssize_t *length) {
    if (flags & MSG_ERRQUEUE) {
        return fail(EAGAIN);
    }
    if (message->msg_flags == BYTES_ONLY) {
        if (notes_are_looked_for()) {
            note_plain(sock);
        }
        struct wire_empty empty;
        *length = take(sock->fd, message, flags, sock->protocol->has_ways ? &empty : NULL);
    } else {
        struct shared *one = share_enter(sock);
        if (!one) {
            return refuse("recvmsg", EMFILE, "there are no descriptors to ask for what is known of a frame");
        }
        *length = receive_noted(sock, message, flags, one->memory);
        share_leave(one);
    }
    return *length < 0 ? -1 : (ssize_t)room_of(message, (size_t)*length);
}

/* The kernel's CAN_RAW and CAN_BCM return the number of copied bytes, even with MSG_TRUNC. */
ssize_t can_recvmsg(const struct socket *sock, struct msghdr *message, int flags) {
    ssize_t length;
    return receive_message(sock, message, flags, &length);
}

/* Copies as much of the sender's address as fits. As in the kernel, an error is found only after the message has been
 * taken. */
static int give_name(struct sockaddr *from, socklen_t *room, const struct msghdr *message) {
    socklen_t has;
    if (!room || !copy_from(&has, room, sizeof has)) {
        return fail(EFAULT);
    }
    if ((int)has < 0) {
        return fail(EINVAL);
    }
    return copy_to(from, message->msg_name, MIN(has, message->msg_namelen)) &&
                   copy_to(room, &message->msg_namelen, sizeof has)
               ? 0
               : fail(EFAULT);
}

static ssize_t receive(const struct socket *sock, void *data, size_t length, int flags, struct sockaddr *from,
                       socklen_t *room) {
    struct sockaddr_can name;
    struct iovec part = {data, length};
    struct msghdr message = {.msg_iov = &part,
                             .msg_iovlen = 1,
                             .msg_name = from ? &name : NULL,
                             .msg_namelen = sizeof name,
                             .msg_flags = from ? 0 : BYTES_ONLY};
    ssize_t result = sock->protocol->recvmsg(sock, &message, flags);
    return result >= 0 && from && give_name(from, room, &message) ? -1 : result;
}

/* Receives a message into a struct msghdr of the program. */
static ssize_t receive_named(const struct socket *sock, struct msghdr *named, int flags) {
    struct msghdr message;
    if (!copy_from(&message, named, sizeof message)) {
        return fail(EFAULT);
    }
    if (message.msg_iovlen > PIECES_MOST) {
        return fail(EMSGSIZE);
    }
    struct iovec parts[message.msg_iovlen + 1], *theirs = message.msg_iov;
    if (!copy_from(parts, theirs, message.msg_iovlen * sizeof *parts)) {
        return fail(EFAULT);
    }
    message.msg_iov = parts;
    message.msg_flags = 0;
    ssize_t result = sock->protocol->recvmsg(sock, &message, flags);
    message.msg_iov = theirs;
    return result < 0 || copy_to(named, &message, sizeof message) ? result : fail(EFAULT);
}

EXPORT ssize_t recvmsg(int fd, struct msghdr *message, int flags) {
    struct socket sock = socket_of(fd);
    return HAS(sock, recvmsg) ? receive_named(&sock, message, flags) : real()->recvmsg(fd, message, flags);
}

EXPORT ssize_t recvfrom(int fd, void *restrict data, size_t length, int flags, struct sockaddr *restrict from,
                        socklen_t *restrict room) {
    struct socket sock = socket_of(fd);
    return HAS(sock, recvmsg) ? receive(&sock, data, length, flags, from, room)
                              : real()->recvfrom(fd, data, length, flags, from, room);
}

EXPORT ssize_t recv(int fd, void *data, size_t length, int flags) {
    struct socket sock = socket_of(fd);
    return HAS(sock, recvmsg) ? receive(&sock, data, length, flags, NULL, NULL) : real()->recv(fd, data, length, flags);
}

/* As with the kernel's CAN sockets, a read of 0 bytes takes no frame. */
EXPORT ssize_t read(int fd, void *data, size_t length) {
    struct socket sock = socket_of(fd);
    if (!HAS(sock, recvmsg)) {
        return real()->read(fd, data, length);
    }
    return length ? receive(&sock, data, length, 0, NULL, NULL) : 0;
}

EXPORT ssize_t readv(int fd, const struct iovec *parts, int count) {
    struct socket sock = socket_of(fd);
    if (!HAS(sock, recvmsg) || count < 0 || count > PIECES_MOST) {
        return real()->readv(fd, parts, count);
    }
    struct iovec copy[count + 1];
    struct msghdr message = {.msg_iov = copy, .msg_iovlen = (size_t)count, .msg_flags = BYTES_ONLY};
    if (!copy_from(copy, parts, (size_t)count * sizeof *copy)) {
        return fail(EFAULT);
    }
    return room_of(&message, 1) ? sock.protocol->recvmsg(&sock, &message, 0) : 0;
}

/* Writes the remaining time to `timeout`, and returns whether no time remains. Like the kernel, recvmmsg checks this
 * after each message. */
static bool is_over(struct timespec *timeout, const struct timespec *end) {
    struct timespec now;
    clock_gettime(CLOCK_MONOTONIC, &now);
    int64_t left = (end->tv_sec - now.tv_sec) * (int64_t)SECOND + (end->tv_nsec - now.tv_nsec);
    left = left < 0 ? 0 : left;
    *timeout = (struct timespec){left / SECOND, left % SECOND};
    return left == 0;
}

/* Computes the end of a timeout that begins now. Returns false with errno set if the timeout is invalid. */
static bool read_end(struct timespec *end, const struct timespec *timeout) {
    struct timespec now;
    if (!copy_from(end, timeout, sizeof *end)) {
        fail(EFAULT);
        return false;
    }
    if (end->tv_sec < 0 || end->tv_nsec < 0 || end->tv_nsec >= SECOND) {
        fail(EINVAL);
        return false;
    }
    clock_gettime(CLOCK_MONOTONIC, &now);
    end->tv_sec += now.tv_sec;
    end->tv_nsec += now.tv_nsec;
    return true;
}

EXPORT int recvmmsg(int fd, struct mmsghdr *messages, unsigned count, int flags, struct timespec *timeout) {
    struct socket sock = socket_of(fd);
    struct timespec end = {0, 0};
    unsigned done = 0;
    if (!HAS(sock, recvmsg)) {
        return real()->recvmmsg(fd, messages, count, flags, timeout);
    }
    if (timeout && !read_end(&end, timeout)) {
        return -1;
    }
    while (done < count) {
        ssize_t length = receive_named(&sock, &messages[done].msg_hdr, flags & ~MSG_WAITFORONE);
        unsigned got = (unsigned)length;
        if (length < 0 || !copy_to(&messages[done].msg_len, &got, sizeof got)) {
            return done ? (int)done : -1;
        }
        done++;
        flags |= flags & MSG_WAITFORONE ? MSG_DONTWAIT : 0;
        if (timeout && is_over(timeout, &end)) {
            break;
        }
    }
    return (int)done;
}

/* Called by programs that were built with _FORTIFY_SOURCE. */
EXPORT ssize_t __read_chk(int fd, void *data, size_t length, size_t room);
EXPORT ssize_t __recv_chk(int fd, void *data, size_t length, size_t room, int flags);
EXPORT ssize_t __recvfrom_chk(int fd, void *restrict data, size_t length, size_t room, int flags,
                              struct sockaddr *restrict from, socklen_t *restrict from_room);

ssize_t __read_chk(int fd, void *data, size_t length, size_t room) {
    if (length > room) {
        __chk_fail();
    }
    return read(fd, data, length);
}

ssize_t __recv_chk(int fd, void *data, size_t length, size_t room, int flags) {
    if (length > room) {
        __chk_fail();
    }
    return recv(fd, data, length, flags);
}

ssize_t __recvfrom_chk(int fd, void *restrict data, size_t length, size_t room, int flags,
                       struct sockaddr *restrict from, socklen_t *restrict from_room) {
    if (length > room) {
        __chk_fail();
    }
    return recvfrom(fd, data, length, flags, from, from_room);
}
