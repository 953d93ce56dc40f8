/* CAN_J1939: the host of an interface splits messages into frames. An error queue reports how messages ended. */
#define _GNU_SOURCE
#include "library.h"

#include <errno.h>
#include <fcntl.h>
#include <linux/can/j1939.h>
#include <linux/errqueue.h>
#include <linux/net_tstamp.h>
#include <linux/netlink.h>
#include <string.h>
#include <sys/syscall.h>
#include <sys/un.h>
#include <time.h>

/* The maximum number of message bytes in one request: 36 full segments of 1785 bytes. */
#define PIECE (36 * 1785)
_Static_assert(PIECE + sizeof(struct wire_j1939) <= WIRE_LARGEST, "a request has room for a piece");
/* How many times a request is repeated because the host has just exited. */
#define TRIES 100

/* ---- the host of an interface ---- */

/* Starts the host with this name, unless another program has already started it. Returns 0, or -1 with errno set. */
static int start_host(const struct sockaddr_un *name, socklen_t length) {
    int before = errno;
    int end = (int)syscall(SYS_socket, AF_UNIX, SOCK_SEQPACKET | SOCK_CLOEXEC, 0);
    if (end < 0) {
        return refuse("bind", errno, "there is no descriptor for the host of the interface");
    }
    int error = syscall(SYS_bind, end, name, length) ? errno : 0;
    if (!error) {
        int copy = syscall(SYS_listen, end, SOMAXCONN) ? -1 : fcntl(end, F_DUPFD_CLOEXEC, 0);
        error = copy < 0 ? errno : start_bridge(end, copy);
        syscall(SYS_close, copy);
    }
    syscall(SYS_close, end);
    errno = before;
    return error && error != EADDRINUSE ? refuse("bind", error, "the host of the interface can't be started") : 0;
}

/* Makes the bridge connect to the host of this interface, and starts the host if necessary. */
static int provide_host(const struct socket *sock, int index) {
    const struct wire_request request = {.kind = WIRE_HOST, .ifindex = index};
    for (int i = 0; i < TRIES; i++) {
        struct sockaddr_un name;
        struct answer answer = {.data = &name, .room = sizeof name};
        if (ask(sock->fd, "bind", &request, NULL, 0, &answer)) {
            return -1;
        }
        if (!answer.length) {
            return 0;
        }
        if (start_host(&name, (socklen_t)answer.length)) {
            return -1;
        }
    }
    return refuse("bind", ENOMEM, "the host of the interface ends again and again");
}

static int j1939_bind(const struct socket *sock, const struct sockaddr *address, socklen_t length) {
    struct sockaddr_can can;
    if (copy_address(sock, "bind", address, length, &can)) {
        return -1;
    }
    if (can.can_family != AF_CAN) {
        return refuse("bind", EINVAL, "the address is not of AF_CAN");
    }
    int before = errno, result = -1;
    errno = ECONNREFUSED;
    for (int i = 0; i < TRIES && result && errno == ECONNREFUSED; i++) {
        result = provide_host(sock, can.can_ifindex) ? -1 : ask_to_bind(sock, "bind", WIRE_BIND, &can);
    }
    errno = result ? errno : before;
    return result;
}

static int j1939_connect(const struct socket *sock, const struct sockaddr *address, socklen_t length) {
    struct sockaddr_can can;
    if (copy_address(sock, "connect", address, length, &can)) {
        return -1;
    }
    return can.can_family == AF_CAN ? ask_to_bind(sock, "connect", WIRE_CONNECT, &can)
                                    : refuse("connect", EINVAL, "the address is not of AF_CAN");
}

/* ---- options ---- */

/* Returns the result of setting a flag. As in the kernel, the result is the value of the flag; a negative value is an
 * errno. */
static int flag_result(int value) {
    return value < 0 && value > -4096 ? fail(-value) : value;
}

static int set_filters(const struct socket *sock, const void *value, socklen_t length) {
    const size_t size = sizeof(struct j1939_filter);
    length = value ? length : 0;
    if (length % size || length / size > J1939_FILTER_MAX) {
        return refuse("setsockopt", EINVAL, "these are no filters, or more than 512");
    }
    struct wire_request request = {.kind = WIRE_SET, .option = SO_J1939_FILTER, .length = length};
    return ask(sock->fd, "setsockopt", &request, &(struct iovec){(void *)value, length}, 1, NULL);
}

static int j1939_setsockopt(const struct socket *sock, int level, int option, const void *value, socklen_t length) {
    int number = 0;
    if (level == SOL_CAN_J1939 && option == SO_J1939_FILTER) {
        return set_filters(sock, value, length);
    }
    if (level == SOL_SOCKET && (option == SO_SNDBUF || option == SO_SNDBUFFORCE)) {
        /* In the kernel this option sets the room for messages, but SO_SNDBUF of the socket pair is room for requests.
         * So the option is passed to the bridge. */
        struct wire_request request = {.kind = WIRE_SOCKET_SET, .option = option};
        return length < sizeof number ? fail(EINVAL)
               : !copy_from(&request.number, value, sizeof number)
                   ? fail(EFAULT)
                   : ask(sock->fd, "setsockopt", &request, NULL, 0, NULL);
    }
    int result = can_setsockopt(sock, level, option, value, length);
    bool is_flag = level == SOL_CAN_J1939 && (option == SO_J1939_PROMISC || option == SO_J1939_ERRQUEUE);
    if (!result && is_flag && copy_from(&number, value, sizeof number)) {
        return flag_result(number);
    }
    return result;
}

/* Reads SO_PRIORITY, which is 7 minus the priority of the socket's messages. */
static int get_priority(const struct socket *sock, void *value, socklen_t *length, socklen_t has) {
    int priority = 0;
    struct answer answer = {.data = &priority, .room = sizeof priority};
    const struct wire_request request = {.kind = WIRE_GET, .option = SO_J1939_SEND_PRIO};
    if (ask(sock->fd, "getsockopt", &request, NULL, 0, &answer)) {
        return -1;
    }
    priority = 7 - priority;
    has = MIN(has, (socklen_t)sizeof priority);
    return copy_to(value, &priority, has) && copy_to(length, &has, sizeof has) ? 0 : fail(EFAULT);
}

static int j1939_getsockopt(const struct socket *sock, int level, int option, void *value, socklen_t *length) {
    socklen_t has;
    if (!copy_from(&has, length, sizeof has)) {
        return level == SOL_CAN_J1939 || level == SOL_SOCKET ? fail(EFAULT) : fail(EINVAL);
    }
    if (level == SOL_SOCKET && option == SO_SNDBUF) {
        struct answer answer = {0};
        has = MIN(has, (socklen_t)sizeof answer.value);
        if (ask(sock->fd, "getsockopt", &(struct wire_request){.kind = WIRE_SOCKET_GET}, NULL, 0, &answer)) {
            return -1;
        }
        return copy_to(value, &answer.value, has) && copy_to(length, &has, sizeof has) ? 0 : fail(EFAULT);
    }
    if (level == SOL_SOCKET && option == SO_PRIORITY) {
        return get_priority(sock, value, length, has);
    }
    int result = can_getsockopt(sock, level, option, value, length);
    bool is_short = !result && level == SOL_CAN_J1939 && has < sizeof(int);
    return is_short ? refuse("getsockopt", EFAULT, "the value needs 4 bytes") : result;
}

/* ---- writes ---- */

/* Fills `pieces` with `length` bytes of a message, starting at offset `from`. Returns how many pieces it filled. */
static size_t pieces_from(const struct msghdr *message, size_t from, size_t length, struct iovec *pieces) {
    size_t count = 0;
    for (size_t i = 0; i < message->msg_iovlen && length; i++) {
        size_t has = message->msg_iov[i].iov_len, skipped = MIN(from, has), part = MIN(has - skipped, length);
        from -= skipped;
        length -= part;
        if (part) {
            pieces[count++] = (struct iovec){(char *)message->msg_iov[i].iov_base + skipped, part};
        }
    }
    return count;
}

static int read_address(const struct msghdr *message, struct wire_j1939 *head) {
    head->has_address = message->msg_name != NULL;
    head->address_length = message->msg_namelen;
    return !message->msg_name ||
                   copy_from(&head->address, message->msg_name, MIN(message->msg_namelen, sizeof head->address))
               ? 0
               : fail(EFAULT);
}

/* Fills the socket, so that poll does not report it as writable until the bridge reads this request. */
static void fill(int fd) {
    struct iovec fillers[FILLERS];
    struct pollfd polled = {fd, POLLOUT, 0};
    int before = errno;
    if (syscall(SYS_ppoll, &polled, 1L, &(struct timespec){0, 0}, NULL, 0L) > 0 && polled.revents == POLLOUT) {
        size_t count = add_fillers(fd, 0, fillers);
        ask(fd, "write", &(struct wire_request){.kind = WIRE_FILL}, fillers, count, NULL);
    }
    errno = before;
}

static ssize_t j1939_sendmsg(const struct socket *sock, const struct msghdr *message, int flags) {
    size_t size = room_of(message, SIZE_MAX / 2), done = 0;
    struct wire_j1939 head = {.size = (uint32_t)MIN(size, UINT32_MAX)};
    struct iovec pieces[message->msg_iovlen + 1];
    bool may_wait = !(flags & MSG_DONTWAIT) && !(fcntl(sock->fd, F_GETFL) & O_NONBLOCK);
    if (read_address(message, &head)) {
        return -1;
    }
    pieces[0] = (struct iovec){&head, sizeof head};
    do {
        size_t part = MIN(size - done, PIECE);
        struct answer answer = {0};
        struct wire_request request = {.kind = WIRE_SEND,
                                       .ifindex = WIRE_BOUND,
                                       .option = done > 0,
                                       .number = may_wait ? WIRE_WAIT : WIRE_NO_WAIT,
                                       .length = (uint32_t)(sizeof head + part)};
        size_t count = pieces_from(message, done, part, pieces + 1);
        if (ask(sock->fd, "write", &request, pieces, 1 + count, &answer)) {
            if (errno == EAGAIN) {
                fill(sock->fd);
            }
            return done && (errno == EAGAIN || errno == EINTR) ? (ssize_t)done : -1;
        }
        size_t taken = (size_t)(answer.value & ~WIRE_FULL);
        if (answer.value & WIRE_FULL) {
            fill(sock->fd);
        }
        done += taken;
        if (taken < part) {
            break;
        }
    } while (done < size);
    return (ssize_t)done;
}

/* ---- reads ---- */

/* Adds a control message. If only part of it fits, that part is added, as in the kernel. */
static void put_control(struct msghdr *message, size_t room, int level, int type, const void *data, size_t length) {
    size_t used = message->msg_controllen, left = room - used;
    if (left < sizeof(struct cmsghdr)) {
        message->msg_flags |= MSG_CTRUNC;
        return;
    }
    message->msg_flags |= left < CMSG_LEN(length) ? MSG_CTRUNC : 0;
    struct cmsghdr head = {.cmsg_len = MIN(left, CMSG_LEN(length)), .cmsg_level = level, .cmsg_type = type};
    char *place = (char *)message->msg_control + used;
    copy_to(place, &head, sizeof head);
    copy_to(place + CMSG_LEN(0), data, head.cmsg_len - CMSG_LEN(0));
    message->msg_controllen = used + MIN(left, CMSG_SPACE(length));
}

/* Writes the source address of a message. Adds the J1939 control messages before those that all CAN sockets have. */
int j1939_describe(struct msghdr *message, size_t room, const struct wire_way *way, int index) {
    struct sockaddr_can can = {.can_family = AF_CAN, .can_ifindex = index};
    can.can_addr.j1939.name = way->name;
    can.can_addr.j1939.pgn = way->pgn;
    can.can_addr.j1939.addr = way->from;
    if (message->msg_name && !copy_to(message->msg_name, &can, MIN(message->msg_namelen, J1939_ADDRESS))) {
        return fail(EFAULT);
    }
    message->msg_namelen = message->msg_name ? J1939_ADDRESS : message->msg_namelen;
    if (!message->msg_control) {
        return 0;
    }
    char others[512];
    size_t length = MIN(message->msg_controllen, sizeof others);
    length = copy_from(others, message->msg_control, length) ? length : 0;
    message->msg_controllen = 0;
    if (way->to != J1939_NO_ADDR) {
        put_control(message, room, SOL_CAN_J1939, SCM_J1939_DEST_ADDR, &way->to, sizeof way->to);
    }
    if (way->to_name) {
        put_control(message, room, SOL_CAN_J1939, SCM_J1939_DEST_NAME, &way->to_name, sizeof way->to_name);
    }
    put_control(message, room, SOL_CAN_J1939, SCM_J1939_PRIO, &way->priority, sizeof way->priority);
    struct msghdr kept = {.msg_control = others, .msg_controllen = length};
    for (struct cmsghdr *one = CMSG_FIRSTHDR(&kept); one; one = CMSG_NXTHDR(&kept, one)) {
        put_control(message, room, one->cmsg_level, one->cmsg_type, CMSG_DATA(one), one->cmsg_len - CMSG_LEN(0));
    }
    return 0;
}

/* ---- the error queue ---- */

struct attributes {
    size_t length;
    char bytes[96];
};

static void put_attribute(struct attributes *all, int type, const void *data, size_t length) {
    struct nlattr head = {(uint16_t)(sizeof head + length), (uint16_t)type};
    memcpy(all->bytes + all->length, &head, sizeof head);
    memcpy(all->bytes + all->length + sizeof head, data, length);
    all->length += NLA_ALIGN(sizeof head + length);
}

static struct attributes attributes_of(const struct wire_notice *notice) {
    struct attributes all = {0};
    if (notice->what != EVENT_OFFERED) {
        put_attribute(&all, J1939_NLA_BYTES_ACKED, &notice->done, sizeof notice->done);
        return all;
    }
    put_attribute(&all, J1939_NLA_TOTAL_SIZE, &notice->size, sizeof notice->size);
    put_attribute(&all, J1939_NLA_PGN, &notice->way.pgn, sizeof notice->way.pgn);
    put_attribute(&all, J1939_NLA_SRC_NAME, &notice->way.name, sizeof notice->way.name);
    put_attribute(&all, J1939_NLA_DEST_NAME, &notice->way.to_name, sizeof notice->way.to_name);
    put_attribute(&all, J1939_NLA_SRC_ADDR, &notice->way.from, sizeof notice->way.from);
    put_attribute(&all, J1939_NLA_DEST_ADDR, &notice->way.to, sizeof notice->way.to);
    return all;
}

static struct sock_extended_err entry_of(const struct wire_notice *notice, int stamps) {
    static const uint32_t infos[] = {[EVENT_SENT] = SCM_TSTAMP_ACK,           [EVENT_BEGUN] = SCM_TSTAMP_SCHED,
                                     [EVENT_FAILED] = J1939_EE_INFO_TX_ABORT, [EVENT_OFFERED] = J1939_EE_INFO_RX_RTS,
                                     [EVENT_BLOCK] = J1939_EE_INFO_RX_DPO,    [EVENT_BROKEN] = J1939_EE_INFO_RX_ABORT};
    bool is_stamp = notice->what == EVENT_SENT || notice->what == EVENT_BEGUN;
    bool is_failure = notice->what == EVENT_FAILED || notice->what == EVENT_BROKEN;
    return (struct sock_extended_err){.ee_errno = is_failure ? (uint32_t)notice->error : ENOMSG,
                                      .ee_origin = is_stamp ? SO_EE_ORIGIN_TIMESTAMPING : SO_EE_ORIGIN_LOCAL,
                                      .ee_info = infos[notice->what],
                                      .ee_data = stamps & SOF_TIMESTAMPING_OPT_ID ? notice->key : 0};
}

/* Copies bytes into the pieces of a message. Returns how many bytes fitted, or -1 with errno set. */
static ssize_t scatter(struct msghdr *message, const char *data, size_t length) {
    size_t room = room_of(message, length), done = 0;
    for (const struct iovec *part = message->msg_iov; done < room; part++) {
        size_t count = MIN(part->iov_len, room - done);
        if (!copy_to(part->iov_base, data + done, count)) {
            return fail(EFAULT);
        }
        done += count;
    }
    message->msg_flags |= room < length ? MSG_TRUNC : 0;
    return (ssize_t)room;
}

static ssize_t receive_error(const struct socket *sock, struct msghdr *message) {
    struct wire_notice notice;
    struct answer answer = {.data = &notice, .room = sizeof notice};
    int stamps = 0;
    real()->getsockopt(sock->fd, SOL_SOCKET, SO_TIMESTAMPING, &stamps, &(socklen_t){sizeof stamps});
    if (ask(sock->fd, "recvmsg", &(struct wire_request){.kind = WIRE_NOTICE}, NULL, 0, &answer)) {
        return -1;
    }
    if (!(answer.value & NOTICE_KEEPS)) {
        drop_error(sock->fd);
    }
    if (!(answer.value & NOTICE_IS_THERE)) {
        return fail(EAGAIN);
    }
    struct attributes all = attributes_of(&notice);
    struct sock_extended_err entry = entry_of(&notice, stamps);
    ssize_t copied = scatter(message, all.bytes, all.length);
    size_t room = message->msg_control ? message->msg_controllen : 0;
    if (copied < 0) {
        return -1;
    }
    message->msg_controllen = 0;
    if (stamps & SOF_TIMESTAMPING_SOFTWARE) {
        int64_t three[6] = {(int64_t)(notice.nanoseconds / 1000000000u), (int64_t)(notice.nanoseconds % 1000000000u)};
        put_control(message, room, SOL_SOCKET, SO_TIMESTAMPING_OLD, three, sizeof three);
        put_control(message, room, SOL_SOCKET, SCM_TIMESTAMPING_OPT_STATS, all.bytes, all.length);
    }
    put_control(message, room, SOL_CAN_J1939, SCM_J1939_ERRQUEUE, &entry, sizeof entry);
    message->msg_flags |= MSG_ERRQUEUE;
    return copied;
}

static ssize_t j1939_recvmsg(const struct socket *sock, struct msghdr *message, int flags) {
    ssize_t length;
    if (flags & ~(MSG_DONTWAIT | MSG_ERRQUEUE)) {
        return refuse("read", EINVAL, "CAN_J1939 has no such flag");
    }
    return flags & MSG_ERRQUEUE ? receive_error(sock, message) : receive_message(sock, message, flags, &length);
}

const struct protocol j1939_protocol = {
    .family = PF_CAN,
    .type = SOCK_DGRAM,
    .address_size = J1939_ADDRESS,
    .level = SOL_CAN_J1939,
    .lingers = true,
    .shows_error = true,
    .has_ways = true,
    .bind = j1939_bind,
    .connect = j1939_connect,
    .getname = can_getname,
    .setsockopt = j1939_setsockopt,
    .getsockopt = j1939_getsockopt,
    .sendmsg = j1939_sendmsg,
    .recvmsg = j1939_recvmsg,
};
