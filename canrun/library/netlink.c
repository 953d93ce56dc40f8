/* Netlink sockets. They remain the kernel's own sockets, so poll, groups and port numbers are unchanged, and the
 * library keeps no state about them. If a program sends a message about one of the server's interfaces, the library
 * sends the answer to the kernel instead, with a message type that the kernel does not support. The kernel refuses the
 * answer and returns it, and the read that finds such a refusal extracts the answer. A request for a link dump is also
 * returned by the kernel in this way. It is answered when it is read; the kernel's links follow. On a kernel that does
 * not return refused messages, programs do not find the server's interfaces with netlink. */
#define _GNU_SOURCE
#include "library.h"

#include "links.h"

#include <errno.h>
#include <linux/netlink.h>
#include <string.h>
#include <sys/mman.h>
#include <sys/syscall.h>

/* The maximum size of the part of a dump in one datagram, as in the kernel. */
#define CHUNK 8192
/* The maximum size of a message that contains an answer. */
#define MAIL 4096

/* The header of a refusal that contains an answer. */
struct refusal {
    struct nlmsghdr head;
    int error;
    struct nlmsghdr refused;
};

static bool is_route(int fd) {
    int protocol = -1, before = errno;
    real()->getsockopt(fd, SOL_SOCKET, SO_PROTOCOL, &protocol, &(socklen_t){sizeof protocol});
    errno = before;
    return protocol == NETLINK_ROUTE;
}

static bool is_mail(const struct refusal *refusal, ssize_t length) {
    return length >= (ssize_t)sizeof *refusal && refusal->head.nlmsg_type == NLMSG_ERROR &&
           refusal->refused.nlmsg_type >= LINK_ANSWER && refusal->refused.nlmsg_type <= LINK_DUMP &&
           (size_t)length >= sizeof *refusal + refusal->refused.nlmsg_len - sizeof refusal->refused;
}

/* Returns whether the kernel returns refused messages in full. gVisor does not. */
static bool is_carried(void) {
    static int known; /* 0: not known yet; 1: yes; -1: no */
    int answer = __atomic_load_n(&known, __ATOMIC_RELAXED);
    struct {
        struct nlmsghdr head;
        uint64_t text;
    } mail = {{.nlmsg_len = sizeof mail, .nlmsg_type = LINK_ANSWER, .nlmsg_flags = NLM_F_REQUEST}, 0};
    char back[256];
    int before = errno;
    if (!answer) {
        int fd = (int)syscall(SYS_socket, AF_NETLINK, SOCK_RAW | SOCK_CLOEXEC, NETLINK_ROUTE);
        bool is_sent = syscall(SYS_sendto, fd, &mail, sizeof mail, 0, NULL, 0) == sizeof mail;
        ssize_t length = is_sent ? syscall(SYS_recvfrom, fd, back, sizeof back, MSG_DONTWAIT, NULL, NULL) : -1;
        answer = length > 0 && is_mail((struct refusal *)back, length) ? 1 : -1;
        __atomic_store_n(&known, answer, __ATOMIC_RELAXED);
        syscall(SYS_close, fd);
    }
    errno = before;
    return answer > 0;
}

/* ---- sending ---- */

/* Reserves room for a message of this length. Returns NULL if there is no room. */
static void *extend(struct outgoing *out, size_t length) {
    size_t at = NLMSG_ALIGN(out->length);
    if (at + length > sizeof out->data) {
        return NULL;
    }
    memset(out->data + out->length, 0, at - out->length);
    out->length = at + length;
    return out->data + at;
}

bool mail_put(struct outgoing *out, enum link_mail type, const struct nlmsghdr *head, const void *data, size_t length) {
    struct nlmsghdr *mail = extend(out, sizeof *mail + length);
    if (mail) {
        *mail = (struct nlmsghdr){.nlmsg_len = (uint32_t)(sizeof *mail + length),
                                  .nlmsg_type = type,
                                  .nlmsg_flags = NLM_F_REQUEST,
                                  .nlmsg_seq = head->nlmsg_seq};
        memcpy(mail + 1, data, length);
    }
    return mail;
}

/* Adds a dump request together with the position of the dump. */
static bool put_dump(struct outgoing *out, const struct nlmsghdr *asked, const struct dump *dump) {
    char data[MAIL];
    size_t length = sizeof *dump + asked->nlmsg_len;
    if (length > sizeof data) {
        return false;
    }
    memcpy(data, dump, sizeof *dump);
    memcpy(data + sizeof *dump, asked, asked->nlmsg_len);
    return mail_put(out, LINK_DUMP, asked, data, length);
}

/* Adds the end of a dump that contains no links of the kernel. */
static bool put_done(struct outgoing *out, const struct nlmsghdr *asked) {
    struct {
        struct nlmsghdr head;
        int error;
    } done = {{.nlmsg_len = sizeof done,
               .nlmsg_type = NLMSG_DONE,
               .nlmsg_flags = NLM_F_MULTI | NLM_F_DUMP_FILTERED,
               .nlmsg_seq = asked->nlmsg_seq},
              0};
    return mail_put(out, LINK_ANSWER, asked, &done, sizeof done);
}

static bool put_plain(struct outgoing *out, const struct nlmsghdr *asked) {
    void *place = extend(out, asked->nlmsg_len);
    if (place) {
        memcpy(place, asked, asked->nlmsg_len);
    }
    return place;
}

/* Adds the answer to a message. Returns false if the message is meant for the kernel. */
static bool put_answer(struct outgoing *out, const struct nlmsghdr *asked) {
    const struct dump start = {.next = INTERFACE_FIRST};
    char name[IFNAMSIZ];
    if (!(asked->nlmsg_flags & NLM_F_REQUEST)) {
        return false;
    }
    if (links_are_asked(asked)) {
        return interface_name(start.next, name) && put_dump(out, asked, &start);
    }
    return addresses_are_asked(asked) ? put_done(out, asked) : links_answer(asked, out);
}

/* Adds answers to the messages that are meant for the server, and copies the other messages unchanged. It stops at data
 * that is not a message. Returns false if no message is meant for the server. */
static bool replace(const char *data, size_t length, struct outgoing *out) {
    bool has_ours = false;
    for (size_t at = 0; at + sizeof(struct nlmsghdr) <= length;) {
        const struct nlmsghdr *head = (const void *)(data + at);
        if (head->nlmsg_len < sizeof *head || head->nlmsg_len > length - at) {
            break;
        }
        bool is_ours = put_answer(out, head);
        has_ours |= is_ours;
        if (!is_ours && !put_plain(out, head)) {
            return false;
        }
        at += NLMSG_ALIGN(head->nlmsg_len);
    }
    return has_ours;
}

/* The messages of a program and the messages that replace them. They are not on the stack, because the stack may be
 * small. */
struct exchange {
    struct outgoing out;
    char data[OUTGOING];
};

/* Returns whether the program wants the error messages of refusals. */
static bool wants_texts(int fd) {
    int is_wanted = 0;
    real()->getsockopt(fd, SOL_NETLINK, NETLINK_EXT_ACK, &is_wanted, &(socklen_t){sizeof is_wanted});
    return is_wanted;
}

static ssize_t send_by(const struct socket *sock, const struct msghdr *message, int flags, struct exchange *exchange) {
    size_t length = 0;
    for (size_t i = 0; i < message->msg_iovlen; i++) {
        const struct iovec *part = &message->msg_iov[i];
        if (part->iov_len > sizeof exchange->data - length ||
            !copy_from(exchange->data + length, part->iov_base, part->iov_len)) {
            return real()->sendmsg(sock->fd, message, flags);
        }
        length += part->iov_len;
    }
    exchange->out.explains = wants_texts(sock->fd);
    if (!replace(exchange->data, length, &exchange->out)) {
        return real()->sendmsg(sock->fd, message, flags);
    }
    if (!is_carried()) {
        return refuse("send", ENODEV, "this kernel does not carry interfaces of the server by netlink");
    }
    struct iovec part = {exchange->out.data, exchange->out.length};
    struct msghdr changed = *message;
    changed.msg_iov = &part;
    changed.msg_iovlen = 1;
    ssize_t sent = part.iov_len ? real()->sendmsg(sock->fd, &changed, flags) : 0;
    return sent < 0 ? -1 : (ssize_t)length;
}

static ssize_t netlink_sendmsg(const struct socket *sock, const struct msghdr *message, int flags) {
    if (!is_route(sock->fd)) {
        return real()->sendmsg(sock->fd, message, flags);
    }
    int before = errno;
    struct exchange *exchange =
        mmap(NULL, sizeof *exchange, PROT_READ | PROT_WRITE, MAP_PRIVATE | MAP_ANONYMOUS, -1, 0);
    if (exchange == MAP_FAILED) {
        return fail(ENOBUFS);
    }
    ssize_t sent = send_by(sock, message, flags, exchange);
    int error = sent < 0 ? errno : before;
    munmap(exchange, sizeof *exchange);
    errno = error;
    return sent;
}

/* ---- receiving ---- */

/* Copies this message to the program instead of the received one. As in the kernel, a message that does not fit is cut
 * off. */
static ssize_t give(struct msghdr *message, const char *data, size_t length, int flags) {
    size_t done = 0;
    for (size_t i = 0; i < message->msg_iovlen && done < length; i++) {
        size_t part = MIN(message->msg_iov[i].iov_len, length - done);
        if (!copy_to(message->msg_iov[i].iov_base, data + done, part)) {
            return fail(EFAULT);
        }
        done += part;
    }
    message->msg_flags |= done < length ? MSG_TRUNC : 0;
    return (ssize_t)(flags & MSG_TRUNC ? length : done);
}

/* Requests the next part of a dump or, after the last part, the kernel's links. */
static bool go_on(int fd, const struct nlmsghdr *asked, const struct dump *dump) {
    struct outgoing *out = mmap(NULL, sizeof *out, PROT_READ | PROT_WRITE, MAP_PRIVATE | MAP_ANONYMOUS, -1, 0);
    char name[IFNAMSIZ];
    if (out == MAP_FAILED) {
        return false;
    }
    bool is_put = interface_name(dump->next, name) ? put_dump(out, asked, dump)
                  : links_are_all(asked)           ? put_done(out, asked)
                                                   : put_plain(out, asked);
    bool is_sent = is_put && real()->send(fd, out->data, out->length, 0) >= 0;
    munmap(out, sizeof *out);
    return is_sent;
}

/* Writes the next part of a dump: as much as fits into the program's buffer and into one datagram. */
static ssize_t give_dump(int fd, struct msghdr *message, const char *request, uint32_t port, int flags) {
    struct dump dump;
    struct nlmsghdr asked[MAIL / sizeof(struct nlmsghdr)];
    char part[CHUNK];
    memcpy(&dump, request, sizeof dump);
    memcpy(asked, request + sizeof dump, sizeof *asked);
    memcpy(asked, request + sizeof dump, MIN((size_t)asked->nlmsg_len, sizeof asked));
    size_t room = room_of(message, sizeof part);
    /* A program reads with MSG_PEEK to find out the length, and then reads with a buffer that is large enough. */
    size_t length = links_dump(asked, &dump, part, flags & MSG_PEEK ? sizeof part : room);
    for (size_t at = 0; at < length; at += ((struct nlmsghdr *)(part + at))->nlmsg_len) {
        ((struct nlmsghdr *)(part + at))->nlmsg_pid = port;
    }
    if (!(flags & MSG_PEEK) && !go_on(fd, asked, &dump)) {
        return fail(ENOBUFS);
    }
    return give(message, part, length, flags);
}

/* Reads the next refusal and copies its content to the program. Returns 0 if another thread has already read it. */
static ssize_t take_mail(int fd, struct msghdr *message, int flags) {
    char mail[sizeof(struct refusal) + MAIL];
    struct iovec part = {mail, sizeof mail};
    struct msghdr whole = *message;
    whole.msg_iov = &part;
    whole.msg_iovlen = 1;
    ssize_t length = real()->recvmsg(fd, &whole, (flags & ~MSG_TRUNC) | MSG_DONTWAIT);
    struct refusal *refusal = (struct refusal *)mail;
    if (length < 0 || !is_mail(refusal, length)) {
        return length < 0 && errno != EAGAIN ? -1 : 0;
    }
    struct iovec *pieces = message->msg_iov;
    size_t count = message->msg_iovlen;
    *message = whole;
    message->msg_iov = pieces;
    message->msg_iovlen = count;
    char *data = mail + sizeof *refusal;
    size_t brought = refusal->refused.nlmsg_len - sizeof refusal->refused;
    if (refusal->refused.nlmsg_type == LINK_DUMP) {
        return give_dump(fd, message, data, refusal->head.nlmsg_pid, flags);
    }
    if (refusal->refused.nlmsg_type == LINK_ANSWER) {
        ((struct nlmsghdr *)data)->nlmsg_pid = refusal->head.nlmsg_pid;
    }
    return give(message, data, brought, flags);
}

static ssize_t netlink_recvmsg(const struct socket *sock, struct msghdr *message, int flags) {
    const int looks = MSG_PEEK | MSG_TRUNC;
    int before = errno;
    while (!(flags & (MSG_ERRQUEUE | MSG_OOB)) && is_route(sock->fd)) {
        struct refusal refusal = {0};
        ssize_t length = real()->recv(sock->fd, &refusal, sizeof refusal, (flags & MSG_DONTWAIT) | looks);
        if (length < 0) {
            return -1;
        }
        if (!is_mail(&refusal, length)) {
            break;
        }
        length = take_mail(sock->fd, message, flags);
        if (length) {
            errno = length < 0 ? errno : before;
            return length;
        }
    }
    return real()->recvmsg(sock->fd, message, flags);
}

/* ---- groups and options ---- */

/* Makes the socket receive events of the server's links, if possible. */
static int watched(int fd, bool is_watched) {
    int before = errno;
    if (is_watched && is_route(fd) && is_carried()) {
        links_watch(fd);
    }
    errno = before;
    return 0;
}

static int netlink_bind(const struct socket *sock, const struct sockaddr *address, socklen_t length) {
    struct sockaddr_nl groups;
    int result = real()->bind(sock->fd, address, length);
    return result ? result
                  : watched(sock->fd, length >= sizeof groups && copy_from(&groups, address, sizeof groups) &&
                                          groups.nl_groups & RTMGRP_LINK);
}

static int netlink_setsockopt(const struct socket *sock, int level, int option, const void *value, socklen_t length) {
    unsigned group;
    /* With NETLINK_CAP_ACK the kernel would not return refused messages in full. */
    if (level == SOL_NETLINK && option == NETLINK_CAP_ACK && is_route(sock->fd)) {
        return length < sizeof(int) ? fail(EINVAL) : 0;
    }
    int result = real()->setsockopt(sock->fd, level, option, value, length);
    return result ? result
                  : watched(sock->fd, level == SOL_NETLINK && option == NETLINK_ADD_MEMBERSHIP &&
                                          copy_from(&group, value, sizeof group) && group == RTNLGRP_LINK);
}

const struct protocol netlink_protocol = {.family = PF_NETLINK,
                                          .bind = netlink_bind,
                                          .setsockopt = netlink_setsockopt,
                                          .sendmsg = netlink_sendmsg,
                                          .recvmsg = netlink_recvmsg};
