/* Sends and receives the messages of a program that has a supervisor. See supervise.h. */
#define _GNU_SOURCE
#include "supervise.h"

#include "../shared/wire.h"

#include <errno.h>
#include <fcntl.h>
#include <poll.h>
#include <stdlib.h>
#include <sys/param.h>
#include <sys/socket.h>
#include <sys/syscall.h>
#include <sys/uio.h>
#include <time.h>

/* The kernel's ERESTARTSYS: the interrupted call is restarted or returns EINTR, depending on the flags of the signal
 * handler. */
#define RESTART 512
/* A waiting call checks for signals every LOOK milliseconds, because it is not notified of them in any other way. */
#define LOOK 20
/* The maximum size of a message, the maximum size of its control data, and the maximum number of its pieces. */
#define LONGEST WIRE_LARGEST
#define CONTROL 1024
#define PIECES 1024

/* A message of the program, and the supervisor's copy of it. */
struct parcel {
    struct msghdr theirs, ours;
    struct iovec parts[PIECES], whole;
    struct sockaddr_storage name;
    char control[CONTROL] __attribute__((aligned(8)));
    char data[LONGEST + 1];
};

/* Returns the total length of the message's pieces, limited to the size of the copy. */
static size_t length_of(const struct parcel *parcel) {
    size_t length = 0;
    for (size_t i = 0; i < parcel->theirs.msg_iovlen; i++) {
        length = MIN(length + parcel->parts[i].iov_len, sizeof parcel->data);
    }
    return length;
}

/* Reads the header of a message: its struct msghdr, or else the piece and the address from the arguments of the call.
 */
static int read_head(const struct call *call, struct parcel *parcel) {
    int number = call->asked->data.nr;
    const __u64 *words = call->words;
    if (number == SYS_sendmsg || number == SYS_recvmsg) {
        if (!take(call, &parcel->theirs, words[1], sizeof parcel->theirs)) {
            return -EFAULT;
        }
    } else {
        bool has_name = (number == SYS_sendto || number == SYS_recvfrom) && words[4];
        parcel->parts[0] = (struct iovec){(void *)(uintptr_t)words[1], words[2]};
        parcel->theirs = (struct msghdr){.msg_iovlen = 1,
                                         .msg_name = has_name ? (void *)(uintptr_t)words[4] : NULL,
                                         .msg_namelen = number == SYS_sendto ? (socklen_t)words[5] : 0};
    }
    if (number == SYS_writev || number == SYS_readv) {
        parcel->theirs.msg_iovlen = words[2];
        parcel->theirs.msg_iov = (void *)(uintptr_t)words[1];
    }
    if (parcel->theirs.msg_iovlen > PIECES) {
        return number == SYS_writev || number == SYS_readv ? -EINVAL : -EMSGSIZE;
    }
    bool is_list = number == SYS_sendmsg || number == SYS_recvmsg || number == SYS_writev || number == SYS_readv;
    return !is_list || take(call, parcel->parts, (uintptr_t)parcel->theirs.msg_iov,
                            parcel->theirs.msg_iovlen * sizeof *parcel->parts)
               ? 0
               : -EFAULT;
}

int64_t wait_for(const struct call *call, short events, const struct timeval *limit) {
    struct pollfd polled = {call->fd, events, 0};
    struct timespec begun, now;
    clock_gettime(CLOCK_MONOTONIC, &begun);
    for (;;) {
        if (poll(&polled, 1, LOOK) > 0) {
            return 0;
        }
        clock_gettime(CLOCK_MONOTONIC, &now);
        int64_t micros = (now.tv_sec - begun.tv_sec) * 1000000 + (now.tv_nsec - begun.tv_nsec) / 1000;
        if (!is_waited_for(call) || has_signal(call)) {
            return -RESTART;
        }
        if ((limit->tv_sec || limit->tv_usec) && micros >= limit->tv_sec * 1000000 + limit->tv_usec) {
            return -EAGAIN;
        }
    }
}

/* Returns whether a call with these flags may wait. */
static bool may_wait(const struct call *call, int flags) {
    return !(flags & (MSG_DONTWAIT | MSG_ERRQUEUE)) && !(fcntl(call->fd, F_GETFL) & O_NONBLOCK);
}

/* Sends a message. An ISO-TP message may have to wait until the previous message has been sent; a signal ends that
 * wait. */
static int64_t put_message(const struct call *call, const struct msghdr *message, int flags) {
    const struct timeval no_limit = {0, 0};
    int type = 0;
    getsockopt(call->fd, SOL_SOCKET, SO_TYPE, &type, &(socklen_t){sizeof type});
    bool waits = type == SOCK_DGRAM && may_wait(call, flags);
    for (;;) {
        ssize_t sent = sendmsg(call->fd, message, waits ? flags | MSG_DONTWAIT : flags);
        if (sent >= 0 || errno != EAGAIN || !waits) {
            return result(sent);
        }
        int64_t over = wait_for(call, POLLOUT, &no_limit);
        if (over) {
            return over;
        }
    }
}

static int64_t send_message(const struct call *call, struct parcel *parcel, int flags) {
    struct msghdr *theirs = &parcel->theirs;
    size_t at = 0, length = length_of(parcel);
    for (size_t i = 0; at < length; at += parcel->parts[i++].iov_len) {
        size_t part = MIN(parcel->parts[i].iov_len, length - at);
        if (!take(call, parcel->data + at, (uintptr_t)parcel->parts[i].iov_base, part)) {
            return -EFAULT;
        }
    }
    if (call->asked->data.nr == SYS_writev && !length) {
        return 0;
    }
    if (theirs->msg_name && theirs->msg_namelen > sizeof parcel->name) {
        return -EINVAL;
    }
    size_t name = theirs->msg_namelen, control = MIN(theirs->msg_controllen, CONTROL);
    if ((theirs->msg_name && !take(call, &parcel->name, (uintptr_t)theirs->msg_name, name)) ||
        (theirs->msg_control && !take(call, parcel->control, (uintptr_t)theirs->msg_control, control))) {
        return -EFAULT;
    }
    parcel->whole = (struct iovec){parcel->data, length};
    parcel->ours = (struct msghdr){.msg_name = theirs->msg_name ? &parcel->name : NULL,
                                   .msg_namelen = theirs->msg_namelen,
                                   .msg_iov = &parcel->whole,
                                   .msg_iovlen = 1,
                                   .msg_control = theirs->msg_control ? parcel->control : NULL,
                                   .msg_controllen = theirs->msg_control ? control : 0};
    return put_message(call, &parcel->ours, flags);
}

/* Copies as much of the sender's address to the program as fits into its buffer. As in the kernel, an error is found
 * only after the message has been received. */
static int64_t give_name(const struct call *call, const struct parcel *parcel, int64_t value) {
    socklen_t room;
    if (!parcel->theirs.msg_name) {
        return value;
    }
    if (!take(call, &room, call->words[5], sizeof room)) {
        return -EFAULT;
    }
    if ((int)room < 0) {
        return -EINVAL;
    }
    return give(call, call->words[4], &parcel->name, MIN(room, parcel->ours.msg_namelen)) &&
                   give(call, call->words[5], &parcel->ours.msg_namelen, sizeof room)
               ? value
               : -EFAULT;
}

/* Copies everything about a message to the program except the message's bytes. */
static int64_t give_head(const struct call *call, struct parcel *parcel, int64_t value) {
    struct msghdr *theirs = &parcel->theirs;
    const struct msghdr *ours = &parcel->ours;
    size_t control = theirs->msg_control ? ours->msg_controllen : 0;
    if ((theirs->msg_name &&
         !give(call, (uintptr_t)theirs->msg_name, &parcel->name, MIN(theirs->msg_namelen, ours->msg_namelen))) ||
        !give(call, (uintptr_t)theirs->msg_control, parcel->control, control)) {
        return -EFAULT;
    }
    theirs->msg_namelen = ours->msg_namelen;
    theirs->msg_flags = ours->msg_flags;
    theirs->msg_controllen = control;
    return give(call, call->words[1], theirs, sizeof *theirs) ? value : -EFAULT;
}

/* Copies a received message to the program. */
static int64_t give_message(const struct call *call, struct parcel *parcel, size_t length, int64_t value) {
    size_t at = 0;
    for (size_t i = 0; at < length && i < parcel->theirs.msg_iovlen; i++) {
        size_t part = MIN(parcel->parts[i].iov_len, length - at);
        if (!give(call, (uintptr_t)parcel->parts[i].iov_base, parcel->data + at, part)) {
            return -EFAULT;
        }
        at += part;
    }
    return call->asked->data.nr == SYS_recvfrom  ? give_name(call, parcel, value)
           : call->asked->data.nr == SYS_recvmsg ? give_head(call, parcel, value)
                                                 : value;
}

static int64_t receive_message(const struct call *call, struct parcel *parcel, int flags) {
    struct msghdr *theirs = &parcel->theirs;
    int number = call->asked->data.nr;
    bool waits = may_wait(call, flags);
    struct timeval limit = {0, 0};
    if ((number == SYS_read || number == SYS_readv) && !length_of(parcel)) {
        return 0;
    }
    getsockopt(call->fd, SOL_SOCKET, SO_RCVTIMEO, &limit, &(socklen_t){sizeof limit});
    for (;;) {
        size_t control = MIN(theirs->msg_controllen, CONTROL);
        parcel->whole = (struct iovec){parcel->data, length_of(parcel)};
        parcel->ours = (struct msghdr){.msg_name = theirs->msg_name ? &parcel->name : NULL,
                                       .msg_namelen = sizeof parcel->name,
                                       .msg_iov = &parcel->whole,
                                       .msg_iovlen = 1,
                                       .msg_control = theirs->msg_control ? parcel->control : NULL,
                                       .msg_controllen = theirs->msg_control ? control : 0};
        ssize_t value = recvmsg(call->fd, &parcel->ours, flags | MSG_DONTWAIT);
        if (value >= 0) {
            return give_message(call, parcel, MIN((size_t)value, parcel->whole.iov_len), value);
        }
        if (errno != EAGAIN || !waits) {
            return -errno;
        }
        int64_t over = wait_for(call, POLLIN, &limit);
        if (over) {
            return over;
        }
    }
}

int64_t carry_message(const struct call *call, bool sends) {
    int number = call->asked->data.nr;
    int flags = number == SYS_sendmsg || number == SYS_recvmsg   ? (int)call->words[2]
                : number == SYS_sendto || number == SYS_recvfrom ? (int)call->words[3]
                                                                 : 0;
    struct parcel *parcel = malloc(sizeof *parcel);
    if (!parcel) {
        return -ENOMEM;
    }
    int64_t value = read_head(call, parcel);
    value = value ? value : sends ? send_message(call, parcel, flags) : receive_message(call, parcel, flags);
    free(parcel);
    return value;
}
