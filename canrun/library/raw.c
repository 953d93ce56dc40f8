/* CAN_RAW: writes each frame in the fastest possible way. */
#define _GNU_SOURCE
#include "../shared/planted.h"
#include "library.h"

#include <errno.h>
#include <linux/can/raw.h>
#include <linux/net_tstamp.h>
#include <string.h>
#include <sys/syscall.h>
#include <time.h>

/* The SO_TIMESTAMPING flags that a control message may set for one frame. */
#define STAMPS_OF_SENT \
    (SOF_TIMESTAMPING_TX_HARDWARE | SOF_TIMESTAMPING_TX_SOFTWARE | SOF_TIMESTAMPING_TX_SCHED | SOF_TIMESTAMPING_TX_ACK)
/* The maximum number of bytes of control messages that the kernel accepts. */
#define MOST_CONTROL 20480

/* Prints once that an error message frame was accepted but will not be sent. */
static void note_error_frame(void) {
    static const char text[] =
        "canbusd-run: note: error message frames that are written go nowhere: the server makes its "
        "own\n";
    static int is_said;
    if (!__atomic_exchange_n(&is_said, 1, __ATOMIC_RELAXED)) {
        syscall(SYS_write, STDERR_FILENO, text, sizeof text - 1);
    }
}

/* Returns whether the kernel accepts this control message. The message has no effect here. */
static bool is_proper(const struct cmsghdr *control) {
    uint32_t flags = 0;
    if (control->cmsg_level != SOL_SOCKET || control->cmsg_type == SCM_RIGHTS ||
        control->cmsg_type == SCM_CREDENTIALS) {
        return true;
    }
    if (control->cmsg_len != CMSG_LEN(sizeof flags)) {
        return false;
    }
    memcpy(&flags, CMSG_DATA(control), sizeof flags);
    return control->cmsg_type == SO_MARK || (control->cmsg_type == SO_TIMESTAMPING && !(flags & ~STAMPS_OF_SENT));
}

/* Checks the control messages of a frame, like sock_cmsg_send in the kernel. Returns 0, or -1 with errno set. */
static int check_control(const struct msghdr *message) {
    if (message->msg_controllen > MOST_CONTROL) {
        return fail(ENOBUFS);
    }
    char control[message->msg_controllen + 1] __attribute__((aligned(8)));
    struct msghdr copy = {.msg_control = control, .msg_controllen = message->msg_controllen};
    if (!copy_from(control, message->msg_control, message->msg_controllen)) {
        return fail(EFAULT);
    }
    for (struct cmsghdr *one = CMSG_FIRSTHDR(&copy); one; one = CMSG_NXTHDR(&copy, one)) {
        size_t left = (size_t)(control + copy.msg_controllen - (char *)one);
        if (one->cmsg_len < sizeof *one || one->cmsg_len > left || !is_proper(one)) {
            return refuse("sendmsg", EINVAL, "a control message is none that a frame can have");
        }
    }
    return 0;
}

/* Returns the interface of a write: the one in its destination address, or the one to which the socket is bound. */
static int interface_of(const struct socket *sock, int index) {
    struct sockaddr_can can = {0};
    struct answer answer = {.data = &can, .room = sizeof can};
    if (index == WIRE_BOUND) {
        ask(sock->fd, "sendmsg", &(struct wire_request){.kind = WIRE_ADDRESS}, NULL, 0, &answer);
        index = can.can_ifindex;
    }
    return index;
}

/* Refuses a write because of its control messages. Like the kernel, it reports an invalid interface first. */
static ssize_t refuse_control(const struct socket *sock, int index) {
    int error = errno;
    char name[IFNAMSIZ];
    index = interface_of(sock, index);
    return fail(index && !name_of_index(index, name) ? error : ENXIO);
}

/* The fault that a sweep injects. */
static struct planted planted;

__attribute__((constructor)) static void read_planted(void) {
    planted = planted_read();
}

/* Returns whether a sweep makes this write fail for lack of room. Later writes succeed. */
static bool is_planted(const struct socket *sock, const struct wire_request *request, const struct msghdr *message) {
    canid_t identifier;
    struct timespec now;
    if (message->msg_iovlen != 1 || message->msg_iov->iov_len < sizeof identifier ||
        !copy_from(&identifier, message->msg_iov->iov_base, sizeof identifier) ||
        (identifier & ~CAN_RTR_FLAG) != planted.identifier) {
        return false;
    }
    clock_gettime(CLOCK_REALTIME, &now);
    if ((uint64_t)now.tv_sec * 1000000000u + (uint64_t)now.tv_nsec < planted.moment ||
        !planted_is_of(&planted, interface_of(sock, request->ifindex), identifier)) {
        return false;
    }
    return __atomic_exchange_n(&planted.kind, PLANTED_NONE, __ATOMIC_RELAXED) == PLANTED_FULL;
}

static ssize_t raw_sendmsg(const struct socket *sock, const struct msghdr *message, int flags) {
    struct wire_request request;
    struct answer answer = {0};
    (void)flags;
    if (begin_write(message, &request) || read_target(message, &request.ifindex)) {
        return -1;
    }
    if (message->msg_controllen && check_control(message)) {
        return refuse_control(sock, request.ifindex);
    }
    if (__atomic_load_n(&planted.kind, __ATOMIC_RELAXED) == PLANTED_FULL && is_planted(sock, &request, message)) {
        return refuse("write", ENOBUFS, "the transmit queue is full");
    }
    enum quick quick = ask_quickly(sock, &request, message, &answer);
    if (quick == QUICK_NONE || quick == QUICK_NO_ROOM) {
        request.option = quick == QUICK_NO_ROOM;
        quick = ask_patiently(sock, &request, message, &answer) ? QUICK_REFUSED : QUICK_DONE;
    }
    if (quick == QUICK_REFUSED) {
        return -1;
    }
    waits_begin();
    if (answer.length) {
        note_error_frame();
    }
    return answer.value;
}

const struct protocol raw_protocol = {
    .family = PF_CAN,
    .type = SOCK_RAW,
    .address_size = CAN_REQUIRED_SIZE(struct sockaddr_can, can_ifindex),
    .level = SOL_CAN_RAW,
    .uncut_option = CAN_RAW_FILTER,
    .bind = can_bind,
    .connect = no_connect,
    .getname = can_getname,
    .setsockopt = can_setsockopt,
    .getsockopt = can_getsockopt,
    .sendmsg = raw_sendmsg,
    .recvmsg = can_recvmsg,
};
