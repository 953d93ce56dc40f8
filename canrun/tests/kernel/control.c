/* Control messages of sendmsg and recvmsg, and BPF filters that a program attaches to a socket. */
#include "probe.h"
#include <linux/filter.h>

/* Sends a frame with one control message, in a buffer of `room` bytes. The control message has this length, level and
   type, and begins with `number`. */
static void send_with(int fd, size_t room, size_t length, int level, int type, uint64_t number) {
    _Alignas(8) char control[64] = {0};
    struct cmsghdr head = {.cmsg_len = length, .cmsg_level = level, .cmsg_type = type};
    struct can_frame frame = *FRAME(0x123, 1);
    struct msghdr message = {.msg_iov = &(struct iovec){&frame, sizeof frame},
                             .msg_iovlen = 1,
                             .msg_control = control,
                             .msg_controllen = room};
    memcpy(control, &head, sizeof head);
    memcpy(control + sizeof head, &number, sizeof number);
    DO(sendmsg(fd, &message, 0));
}
#define SENDS(name, ...) CASE(name, a = raw("can0"), b = raw("can1"), send_with(a, __VA_ARGS__), look(b))
#define SENDS_NOT(name, ...) CASE(name, a = raw("can0"), b = raw("can1"), send_with(a, __VA_ARGS__), take(b, 0))
SENDS(sends_nothing, 0, 0, 0, 0, 0)
SENDS(sends_less_than_head, 15, 4, SOL_SOCKET, 99, 0)
SENDS_NOT(sends_short_head, 24, 4, SOL_SOCKET, SO_TIMESTAMPING, 0)
SENDS_NOT(sends_length_0, 24, 0, SOL_SOCKET, SO_TIMESTAMPING, 0)
SENDS_NOT(sends_too_long, 24, 40, SOL_SOCKET, SO_TIMESTAMPING, 0)
SENDS_NOT(sends_unknown, 24, 20, SOL_SOCKET, 99, 0)
SENDS(sends_other_level, 24, 20, SOL_CAN_RAW, 99, 0)
SENDS(sends_stamping, 24, 20, SOL_SOCKET, SO_TIMESTAMPING, SOF_TIMESTAMPING_TX_SOFTWARE)
SENDS_NOT(sends_stamping_of_received, 24, 20, SOL_SOCKET, SO_TIMESTAMPING, SOF_TIMESTAMPING_RX_SOFTWARE)
SENDS_NOT(sends_stamping_of_8_bytes, 24, 24, SOL_SOCKET, SO_TIMESTAMPING, 0)
SENDS_NOT(sends_time, 24, 24, SOL_SOCKET, SCM_TXTIME, 1)
SENDS(sends_rights, 24, 20, SOL_SOCKET, SCM_RIGHTS, 1)
SENDS_NOT(sends_mark_of_8_bytes, 24, 24, SOL_SOCKET, SO_MARK, 1)
SENDS_NOT(sends_head_only, 16, 16, SOL_SOCKET, 99, 0)
SENDS_NOT(sends_second_short, 40, 20, SOL_SOCKET, SO_TIMESTAMPING, 0)
CASE(sends_unbound, a = socket(PF_CAN, SOCK_RAW, CAN_RAW), send_with(a, 24, 4, SOL_SOCKET, 99, 0))
CASE(sends_bcm, a = bcm("can0"), send_with(a, 24, 4, SOL_SOCKET, 99, 0))
CASE(sends_isotp, a = tp(RX, TX, 0), b = raw("can1"), send_with(a, 24, 4, SOL_SOCKET, 99, 0))

/* `passes` attaches a filter that lets `bytes` bytes of every frame through. `passes_data` lets only frames with this
 * first data byte through. */
static void passes(int fd, unsigned bytes) {
    struct sock_filter code[] = {{BPF_RET | BPF_K, 0, 0, bytes}};
    DO(setsockopt(fd, SOL_SOCKET, SO_ATTACH_FILTER, &(struct sock_fprog){1, code}, sizeof(struct sock_fprog)));
}
static void passes_data(int fd, unsigned data) {
    struct sock_filter code[] = {{BPF_LD | BPF_B | BPF_ABS, 0, 0, 8},
                                 {BPF_JMP | BPF_JEQ | BPF_K, 0, 1, data},
                                 {BPF_RET | BPF_K, 0, 0, 0xFFFF},
                                 {BPF_RET | BPF_K, 0, 0, 0}};
    DO(setsockopt(fd, SOL_SOCKET, SO_ATTACH_FILTER, &(struct sock_fprog){4, code}, sizeof(struct sock_fprog)));
}
#define FILTERED(name, ...) CASE(name, a = raw("can1"), b = raw("can0"), __VA_ARGS__)
FILTERED(filter_cuts, passes(a, 8), PUT(b, 0x123), until(a, POLLIN), glance(a), glance(a))
FILTERED(filter_cuts_named, passes(a, 8), PUT(b, 0x123), until(a, POLLIN), from(a, 24))
FILTERED(filter_cuts_controls, passes(a, 12), set(a, SOL_SOCKET, SO_TIMESTAMP, 1), PUT(b, 0x123), until(a, POLLIN),
         controls(a, 200))
FILTERED(filter_cuts_nothing, passes(a, 16), PUT(b, 0x123), until(a, POLLIN), from(a, 24))
FILTERED(filter_more, passes(a, 40), PUT(b, 0x123), until(a, POLLIN), from(a, 24))
FILTERED(filter_drops, passes(a, 0), PUT(b, 0x123), take(a, 0))
FILTERED(filter_of_data, passes_data(a, 2), put(b, FRAME(0x123, 1)), put(b, FRAME(0x123, 2)), put(b, FRAME(0x124, 3)),
         put(b, FRAME(0x125, 2)), look(a), until(a, POLLIN), from(a, 24), glance(a))
FILTERED(filter_detached, passes(a, 8), DO(setsockopt(a, SOL_SOCKET, SO_DETACH_FILTER, "", 4)), PUT(b, 0x123), look(a))

/* Prints the flags of a received message, which show whether it was truncated. */
static void flags_of(int fd, size_t room) {
    _Alignas(8) char data[200];
    struct msghdr message = {.msg_iov = &(struct iovec){data, room}, .msg_iovlen = 1, .msg_flags = -1};
    DO(recvmsg(fd, &message, MSG_DONTWAIT));
    say(":%X", (unsigned)message.msg_flags);
}
CASE(flags_raw, a = raw("can1"), b = raw("can0"), PUT(b, 1), PUT(b, 2), until(a, POLLIN), flags_of(a, 16), pass(20),
     flags_of(a, 8))
CASE(flags_of_neighbour, a = raw("can0"), b = raw("can0"), PUT(b, 1), PUT(b, 2), until(a, POLLIN), flags_of(a, 72),
     pass(20), flags_of(a, 0))
CASE(flags_own, a = raw("can0"), set(a, SOL_CAN_RAW, CAN_RAW_RECV_OWN_MSGS, 1), PUT(a, 1), until(a, POLLIN),
     flags_of(a, 16))
CASE(flags_bcm, a = bcm("can0"), b = raw("can1"),
     TELL(a, NONE, .opcode = RX_SETUP, .flags = RX_FILTER_ID, .can_id = 0x123), PUT(b, 0x123), until(a, POLLIN),
     flags_of(a, 40))
CASE(flags_bcm_whole, a = bcm("can0"), b = raw("can1"),
     TELL(a, NONE, .opcode = RX_SETUP, .flags = RX_FILTER_ID, .can_id = 0x123), PUT(b, 0x123), until(a, POLLIN),
     flags_of(a, 72))
CASE(flags_isotp, a = tp(RX, TX, 0), b = raw("can1"), SAYS(b, 3, 1, 2, 3), until(a, POLLIN), flags_of(a, 2))
