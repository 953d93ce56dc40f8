/* Every way to read and write a frame, with flags and short buffers. */
#include "check.h"

static int can0, can1;

static void each_write(void) {
    struct can_frame frame = frame_of(0x101, 1);
    struct sockaddr_can to = address_of("can0");
    struct iovec parts[2] = {{&frame, 5}, {(char *)&frame + 5, sizeof frame - 5}};
    struct msghdr message = {.msg_iov = parts, .msg_iovlen = 2};
    struct mmsghdr several[2] = {{.msg_hdr = message}, {.msg_hdr = message}};
    CHECK(write(can0, &frame, sizeof frame) == 16);
    CHECK(writev(can0, parts, 2) == 16);
    CHECK(send(can0, &frame, sizeof frame, 0) == 16);
    CHECK(send(can0, &frame, sizeof frame, MSG_DONTWAIT | MSG_NOSIGNAL) == 16);
    CHECK(sendto(can0, &frame, sizeof frame, 0, NULL, 0) == 16);
    CHECK(sendto(can0, &frame, sizeof frame, 0, (struct sockaddr *)&to, sizeof to) == 16);
    CHECK(sendmsg(can0, &message, 0) == 16);
    CHECK(sendmmsg(can0, several, 2, 0) == 2 && several[0].msg_len == 16 && several[1].msg_len == 16);
    for (int i = 0; i < 9; i++) {
        get(can1, 0x101, 1);
    }
}

static bool is_frame(const struct can_frame *frame, unsigned number) {
    return frame->can_id == 0x102 && frame->can_dlc == 4 && number_of(frame) == number;
}

static void each_read(void) {
    struct can_frame frame, other;
    struct sockaddr_can from;
    socklen_t length = sizeof from;
    struct iovec parts[2] = {{&frame, 7}, {(char *)&frame + 7, sizeof frame - 7}};
    struct msghdr message = {.msg_iov = parts, .msg_iovlen = 2, .msg_name = &from, .msg_namelen = sizeof from};
    struct iovec others[2] = {{&frame, sizeof frame}, {&other, sizeof other}};
    struct mmsghdr several[3] = {{.msg_hdr = {.msg_iov = others, .msg_iovlen = 1}},
                                 {.msg_hdr = {.msg_iov = others + 1, .msg_iovlen = 1}}};
    for (unsigned i = 0; i < 9; i++) {
        send_numbered(can0, 0x102, i);
    }
    CHECK(read(can1, &frame, sizeof frame) == 16 && is_frame(&frame, 0));
    CHECK(readv(can1, parts, 2) == 16 && is_frame(&frame, 1));
    CHECK(recv(can1, &frame, sizeof frame, 0) == 16 && is_frame(&frame, 2));
    CHECK(recvfrom(can1, &frame, sizeof frame, 0, NULL, NULL) == 16 && is_frame(&frame, 3));
    CHECK(recvfrom(can1, &frame, sizeof frame, 0, (struct sockaddr *)&from, &length) == 16 && is_frame(&frame, 4));
    CHECK(from.can_family == AF_CAN && from.can_ifindex == (int)if_nametoindex("can1"));
    CHECK(length == offsetof(struct sockaddr_can, can_addr));
    memset(&from, 0, sizeof from);
    CHECK(recvmsg(can1, &message, 0) == 16 && is_frame(&frame, 5));
    CHECK(from.can_family == AF_CAN && from.can_ifindex == (int)if_nametoindex("can1") &&
          message.msg_namelen == length);
    CHECK(message.msg_flags == 0);
    CHECK(recvmmsg(can1, several, 2, 0, NULL) == 2 && is_frame(&frame, 6) && is_frame(&other, 7));
    CHECK(several[0].msg_len == 16 && several[1].msg_len == 16);
    struct timespec limit = {0, 200000000};
    CHECK(comes(can1, PATIENCE));
    CHECK(recvmmsg(can1, several, 2, MSG_WAITFORONE, &limit) == 1 && is_frame(&frame, 8));
}

/* Flags of recvmsg(2) and af_can: a frame that does not fit is marked as truncated, and the rest of it is lost. */
static void flags(void) {
    struct can_frame frame;
    struct iovec part = {&frame, 8};
    struct msghdr message = {.msg_iov = &part, .msg_iovlen = 1};
    FAILS(recv(can1, &frame, sizeof frame, MSG_DONTWAIT), EAGAIN);
    send_numbered(can0, 0x103, 7);
    send_numbered(can0, 0x103, 8);
    CHECK(comes(can1, PATIENCE));
    CHECK(read(can1, &frame, 0) == 0);
    CHECK(recv(can1, &frame, sizeof frame, MSG_PEEK) == 16 && number_of(&frame) == 7);
    CHECK(recvmsg(can1, &message, MSG_PEEK) == 8 && message.msg_flags == MSG_TRUNC);
    CHECK(recvmsg(can1, &message, MSG_TRUNC) == 8 && message.msg_flags == MSG_TRUNC);
    get(can1, 0x103, 8);
    FAILS(recv(can1, &frame, sizeof frame, MSG_ERRQUEUE), EAGAIN);
    FAILS(recv(can1, &frame, sizeof frame, MSG_DONTWAIT), EAGAIN);
}

static void nonblocking(void) {
    struct can_frame frame;
    struct timeval limit = {0, 50000};
    int other = socket(PF_CAN, SOCK_RAW | SOCK_NONBLOCK | SOCK_CLOEXEC, CAN_RAW);
    struct sockaddr_can address = address_of("can1");
    CHECK(bind(other, (struct sockaddr *)&address, sizeof address) == 0);
    CHECK(fcntl(other, F_GETFL) & O_NONBLOCK && fcntl(other, F_GETFD) & FD_CLOEXEC);
    CHECK(!(fcntl(can1, F_GETFL) & O_NONBLOCK) && !(fcntl(can1, F_GETFD) & FD_CLOEXEC));
    FAILS(read(other, &frame, sizeof frame), EAGAIN);
    send_numbered(other, 0x104, 1);
    get(can0, 0x104, 1);
    get(can1, 0x104, 1); /* By loopback. */
    CHECK(fcntl(other, F_SETFL, 0) == 0);
    CHECK(setsockopt(other, SOL_SOCKET, SO_RCVTIMEO, &limit, sizeof limit) == 0);
    FAILS(read(other, &frame, sizeof frame), EAGAIN);
    CHECK(close(other) == 0);
    FAILS(read(other, &frame, sizeof frame), EBADF);
    FAILS(write(other, &frame, sizeof frame), EBADF);
}

/* Identifiers, lengths and data arrive unchanged. */
static void contents(void) {
    static const canid_t ids[] = {0, 0x7FF, CAN_EFF_FLAG, CAN_EFF_FLAG | 0x7FF, CAN_EFF_FLAG | CAN_EFF_MASK};
    for (size_t i = 0; i < sizeof ids / sizeof *ids; i++) {
        for (unsigned char length = 0; length <= 8; length++) {
            struct can_frame frame = {.can_id = ids[i], .can_dlc = length},
                             remote = {.can_id = ids[i] | CAN_RTR_FLAG, .can_dlc = length}, one;
            for (unsigned char at = 0; at < length; at++) {
                frame.data[at] = (unsigned char)(0xF1 * (at + 1) + length);
            }
            CHECK(write(can0, &frame, sizeof frame) == 16 && write(can0, &remote, sizeof remote) == 16);
            one = got(can1);
            CHECK(!memcmp(&one, &frame, sizeof frame));
            one = got(can1);
            CHECK(!memcmp(&one, &remote, sizeof remote));
        }
    }
}

int main(void) {
    can0 = bound("can0");
    can1 = bound("can1");
    each_write();
    each_read();
    flags();
    nonblocking();
    contents();
    return 0;
}
