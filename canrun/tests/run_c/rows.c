/* Features that few programs use: results of ioctl and getsockopt, and CAN_ISOTP options that are truncated, refused,
 * or applied to every frame. */
#include "isotp.h"
#include <linux/sockios.h>

static void interface(void) {
    struct ifreq request = {.ifr_name = "can0", .ifr_metric = 7};
    int fd = bound("can0"), protocol = 7;
    socklen_t length = sizeof protocol;
    CHECK(ioctl(fd, SIOCGIFMETRIC, &request) == 0 && request.ifr_metric == 0);
    CHECK(ioctl(fd, SIOCGIFMAP, &request) == 0 && request.ifr_map.base_addr == 0);
    CHECK(ioctl(fd, SIOCGIFFLAGS, &request) == 0 && request.ifr_flags & IFF_UP);
    CHECK(ioctl(fd, SIOCSIFFLAGS, &request) == 0);
    CHECK(ioctl(fd, SIOCGIFMTU, &request) == 0 && request.ifr_mtu == CANFD_MTU);
    CHECK(getsockopt(fd, SOL_SOCKET, SO_PROTOCOL, &protocol, &length) == 0 && protocol == 0);
    CHECK(close(fd) == 0);
}

static void lengths(void) {
    int fd = made();
    struct can_isotp_options options = {.txpad_content = 0x11};
    struct can_isotp_fc_options flow = {.bs = 5, .stmin = 6};
    socklen_t length = 5;
    unsigned char part[8] = {0};
    FAILS(setsockopt(fd, SOL_CAN_ISOTP, CAN_ISOTP_OPTS, &options, sizeof options - 1), EINVAL);
    FAILS(setsockopt(fd, SOL_CAN_ISOTP, CAN_ISOTP_RECV_FC, &flow, sizeof flow + 1), EINVAL);
    CHECK(setsockopt(fd, SOL_CAN_ISOTP, CAN_ISOTP_RECV_FC, &flow, sizeof flow) == 0);
    CHECK(getsockopt(fd, SOL_CAN_ISOTP, CAN_ISOTP_OPTS, part, &length) == 0 && length == 5);
    length = 1;
    CHECK(getsockopt(fd, SOL_CAN_ISOTP, CAN_ISOTP_RECV_FC, part, &length) == 0 && length == 1 && part[0] == 5);
    length = 64;
    CHECK(getsockopt(fd, SOL_CAN_ISOTP, CAN_ISOTP_RECV_FC, part, &length) == 0 && length == 3 && part[1] == 6);
    length = (socklen_t)-1;
    FAILS(getsockopt(fd, SOL_CAN_ISOTP, CAN_ISOTP_RECV_FC, part, &length), EINVAL);
    FAILS(getsockopt(fd, SOL_CAN_ISOTP, 99, part, &length), EINVAL);
    length = sizeof part;
    FAILS(getsockopt(fd, SOL_CAN_ISOTP, 99, part, &length), ENOPROTOOPT);
    FAILS(getsockopt(fd, SOL_CAN_RAW, 1, part, &length), EINVAL);
    options.flags = CAN_ISOTP_SF_BROADCAST | CAN_ISOTP_CF_BROADCAST;
    FAILS(setsockopt(fd, SOL_CAN_ISOTP, CAN_ISOTP_OPTS, &options, sizeof options), EINVAL);
    CHECK(close(fd) == 0);
}

/* All frames of a transfer have the flags in its link layer options, including flow control frames. */
static void bit_rate_switch(void) {
    int fd = made();
    struct can_isotp_ll_options link = {CANFD_MTU, 64, CANFD_BRS};
    struct canfd_frame frame, control = {.can_id = RX, .len = 3, .data = {0x30, 0, 0}};
    CHECK(setsockopt(fd, SOL_CAN_ISOTP, CAN_ISOTP_LL_OPTS, &link, sizeof link) == 0);
    CHECK(bind_isotp(fd, RX, TX) == 0);
    CHECK(write(fd, (char[100]){1}, 100) == 100);
    CHECK(comes(peer, PATIENCE) && read(peer, &frame, sizeof frame) == CANFD_MTU);
    CHECK(frame.data[0] == 0x10 && frame.len == 64 && frame.flags & CANFD_BRS);
    CHECK(write(peer, &control, sizeof control) == CANFD_MTU);
    CHECK(comes(peer, PATIENCE) && read(peer, &frame, sizeof frame) == CANFD_MTU);
    CHECK(frame.data[0] == 0x21 && frame.len == 48 && frame.flags & CANFD_BRS);
    control.len = 64;
    memcpy(control.data, "\x10\x64", 2);
    CHECK(write(peer, &control, sizeof control) == CANFD_MTU);
    CHECK(comes(peer, PATIENCE) && read(peer, &frame, sizeof frame) == CANFD_MTU);
    CHECK(frame.data[0] == 0x30 && frame.len == 3 && frame.flags & CANFD_BRS);
    CHECK(close(fd) == 0);
}

int main(void) {
    meet_peer();
    set(peer, CAN_RAW_FD_FRAMES, 1);
    interface();
    lengths();
    bit_rate_switch();
    return 0;
}
