/* CAN_ISOTP: the frames of ISO 15765-2 in both directions, and every errno. A raw socket at the other end plays the
 * peer. */
#include "isotp.h"

static void faults(void) {
    int fd = made();
    struct sockaddr_can address = address_of("can0");
    struct can_isotp_ll_options link = {CAN_MTU, 8, 0};
    FAILS(write(fd, "x", 1), EADDRNOTAVAIL);
    FAILS(bind(fd, (struct sockaddr *)&address, 8), EINVAL);
    FAILS(bind_isotp(fd, RX, RX), EADDRNOTAVAIL);
    FAILS(bind_isotp(fd, RX, 0x800), EINVAL);
    address.can_ifindex = 0;
    address.can_addr.tp.tx_id = 1;
    FAILS(bind(fd, (struct sockaddr *)&address, sizeof address), ENODEV);
    FAILS(connect(fd, (struct sockaddr *)&address, sizeof address), EOPNOTSUPP);
    FAILS(setsockopt(fd, SOL_CAN_RAW, 1, &link, 3), EINVAL);
    FAILS(setsockopt(fd, SOL_CAN_ISOTP, 99, &link, 3), ENOPROTOOPT);
    FAILS(setsockopt(fd, SOL_CAN_ISOTP, CAN_ISOTP_LL_OPTS, &link, 2), EINVAL);
    link.tx_dl = 9;
    FAILS(setsockopt(fd, SOL_CAN_ISOTP, CAN_ISOTP_LL_OPTS, &link, sizeof link), EINVAL);
    CHECK(bind_isotp(fd, RX, TX) == 0);
    FAILS(bind_isotp(fd, RX, TX), EINVAL);
    link.tx_dl = 8;
    FAILS(setsockopt(fd, SOL_CAN_ISOTP, CAN_ISOTP_LL_OPTS, &link, sizeof link), EISCONN);
    FAILS(write(fd, "", 0), EINVAL);
    struct sockaddr_can own = {0};
    socklen_t length = sizeof own;
    CHECK(getsockname(fd, (struct sockaddr *)&own, &length) == 0 && own.can_addr.tp.rx_id == RX &&
          own.can_addr.tp.tx_id == TX);
    struct can_isotp_options options;
    length = sizeof options;
    CHECK(getsockopt(fd, SOL_CAN_ISOTP, CAN_ISOTP_OPTS, &options, &length) == 0 && length == sizeof options);
    CHECK(options.flags == 0 && options.frame_txtime == CAN_ISOTP_DEFAULT_FRAME_TXTIME &&
          options.txpad_content == 0xCC);
    CHECK(close(fd) == 0);
}

static void single_frames(void) {
    int fd = made();
    struct sockaddr_can from;
    socklen_t length = sizeof from;
    char data[8];
    CHECK(bind_isotp(fd, RX, TX) == 0);
    CHECK(write(fd, "abc", 3) == 3);
    SEES("\3abc");
    CHECK(write(fd, "abcdefg", 7) == 7);
    SEES("\7abcdefg");
    SAYS("\2xy");
    SAYS("\2xy\0\0\0\0\0");
    SAYS("\0xy"); /* A length of 0. */
    SAYS("\7xy"); /* A length above that of the frame. */
    SAYS("\1z");
    reads(fd, "xy", 2);
    reads(fd, "xy", 2);
    CHECK(comes(fd, PATIENCE));
    CHECK(recvfrom(fd, data, sizeof data, 0, (struct sockaddr *)&from, &length) == 1 && data[0] == 'z');
    CHECK(from.can_ifindex == (int)if_nametoindex("can0") && !from.can_addr.tp.rx_id && length == 16);
    CHECK(close(fd) == 0);
}

/* Sends 20 bytes: a first frame, flow control with blocks of one frame and pauses of 5 ms, and two consecutive frames.
 */
static void several_frames(void) {
    int fd = made();
    CHECK(bind_isotp(fd, RX, TX) == 0);
    CHECK(write(fd, "0123456789abcdefghij", 20) == 20);
    SEES("\x10\x14"
         "012345");
    CHECK(!comes(peer, QUIET));
    SAYS("\x30\x01\x05");
    SEES("\x21"
         "6789abc");
    CHECK(!comes(peer, QUIET));
    SAYS("\x31\0\0"); /* Wait. */
    SAYS("\x30\0\0");
    SEES("\x22"
         "defghij");
    SAYS("\x10\x14"
         "012345");
    SEES("\x30\0\0");
    SAYS("\x21"
         "6789abc");
    SAYS("\x22"
         "defghij");
    reads(fd, "0123456789abcdefghij", 20);
    /* A frame with a wrong sequence number, and a message whose frames stop too early. */
    SAYS("\x10\x14"
         "012345");
    SEES("\x30\0\0");
    SAYS("\x22"
         "6789abc");
    CHECK(comes(fd, PATIENCE));
    FAILS(read(fd, &(char){0}, 1), EILSEQ);
    SAYS("\x10\x14"
         "012345");
    SEES("\x30\0\0");
    CHECK(comes(fd, PATIENCE));
    FAILS(read(fd, &(char){0}, 1), ETIMEDOUT);
    CHECK(close(fd) == 0);
}

/* With CAN_ISOTP_WAIT_TX_DONE, write returns the result of the whole message. */
static void waits(void) {
    int fd = made();
    set_options(
        fd, (struct can_isotp_options){.flags = CAN_ISOTP_WAIT_TX_DONE | CAN_ISOTP_TX_PADDING, .txpad_content = 0xAA});
    CHECK(bind_isotp(fd, RX, TX) == 0);
    pid_t child = fork();
    if (child == 0) {
        CHECK(write(fd, "0123456789", 10) == 10);
        FAILS(write(fd, "0123456789", 10), EMSGSIZE);
        FAILS(write(fd, "0123456789", 10), ECOMM);
        CHECK(write(fd, "x", 1) == 1);
        _exit(0);
    }
    SEES("\x10\x0A"
         "012345");
    FAILS(send(fd, "x", 1, MSG_DONTWAIT), EAGAIN);
    SAYS("\x30\0\0");
    SEES("\x21"
         "6789\xAA\xAA\xAA");
    SEES("\x10\x0A"
         "012345");
    SAYS("\x32\0\0"); /* Overflow. */
    SEES("\x10\x0A"
         "012345");
    SEES("\x01x\xAA\xAA\xAA\xAA\xAA\xAA");
    int status;
    CHECK(waitpid(child, &status, 0) == child && WIFEXITED(status) && WEXITSTATUS(status) == 0);
    CHECK(close(fd) == 0);
}

static void extended(void) {
    int fd = made();
    set_options(fd, (struct can_isotp_options){.flags = CAN_ISOTP_EXTEND_ADDR, .ext_address = 0xE0});
    CHECK(bind_isotp(fd, RX, TX) == 0);
    CHECK(write(fd, "abcdef", 6) == 6);
    SEES("\xE0\6abcdef");
    CHECK(write(fd, "abcdefghijk", 11) == 11);
    SEES("\xE0\x10\x0B"
         "abcde");
    SAYS("\xE1\x30\0\0"); /* For another address. */
    CHECK(!comes(peer, QUIET));
    SAYS("\xE0\x30\0\0");
    SEES("\xE0\x21"
         "fghijk");
    SAYS("\xE0\2hi");
    reads(fd, "hi", 2);
    CHECK(close(fd) == 0);
}

/* Sends 8,000 bytes between two sockets, which requires a 32-bit length. The whole message is sent although its socket
 * is closed before the end. */
static void long_messages(bool is_fd) {
    static char data[8000];
    int sender = made(), receiver = made();
    struct can_isotp_fc_options flow = {.bs = 8};
    struct can_isotp_ll_options link = {CANFD_MTU, 64, 0};
    CHECK(setsockopt(receiver, SOL_CAN_ISOTP, CAN_ISOTP_RECV_FC, &flow, sizeof flow) == 0);
    if (is_fd) {
        CHECK(setsockopt(receiver, SOL_CAN_ISOTP, CAN_ISOTP_LL_OPTS, &link, sizeof link) == 0);
        CHECK(setsockopt(sender, SOL_CAN_ISOTP, CAN_ISOTP_LL_OPTS, &link, sizeof link) == 0);
    }
    CHECK(bind_isotp(sender, RX | CAN_EFF_FLAG, TX | CAN_EFF_FLAG) == 0 &&
          bind_isotp(receiver, TX | CAN_EFF_FLAG, RX | CAN_EFF_FLAG) == 0);
    for (size_t i = 0; i < sizeof data; i++) {
        data[i] = (char)(i * 7 + i / 256);
    }
    CHECK(write(sender, data, 5) == 5 && write(sender, data, 4000) == 4000 &&
          write(sender, data, sizeof data) == sizeof data);
    CHECK(close(sender) == 0);
    reads(receiver, data, 5);
    reads(receiver, data, 4000);
    reads(receiver, data, sizeof data);
    CHECK(close(receiver) == 0);
}

int main(void) {
    meet_peer();
    faults();
    single_frames();
    several_frames();
    waits();
    extended();
    long_messages(false);
    long_messages(true);
    return 0;
}
