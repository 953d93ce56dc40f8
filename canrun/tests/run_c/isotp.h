/* Functions that the CAN_ISOTP programs share: a raw socket at the other end plays the peer. */
#ifndef ISOTP_TEST_H
#define ISOTP_TEST_H

#include "check.h"
#include <linux/can/isotp.h>

#define RX 0x321
#define TX 0x123

static int peer;

static inline int made(void) {
    int fd = socket(PF_CAN, SOCK_DGRAM, CAN_ISOTP);
    CHECK(fd >= 0);
    return fd;
}

static inline int bind_isotp(int fd, canid_t rx, canid_t tx) {
    struct sockaddr_can address = address_of("can0");
    address.can_addr.tp.rx_id = rx;
    address.can_addr.tp.tx_id = tx;
    return bind(fd, (struct sockaddr *)&address, sizeof address);
}

static inline void set_options(int fd, struct can_isotp_options options) {
    CHECK(setsockopt(fd, SOL_CAN_ISOTP, CAN_ISOTP_OPTS, &options, sizeof options) == 0);
}

/* Checks that the next frame on the bus has these bytes. */
static inline void sees(const char *bytes, size_t length) {
    struct canfd_frame frame = {0};
    CHECK(comes(peer, PATIENCE) && read(peer, &frame, sizeof frame) > 0);
    if (frame.can_id != TX || frame.len != length || memcmp(frame.data, bytes, length) != 0) {
        fprintf(stderr, "%X of %u bytes:", frame.can_id, frame.len);
        for (int i = 0; i < frame.len; i++) {
            fprintf(stderr, " %02X", frame.data[i]);
        }
        fprintf(stderr, ", not as expected\n");
        exit(1);
    }
}
#define SEES(bytes) sees(bytes, sizeof(bytes) - 1)

static inline void says(const char *bytes, size_t length) {
    struct can_frame frame = {.can_id = RX, .can_dlc = (unsigned char)length};
    memcpy(frame.data, bytes, length);
    CHECK(write(peer, &frame, sizeof frame) == sizeof frame);
}
#define SAYS(bytes) says(bytes, sizeof(bytes) - 1)

static inline void reads(int fd, const char *data, size_t length) {
    static char room[9000];
    CHECK(comes(fd, PATIENCE));
    CHECK(read(fd, room, sizeof room) == (ssize_t)length && !memcmp(room, data, length));
}

static inline void meet_peer(void) {
    struct can_filter only = {TX, CAN_EFF_FLAG | CAN_SFF_MASK};
    peer = bound("can1");
    CHECK(setsockopt(peer, SOL_CAN_RAW, CAN_RAW_FILTER, &only, sizeof only) == 0);
}

#endif
