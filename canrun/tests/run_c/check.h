/* Macros and functions that the C programs of test_run_c.py share. The programs are ordinary programs with CAN sockets,
 * without code for canbusd. A failed check prints its file and line, and ends the program with status 1. */
#ifndef CHECK_H
#define CHECK_H

#define _GNU_SOURCE
#include <errno.h>
#include <fcntl.h>
#include <linux/can.h>
#include <linux/can/bcm.h>
#include <linux/can/error.h>
#include <linux/can/raw.h>
#include <net/if.h>
#include <poll.h>
#include <signal.h>
#include <stdbool.h>
#include <stddef.h>
#include <stdint.h>
#include <stdio.h>
#include <stdlib.h>
#include <string.h>
#include <sys/ioctl.h>
#include <sys/socket.h>
#include <sys/time.h>
#include <sys/uio.h>
#include <sys/wait.h>
#include <time.h>
#include <unistd.h>

#define CHECK(condition)                                                                                 \
    do {                                                                                                 \
        if (!(condition)) {                                                                              \
            fprintf(stderr, "%s:%d: not so: %s (errno %d, %s)\n", __FILE__, __LINE__, #condition, errno, \
                    strerror(errno));                                                                    \
            exit(1);                                                                                     \
        }                                                                                                \
    } while (0)

/* Checks that the call fails with this errno. */
#define FAILS(call, error)                                                                                         \
    do {                                                                                                           \
        errno = 0;                                                                                                 \
        CHECK((call) == -1);                                                                                       \
        if (errno != (error)) {                                                                                    \
            fprintf(stderr, "%s:%d: %s: errno is %s, not %s\n", __FILE__, __LINE__, #call, strerrorname_np(errno), \
                    #error);                                                                                       \
            exit(1);                                                                                               \
        }                                                                                                          \
    } while (0)

/* How many milliseconds to wait for a frame that must arrive. It is enough on any machine. */
#define PATIENCE 20000
/* How many milliseconds to wait for unwanted frames. */
#define QUIET 100

static inline struct sockaddr_can address_of(const char *name) {
    struct sockaddr_can address = {.can_family = AF_CAN, .can_ifindex = name ? (int)if_nametoindex(name) : 0};
    CHECK(!name || address.can_ifindex > 0);
    return address;
}

static inline int bound(const char *name) {
    struct sockaddr_can address = address_of(name);
    int fd = socket(PF_CAN, SOCK_RAW, CAN_RAW);
    CHECK(fd >= 0);
    CHECK(bind(fd, (struct sockaddr *)&address, sizeof address) == 0);
    return fd;
}

static inline void set(int fd, int option, int value) {
    CHECK(setsockopt(fd, SOL_CAN_RAW, option, &value, sizeof value) == 0);
}

static inline struct can_frame frame_of(canid_t id, unsigned number) {
    struct can_frame frame = {.can_id = id, .can_dlc = 4};
    memcpy(frame.data, &number, sizeof number);
    return frame;
}

static inline unsigned number_of(const struct can_frame *frame) {
    unsigned number;
    memcpy(&number, frame->data, sizeof number);
    return number;
}

static inline void send_numbered(int fd, canid_t id, unsigned number) {
    struct can_frame frame = frame_of(id, number);
    CHECK(write(fd, &frame, sizeof frame) == sizeof frame);
}

/* Sends a numbered frame. Tries again as long as the transmit queue is full. */
static inline void send_patiently(int fd, canid_t id, unsigned number) {
    struct can_frame frame = frame_of(id, number);
    while (write(fd, &frame, sizeof frame) != sizeof frame) {
        CHECK(errno == ENOBUFS);
        usleep(1000);
    }
}

static inline bool comes(int fd, int milliseconds) {
    struct pollfd polled = {fd, POLLIN, 0};
    return poll(&polled, 1, milliseconds) > 0;
}

static inline struct can_frame got(int fd) {
    struct can_frame frame;
    CHECK(comes(fd, PATIENCE));
    CHECK(read(fd, &frame, sizeof frame) == sizeof frame);
    return frame;
}

/* Checks that the next frame has this identifier and number. */
static inline void get(int fd, canid_t id, unsigned number) {
    struct can_frame frame = got(fd);
    if (frame.can_id != id || frame.can_dlc != 4 || number_of(&frame) != number) {
        fprintf(stderr, "frame %X %u instead of %X %u\n", frame.can_id, number_of(&frame), id, number);
        exit(1);
    }
}

#endif
