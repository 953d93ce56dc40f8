/* bcm NAME send | watch: `send` runs a cyclic task of the broadcast manager for two seconds. `watch` sets a filter with
 * a timeout and a throttle, and prints the messages until none has arrived for three seconds. */
#include "node.h"

#include <linux/can/bcm.h>
#include <poll.h>

struct message {
    struct bcm_msg_head head;
    struct can_frame frame;
};

static int open_bcm(const char *name) {
    struct sockaddr_can address = {.can_family = AF_CAN, .can_ifindex = (int)if_nametoindex(name)};
    int fd = socket(PF_CAN, SOCK_DGRAM, CAN_BCM);
    if (fd < 0 || connect(fd, (struct sockaddr *)&address, sizeof address)) {
        perror(name);
        exit(1);
    }
    return fd;
}

static void put(int fd, const struct message *message) {
    if (write(fd, message, sizeof *message) < 0) {
        perror("write");
        exit(1);
    }
}

static void send_cyclically(int fd) {
    struct message message = {
        {.opcode = TX_SETUP, .flags = SETTIMER | STARTTIMER, .count = 10, .can_id = 0x123, .nframes = 1}, {0}};
    message.head.ival1 = (struct bcm_timeval){0, 10000};
    message.head.ival2 = (struct bcm_timeval){0, 100000};
    message.frame = (struct can_frame){.can_id = 0x123, .can_dlc = 1, .data = {1}};
    put(fd, &message);
    for (int k = 0; k < 8; k++) {
        usleep(250000);
        message.head.flags = k % 2 ? TX_ANNOUNCE : 0;
        message.frame.data[0]++;
        put(fd, &message);
    }
}

static void watch(int fd) {
    struct message message = {{.opcode = RX_SETUP, .flags = SETTIMER, .can_id = 0x123, .nframes = 1},
                              {.can_dlc = 8, .data = {0xff}}};
    struct pollfd polled = {fd, POLLIN, 0};
    message.head.ival1 = (struct bcm_timeval){0, 150000};
    message.head.ival2 = (struct bcm_timeval){0, 300000};
    put(fd, &message);
    while (poll(&polled, 1, 3000) > 0 && read(fd, &message, sizeof message) > 0) {
        struct timespec t;
        clock_gettime(CLOCK_MONOTONIC, &t);
        printf("%ld.%06ld %s %d\n", t.tv_sec, t.tv_nsec / 1000,
               message.head.opcode == RX_TIMEOUT ? "timeout" : "changed", message.frame.data[0]);
    }
}

int main(int count, char **words) {
    if (count != 3) {
        return 2;
    }
    int fd = open_bcm(words[1]);
    if (!strcmp(words[2], "send")) {
        send_cyclically(fd);
    } else {
        watch(fd);
    }
    return 0;
}
