/* isotp NAME TX RX send LENGTH | receive COUNT: prints when each message was sent, was received, or failed. */
#include "node.h"

#include <linux/can/isotp.h>
#include <poll.h>

#define LONGEST 5000

static unsigned char data[LONGEST];

static double now(void) {
    struct timespec t;
    clock_gettime(CLOCK_MONOTONIC, &t);
    return (double)t.tv_sec + (double)t.tv_nsec * 1e-9;
}

static int open_isotp(char **words) {
    struct sockaddr_can address = {.can_family = AF_CAN, .can_ifindex = (int)if_nametoindex(words[1])};
    struct can_isotp_options options = {.flags = CAN_ISOTP_WAIT_TX_DONE};
    struct can_isotp_fc_options control = {.bs = 4, .stmin = 3};
    int fd = socket(PF_CAN, SOCK_DGRAM, CAN_ISOTP);
    address.can_addr.tp.tx_id = (canid_t)strtoul(words[2], NULL, 16);
    address.can_addr.tp.rx_id = (canid_t)strtoul(words[3], NULL, 16);
    setsockopt(fd, SOL_CAN_ISOTP, CAN_ISOTP_RECV_FC, &control, sizeof control);
    if (!strcmp(words[4], "send")) {
        setsockopt(fd, SOL_CAN_ISOTP, CAN_ISOTP_OPTS, &options, sizeof options);
    }
    if (bind(fd, (struct sockaddr *)&address, sizeof address)) {
        perror("bind");
        exit(1);
    }
    return fd;
}

static void send_message(int fd, size_t length) {
    for (size_t i = 0; i < LONGEST; i++) {
        data[i] = (unsigned char)i;
    }
    double before = now();
    ssize_t sent = write(fd, data, length);
    printf("%.6f write of %zu after %.6f s: %zd %s\n", now(), length, now() - before, sent,
           sent < 0 ? strerror(errno) : "");
}

static void receive_message(int fd) {
    struct pollfd polled = {fd, POLLIN, 0};
    int is_ready = poll(&polled, 1, 3000);
    ssize_t length = is_ready ? read(fd, data, sizeof data) : 0;
    printf("%.6f read %zd %s\n", now(), length, length < 0 ? strerror(errno) : is_ready ? "" : "nothing in 3 s");
}

int main(int count, char **words) {
    if (count != 6) {
        return 2;
    }
    int fd = open_isotp(words);
    if (!strcmp(words[4], "send")) {
        send_message(fd, (size_t)atol(words[5]));
        return 0;
    }
    for (long k = 0; k < atol(words[5]); k++) {
        receive_message(fd);
    }
    return 0;
}
