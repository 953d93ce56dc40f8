/* Functions that the programs of ../test_virtual.py share. */
#define _GNU_SOURCE
#include <errno.h>
#include <linux/can.h>
#include <linux/can/raw.h>
#include <net/if.h>
#include <stdio.h>
#include <stdlib.h>
#include <string.h>
#include <sys/socket.h>
#include <time.h>
#include <unistd.h>

#define SECOND 1000000000L

__attribute__((unused)) static int open_can(const char *name) {
    struct sockaddr_can address = {.can_family = AF_CAN, .can_ifindex = (int)if_nametoindex(name)};
    int fd = socket(PF_CAN, SOCK_RAW, CAN_RAW);
    if (fd < 0 || bind(fd, (struct sockaddr *)&address, sizeof address)) {
        perror(name);
        exit(1);
    }
    return fd;
}

/* Returns the time `t` plus this many nanoseconds. */
__attribute__((unused)) static struct timespec later(struct timespec t, long nanoseconds) {
    long whole = t.tv_nsec + nanoseconds % SECOND;
    return (struct timespec){t.tv_sec + nanoseconds / SECOND + whole / SECOND, whole % SECOND};
}
