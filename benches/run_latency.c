/* Measures how long a frame takes from one program with a CAN socket to another, in microseconds: run_latency SENDER
 * RECEIVER COUNT. The frame contains the time of its write. The receiver is a separate process, and requests the next
 * frame. Prints the median and the 99th percentile. */
#include <linux/can.h>
#include <net/if.h>
#include <stdint.h>
#include <stdio.h>
#include <stdlib.h>
#include <string.h>
#include <sys/socket.h>
#include <sys/wait.h>
#include <time.h>
#include <unistd.h>

#define WARM_UP 200

static uint64_t now(void) {
    struct timespec time;
    clock_gettime(CLOCK_MONOTONIC, &time);
    return (uint64_t)time.tv_sec * 1000000000 + (uint64_t)time.tv_nsec;
}

static void check(int is_good, const char *what) {
    if (!is_good) {
        perror(what);
        exit(1);
    }
}

static int bound(const char *name) {
    struct sockaddr_can address = {.can_family = AF_CAN, .can_ifindex = (int)if_nametoindex(name)};
    int fd = socket(PF_CAN, SOCK_RAW, CAN_RAW);
    check(fd >= 0 && address.can_ifindex && !bind(fd, (struct sockaddr *)&address, sizeof address), name);
    return fd;
}

static int by_size(const void *one, const void *other) {
    uint64_t a = *(const uint64_t *)one, b = *(const uint64_t *)other;
    return a < b ? -1 : a > b;
}

static void receive(const char *name, int count, int asks) {
    struct can_frame frame;
    uint64_t sent, *took = calloc((size_t)count, sizeof *took);
    int fd = bound(name);
    check(took != NULL, "calloc");
    for (int i = -WARM_UP; i < count; i++) {
        check(write(asks, "", 1) == 1 && read(fd, &frame, sizeof frame) == sizeof frame, "read");
        memcpy(&sent, frame.data, sizeof sent);
        took[i < 0 ? 0 : i] = now() - sent;
    }
    qsort(took, (size_t)count, sizeof *took, by_size);
    printf("%.1f %.1f\n", (double)took[count / 2] / 1000, (double)took[count * 99L / 100] / 1000);
}

int main(int words, char **word) {
    int ends[2], count = words == 4 ? atoi(word[3]) : 0, status = 1;
    char asked;
    if (count < 1) {
        fprintf(stderr, "usage: run_latency SENDER RECEIVER COUNT\n");
        return 2;
    }
    check(!pipe(ends), "pipe");
    pid_t child = fork();
    check(child >= 0, "fork");
    if (!child) {
        close(ends[0]);
        receive(word[2], count, ends[1]);
        return 0;
    }
    close(ends[1]);
    int fd = bound(word[1]);
    while (read(ends[0], &asked, 1) == 1) {
        struct can_frame frame = {.can_id = 0x123, .can_dlc = 8};
        uint64_t moment;
        usleep(50); /* By then the receiver waits. */
        moment = now();
        memcpy(frame.data, &moment, sizeof moment);
        check(write(fd, &frame, sizeof frame) == sizeof frame, "write");
    }
    waitpid(child, &status, 0);
    return status != 0;
}
