/* A J1939 node on an interface, at an address:
 *
 *     j1939 INTERFACE ADDRESS receive N        prints the lengths of N messages
 *     j1939 INTERFACE ADDRESS send TO LENGTH   sends a message, and prints the time and the error of its socket, if any
 *     j1939 INTERFACE ADDRESS claim            claims the address, and prints when the address can be used */
#include "node.h"

#include <linux/can/j1939.h>
#include <poll.h>
#include <stdint.h>

static struct sockaddr_can way(const char *interface, uint64_t name, uint32_t group, const char *address) {
    struct sockaddr_can can = {.can_family = AF_CAN, .can_ifindex = (int)if_nametoindex(interface)};
    can.can_addr.j1939.name = name;
    can.can_addr.j1939.pgn = group;
    can.can_addr.j1939.addr = (uint8_t)strtoul(address, NULL, 16);
    return can;
}

static double since(const struct timespec *begun) {
    struct timespec now;
    clock_gettime(CLOCK_MONOTONIC, &now);
    return (double)(now.tv_sec - begun->tv_sec) + (double)(now.tv_nsec - begun->tv_nsec) / SECOND;
}

static void receive(int fd, int count) {
    static char data[200000];
    while (count--) {
        printf("%zd\n", recv(fd, data, sizeof data, 0));
    }
}

static void send_to(int fd, const struct sockaddr_can *to, size_t length) {
    static char data[200000];
    struct timespec begun;
    int error = 0;
    clock_gettime(CLOCK_MONOTONIC, &begun);
    if (sendto(fd, data, length, 0, (const struct sockaddr *)to, sizeof *to) != (ssize_t)length) {
        perror("sendto");
    }
    poll(&(struct pollfd){fd, POLLERR, 0}, 1, 3000);
    getsockopt(fd, SOL_SOCKET, SO_ERROR, &error, &(socklen_t){sizeof error});
    printf("%zu bytes: %s after %.6f s\n", length, strerror(error), since(&begun));
}

/* Tries to send every millisecond until the address can be used. */
static void claim(int fd, const struct sockaddr_can *own) {
    struct sockaddr_can all = *own, other = *own;
    struct timespec begun;
    all.can_addr.j1939.name = other.can_addr.j1939.name = 0;
    all.can_addr.j1939.addr = J1939_NO_ADDR;
    all.can_addr.j1939.pgn = J1939_PGN_ADDRESS_CLAIMED;
    other.can_addr.j1939.addr++;
    other.can_addr.j1939.pgn = 0x12300;
    setsockopt(fd, SOL_SOCKET, SO_BROADCAST, &(int){1}, sizeof(int));
    clock_gettime(CLOCK_MONOTONIC, &begun);
    sendto(fd, &own->can_addr.j1939.name, 8, 0, (struct sockaddr *)&all, sizeof all);
    while (sendto(fd, "x", 1, 0, (struct sockaddr *)&other, sizeof other) != 1) {
        nanosleep(&(struct timespec){0, SECOND / 1000}, NULL);
    }
    printf("claimed after %.3f s\n", since(&begun));
}

int main(int count, char **words) {
    char kind = count > 3 ? *words[3] : 0;
    struct sockaddr_can own = way(words[1], kind == 'c' ? 0x1234 : 0, J1939_NO_PGN, words[2]);
    int fd = socket(PF_CAN, SOCK_DGRAM, CAN_J1939);
    if (fd < 0 || bind(fd, (struct sockaddr *)&own, sizeof own)) {
        perror(words[1]);
        return 1;
    }
    if (kind == 'r') {
        receive(fd, atoi(words[4]));
    } else if (kind == 's') {
        struct sockaddr_can to = way(words[1], 0, 0x12300, words[4]);
        send_to(fd, &to, (size_t)atoi(words[5]));
    } else {
        claim(fd, &own);
    }
    return 0;
}
