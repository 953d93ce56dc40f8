/* lent WORD: a program that only sends. Its socket has an empty filter, except with `plain`.
 *
 *   plain, filter   sends 40 frames at once, three times; prints the result of each write
 *   own             sends 40 frames, then receives three of its own; prints whether each is marked as its own
 *   turns COUNT     sends this many frames, one every 1 ms
 *   many            opens 100 sockets, one after the other, and sends some frames with each
 *   fork            writes to one socket from two processes
 *   closed          closes all other descriptors between two writes
 *   gone            waits in a read until the server has ended; prints the error */
#include "node.h"

#include <sys/wait.h>

static void filter_nothing(int fd) {
    setsockopt(fd, SOL_CAN_RAW, CAN_RAW_FILTER, NULL, 0);
}

static int put(int fd, unsigned number) {
    struct can_frame frame = {
        .can_id = 0x123, .can_dlc = 2, .data = {(unsigned char)(number >> 8), (unsigned char)number}};
    return write(fd, &frame, sizeof frame) == sizeof frame ? 0 : errno;
}

static void put_slowly(int fd, unsigned from, unsigned count) {
    for (unsigned number = from; number < from + count; number++) {
        int error = put(fd, number);
        if (error) {
            printf("%u: %s\n", number, strerror(error));
        }
        usleep(1000);
    }
}

static void burst(int fd) {
    for (unsigned round = 0; round < 3; round++) {
        for (unsigned number = 0; number < 40; number++) {
            printf("%d ", put(fd, number));
        }
        puts("");
        usleep(100000);
    }
}

static void own(int fd) {
    struct can_filter all = {0, 0};
    struct can_frame frame;
    struct iovec part = {&frame, sizeof frame};
    struct msghdr message = {.msg_iov = &part, .msg_iovlen = 1};
    put_slowly(fd, 0, 20);
    setsockopt(fd, SOL_CAN_RAW, CAN_RAW_RECV_OWN_MSGS, &(int){1}, sizeof(int));
    put_slowly(fd, 20, 20);
    setsockopt(fd, SOL_CAN_RAW, CAN_RAW_FILTER, &all, sizeof all);
    for (unsigned number = 40; number < 43; number++) {
        put(fd, number);
        ssize_t length = recvmsg(fd, &message, 0);
        printf("%zd %d %d\n", length, frame.data[1], !!(message.msg_flags & MSG_CONFIRM));
    }
}

static void many(int fd) {
    for (unsigned k = 0; k < 100; k++, close(fd), fd = open_can("can0")) {
        filter_nothing(fd);
        put_slowly(fd, 8 * k, 8);
    }
}

static void two_processes(int fd) {
    put_slowly(fd, 0, 8);
    pid_t child = fork();
    put_slowly(fd, child ? 100 : 200, 20);
    if (child) {
        waitpid(child, NULL, 0);
    }
}

static void closed(int fd) {
    put_slowly(fd, 0, 8);
    for (int other = 3; other < 1024; other++) {
        if (other != fd) {
            close(other);
        }
    }
    put_slowly(fd, 8, 8);
}

static void gone(int fd) {
    put_slowly(fd, 0, 8);
    ssize_t length = read(fd, &(struct can_frame){0}, sizeof(struct can_frame));
    printf("%zd %s\n", length, strerror(errno));
}

int main(int count, char **words) {
    static const struct {
        const char *word;
        void (*what)(int fd);
    } known[] = {{"plain", burst},        {"filter", burst},  {"own", own},  {"many", many},
                 {"fork", two_processes}, {"closed", closed}, {"gone", gone}};
    const char *word = count > 1 ? words[1] : "";
    int fd = open_can("can0");
    if (strcmp(word, "plain") != 0) {
        filter_nothing(fd);
    }
    if (count == 3) {
        put_slowly(fd, 0, (unsigned)atoi(words[2]));
    }
    for (size_t i = 0; i < sizeof known / sizeof *known; i++) {
        if (!strcmp(word, known[i].word)) {
            known[i].what(fd);
        }
    }
    return 0;
}
