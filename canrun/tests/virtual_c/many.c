/* many NAME COUNT: opens COUNT sockets. Each in turn sends a frame, and all others receive it with its timestamp.
 * Repeats this three times. */
#include "node.h"

#define MOST 64

static void receive(int fd) {
    struct can_frame frame;
    char control[CMSG_SPACE(sizeof(struct timeval))];
    struct iovec part = {&frame, sizeof frame};
    struct msghdr message = {
        .msg_iov = &part, .msg_iovlen = 1, .msg_control = control, .msg_controllen = sizeof control};
    if (recvmsg(fd, &message, 0) != sizeof frame) {
        perror("recvmsg");
        exit(1);
    }
}

int main(int count, char **words) {
    struct can_frame frame = {.can_id = 0x123, .can_dlc = 1};
    int fds[MOST], all = count == 3 ? atoi(words[2]) : 0, one = 1;
    if (all < 1 || all > MOST) {
        return 2;
    }
    for (int i = 0; i < all; i++) {
        fds[i] = open_can(words[1]);
        setsockopt(fds[i], SOL_SOCKET, SO_TIMESTAMP, &one, sizeof one);
    }
    for (int turn = 0; turn < 3 * all; turn++) {
        if (write(fds[turn % all], &frame, sizeof frame) != sizeof frame) {
            perror("write");
            return 1;
        }
        for (int i = 0; i < all; i++) {
            if (i != turn % all) {
                receive(fds[i]);
            }
        }
    }
    return 0;
}
