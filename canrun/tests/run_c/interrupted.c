/* Receives a thousand frames in order while signals interrupt the waits, with and without SA_RESTART. */
#include "check.h"

#include <sys/time.h>

static volatile sig_atomic_t signals;

static void count(int number) {
    (void)number;
    signals++;
}

/* Receives a message and its address, which a plain read can't return. */
static bool receive(int fd, unsigned expected) {
    struct can_frame frame;
    struct sockaddr_can from;
    struct iovec part = {&frame, sizeof frame};
    struct msghdr message = {.msg_name = &from, .msg_namelen = sizeof from, .msg_iov = &part, .msg_iovlen = 1};
    ssize_t length = recvmsg(fd, &message, 0);
    CHECK(length == sizeof frame || (length < 0 && errno == EINTR));
    CHECK(length < 0 || (frame.can_id == 0x123 && number_of(&frame) == expected));
    return length > 0;
}

int main(int words, char **values) {
    const unsigned most = 1000;
    int reader = bound("can1");
    pid_t writer = fork();
    CHECK(words == 2 && writer >= 0);
    if (writer == 0) {
        int fd = bound("can0");
        for (unsigned i = 0; i < most; i++) {
            send_patiently(fd, 0x123, i);
            usleep(500);
        }
        _exit(0);
    }
    struct sigaction action = {.sa_handler = count, .sa_flags = *values[1] == 'r' ? SA_RESTART : 0};
    struct itimerval time = {{0, 3000}, {0, 3000}};
    CHECK(sigaction(SIGALRM, &action, NULL) == 0 && setitimer(ITIMER_REAL, &time, NULL) == 0);
    for (unsigned next = 0; next < most;) {
        next += receive(reader, next);
    }
    CHECK(signals > 10);
    return 0;
}
