/* A signal whose handler lacks SA_RESTART ends a write that waits for room. The transmit queue has room for one frame,
 * and the bus sends one frame a minute. */
#include "check.h"

static void on_signal(int number) {
    (void)number;
}

int main(void) {
    struct sigaction action = {.sa_handler = on_signal};
    struct itimerval soon = {.it_value = {0, 200000}, .it_interval = {0, 200000}};
    int fd = bound("can0"), accepted = 0;
    struct can_frame frame = frame_of(0x123, 0);
    CHECK(sigaction(SIGALRM, &action, NULL) == 0);
    CHECK(setitimer(ITIMER_REAL, &soon, NULL) == 0);
    while (write(fd, &frame, sizeof frame) == sizeof frame) {
        accepted++;
    }
    CHECK(errno == EINTR);
    FAILS(write(fd, &frame, sizeof frame), EINTR);
    /* Another process is killed while its write waits. The frame of this write is not in the queue either. */
    pid_t child = fork();
    if (child == 0) {
        signal(SIGALRM, SIG_DFL);
        setitimer(ITIMER_REAL, &soon, NULL);
        CHECK(write(fd, &frame, sizeof frame) == sizeof frame);
        _exit(1);
    }
    int status;
    while (waitpid(child, &status, 0) != child) {
        CHECK(errno == EINTR);
    }
    CHECK(WIFSIGNALED(status) && WTERMSIG(status) == SIGALRM);
    printf("%d accepted\n", accepted);
    return 0;
}
