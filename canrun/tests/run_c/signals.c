/* With a signal every millisecond, every write has exactly one result, and no frame is lost or duplicated. An
 * interrupted read fails with EINTR, and a thread that waits in a read can be cancelled. Built with -pthread. */
#include "check.h"
#include <pthread.h>

#define FRAMES 3000
static volatile sig_atomic_t signals;

static void count(int number) {
    (void)number;
    signals = signals + 1;
}

static void *wait_for_ever(void *fd) {
    struct can_frame frame;
    return read(*(int *)fd, &frame, sizeof frame) == sizeof frame ? fd : NULL;
}

int main(void) {
    struct sigaction action = {.sa_handler = count};
    struct itimerval every = {{0, 1000}, {0, 1000}}, never = {{0, 0}, {0, 0}};
    int writer = bound("can0"), reader = bound("can1"), waiting = bound("can1");
    struct can_frame frame;
    pthread_t thread;
    void *result;
    CHECK(sigaction(SIGALRM, &action, NULL) == 0 && setitimer(ITIMER_REAL, &every, NULL) == 0);
    FAILS(read(waiting, &frame, sizeof frame), EINTR);
    for (unsigned i = 0; i < FRAMES; i++) {
        send_patiently(writer, 0x123, i);
        ssize_t length;
        while ((length = read(reader, &frame, sizeof frame)) < 0 && errno == EINTR) {
        }
        CHECK(length == sizeof frame && number_of(&frame) == i);
        while ((length = read(waiting, &frame, sizeof frame)) < 0 && errno == EINTR) {
        }
        CHECK(length == sizeof frame && number_of(&frame) == i);
    }
    CHECK(setitimer(ITIMER_REAL, &never, NULL) == 0 && signals > 0);
    CHECK(!comes(reader, QUIET));
    CHECK(pthread_create(&thread, NULL, wait_for_ever, &waiting) == 0);
    usleep(50000);
    CHECK(pthread_cancel(thread) == 0 && pthread_join(thread, &result) == 0 && result == PTHREAD_CANCELED);
    send_numbered(writer, 0x123, 5);
    get(waiting, 0x123, 5);
    return 0;
}
