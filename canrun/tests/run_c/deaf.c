/* A thread that blocks SIGTERM holds a lock while it waits for room in a queue that stays full, as QEMU's CPU threads
 * do with --wait. Its first write fails after a second, and its later writes fail at once. The signal handler of
 * another thread ends the program. Built with -pthread. */
#include "check.h"
#include <pthread.h>

#define WRITES 20
static pthread_mutex_t lock = PTHREAD_MUTEX_INITIALIZER;
static volatile sig_atomic_t is_ended;

static void on_signal(int number) {
    (void)number;
    is_ended = 1;
}

static double now(void) {
    struct timespec time;
    CHECK(clock_gettime(CLOCK_MONOTONIC, &time) == 0);
    return (double)time.tv_sec + (double)time.tv_nsec / 1e9;
}

static void *write_on(void *waiting) {
    int fd = bound("can0");
    struct can_frame frame = frame_of(0x123, 0);
    CHECK(pthread_mutex_lock(&lock) == 0 && write(*(int *)waiting, "", 1) == 1);
    double begun = now();
    while (write(fd, &frame, sizeof frame) == sizeof frame) {
        begun = now();
    }
    double end = now();
    CHECK(errno == ENOBUFS && end - begun > 0.9);
    for (int i = 0; i < WRITES; i++) {
        FAILS(write(fd, &frame, sizeof frame), ENOBUFS);
    }
    CHECK(now() - end < WRITES / 2);
    CHECK(pthread_mutex_unlock(&lock) == 0);
    return NULL;
}

int main(void) {
    struct sigaction action = {.sa_handler = on_signal};
    sigset_t all, before;
    pthread_t thread;
    int ends[2];
    char byte;
    CHECK(pipe(ends) == 0 && sigaction(SIGTERM, &action, NULL) == 0);
    CHECK(sigfillset(&all) == 0 && pthread_sigmask(SIG_SETMASK, &all, &before) == 0);
    CHECK(pthread_create(&thread, NULL, write_on, &ends[1]) == 0);
    CHECK(pthread_sigmask(SIG_SETMASK, &before, NULL) == 0);
    CHECK(read(ends[0], &byte, 1) == 1);
    CHECK(kill(getpid(), SIGTERM) == 0);
    CHECK(pthread_mutex_lock(&lock) == 0 && is_ended);
    CHECK(pthread_join(thread, NULL) == 0);
    return 0;
}
