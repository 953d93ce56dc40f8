/* Frames from many sockets, processes and threads at once. Every socket has enough writes to be given quick writes.
 * Duplicated and reused descriptor numbers change nothing. Built with -pthread. */
#include "check.h"
#include <pthread.h>

#define SOCKETS 24
#define THREADS 20
#define EACH 30
static int writers[SOCKETS], reader;
static unsigned seen[SOCKETS];

/* Each socket has its own identifier, and numbers its frames. */
static void write_all(const int *fds, unsigned from) {
    for (unsigned i = from; i < from + EACH; i++) {
        for (unsigned s = 0; s < SOCKETS; s++) {
            send_patiently(fds[s], 0x100 + s, i);
        }
    }
}

static void read_all(void) {
    for (unsigned i = 0; i < SOCKETS * EACH; i++) {
        struct can_frame frame;
        CHECK(comes(reader, PATIENCE) && read(reader, &frame, sizeof frame) == sizeof frame);
        CHECK(number_of(&frame) == seen[frame.can_id - 0x100]++);
    }
}

static void *write_some(void *number) {
    for (unsigned i = 0; i < EACH; i++) {
        send_patiently(writers[0], 0x200 + (unsigned)(uintptr_t)number, i);
    }
    return NULL;
}

/* Writes from more threads than a socket has slots for replies. */
static void write_by_threads(void) {
    unsigned numbers[THREADS] = {0};
    pthread_t threads[THREADS];
    for (uintptr_t i = 0; i < THREADS; i++) {
        CHECK(pthread_create(&threads[i], NULL, write_some, (void *)i) == 0);
    }
    for (unsigned i = 0; i < THREADS * EACH; i++) {
        struct can_frame frame;
        CHECK(comes(reader, PATIENCE) && read(reader, &frame, sizeof frame) == sizeof frame);
        CHECK(number_of(&frame) == numbers[frame.can_id - 0x200]++);
    }
    for (int i = 0; i < THREADS; i++) {
        CHECK(pthread_join(threads[i], NULL) == 0);
    }
}

int main(void) {
    struct can_frame frame = frame_of(0x7FF, 0);
    void *volatile nowhere = (void *)8;
    int copies[SOCKETS], status;
    reader = bound("can1");
    for (int s = 0; s < SOCKETS; s++) {
        writers[s] = bound("can0");
    }
    write_all(writers, 0);
    read_all();
    pid_t child = fork();
    if (child == 0) {
        write_all(writers, EACH);
        _exit(0);
    }
    read_all();
    CHECK(waitpid(child, &status, 0) == child && status == 0);
    /* After this, each descriptor number belongs to the next socket. */
    for (int s = 0; s < SOCKETS; s++) {
        copies[s] = dup(writers[s]);
    }
    for (int s = 0; s < SOCKETS; s++) {
        CHECK(dup2(copies[(s + 1) % SOCKETS], writers[s]) == writers[s]);
    }
    write_all(writers, 2 * EACH);
    read_all();
    write_by_threads();
    /* Refused writes have the right errno, too. */
    FAILS(write(copies[0], &frame, 15), EINVAL);
    FAILS(write(copies[0], nowhere, sizeof frame), EFAULT);
    frame.can_dlc = 9;
    FAILS(write(copies[0], &frame, sizeof frame), EINVAL);
    frame = frame_of(0x7FF | CAN_ERR_FLAG, 0);
    CHECK(write(copies[0], &frame, sizeof frame) == sizeof frame);
    return 0;
}
