/* Four threads write to one socket and four threads read from another. Each frame arrives once. Built with -pthread. */
#include "check.h"
#include <pthread.h>

#define THREADS 4
#define EACH 1000
static int writer, reader;
static unsigned char seen[THREADS * EACH];

static void *write_all(void *number) {
    for (unsigned i = 0; i < EACH; i++) {
        send_patiently(writer, 0x123, (unsigned)(uintptr_t)number * EACH + i);
    }
    return NULL;
}

static void *read_all(void *unused) {
    (void)unused;
    for (;;) {
        struct can_frame frame;
        CHECK(comes(reader, PATIENCE) && recv(reader, &frame, sizeof frame, 0) == sizeof frame);
        if (frame.can_id == 0x7FF) {
            return NULL;
        }
        CHECK(number_of(&frame) < THREADS * EACH);
        CHECK(__atomic_fetch_add(&seen[number_of(&frame)], 1, __ATOMIC_RELAXED) == 0);
    }
}

int main(void) {
    pthread_t writers[THREADS], readers[THREADS];
    writer = bound("can0");
    reader = bound("can1");
    for (uintptr_t i = 0; i < THREADS; i++) {
        CHECK(pthread_create(&readers[i], NULL, read_all, NULL) == 0);
        CHECK(pthread_create(&writers[i], NULL, write_all, (void *)i) == 0);
    }
    for (int i = 0; i < THREADS; i++) {
        CHECK(pthread_join(writers[i], NULL) == 0);
    }
    for (int i = 0; i < THREADS; i++) {
        send_patiently(writer, 0x7FF, 0);
    }
    for (int i = 0; i < THREADS; i++) {
        CHECK(pthread_join(readers[i], NULL) == 0);
    }
    for (int i = 0; i < THREADS * EACH; i++) {
        CHECK(seen[i] == 1);
    }
    return 0;
}
