/* Waits for the end of threads, waits at barriers, and pthread_once. */
#include "waits.h"

#include <pthread.h>
#include <threads.h>

static pthread_barrier_t barrier;

static void *reach(void *ms) {
    usleep((useconds_t)(intptr_t)ms * 1000);
    return (void *)(intptr_t)(pthread_barrier_wait(&barrier) == PTHREAD_BARRIER_SERIAL_THREAD);
}

static void threads_barrier(void) {
    pthread_t thread;
    pthread_barrier_init(&barrier, NULL, 2);
    begin();
    pthread_create(&thread, NULL, reach, (void *)SOON);
    end(pthread_barrier_wait(&barrier));
}

static void *sleep_soon(void *of) {
    usleep(SOON * 1000);
    return of;
}

static pthread_t sleeper(void) {
    pthread_t thread;
    pthread_create(&thread, NULL, sleep_soon, (void *)8);
    return thread;
}

static void threads_join(void) {
    void *result;
    begin();
    pthread_join(sleeper(), &result);
    end((intptr_t)result);
}

static void *sleep_late(void *of) {
    usleep(LONG * 1000);
    return of;
}

static void threads_join_timed(void) {
    begin();
    struct timespec t = after_ms(CLOCK_REALTIME, SOON);
    pthread_t thread;
    pthread_create(&thread, NULL, sleep_late, NULL);
    ends_with(pthread_timedjoin_np(thread, NULL, &t));
}

static void threads_join_clock(void) {
    begin();
    struct timespec t = after_ms(CLOCK_MONOTONIC, LONG);
    pthread_t thread = sleeper();
    ends_with(pthread_clockjoin_np(thread, NULL, CLOCK_MONOTONIC, &t));
}

static void threads_tryjoin(void) {
    begin();
    pthread_t thread = sleeper();
    while (pthread_tryjoin_np(thread, NULL) == EBUSY) {
        usleep(SOON * 400);
    }
    end(0);
}

static int sleep_of_c(void *nothing) {
    (void)nothing;
    struct timespec t = in_ms(SOON);
    thrd_sleep(&t, NULL);
    return 12;
}

static void threads_thrd(void) {
    thrd_t thread;
    int result = 0;
    begin();
    thrd_create(&thread, sleep_of_c, NULL);
    thrd_join(thread, &result);
    end(result);
}

static pthread_once_t once = PTHREAD_ONCE_INIT;

static void sleep_once(void) {
    usleep(SOON * 1000);
}

static void *do_once(void *nothing) {
    pthread_once(&once, sleep_once);
    return nothing;
}

static void threads_once(void) {
    pthread_t thread;
    begin();
    pthread_create(&thread, NULL, do_once, NULL);
    usleep(SOON * 500);
    pthread_once(&once, sleep_once);
    end(0);
}

const struct wait threads[] = {
    {"threads_barrier", SOON, threads_barrier},
    {"threads_join", SOON, threads_join},
    {"threads_join_timed", SOON, threads_join_timed},
    {"threads_join_clock", SOON, threads_join_clock},
    {"threads_tryjoin", 36, threads_tryjoin},
    {"threads_thrd", SOON, threads_thrd},
    {"threads_once", SOON, threads_once},
    {NULL, 0, NULL},
};
