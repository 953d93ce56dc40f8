/* Condition variables and semaphores. */
#include "waits.h"

#include <fcntl.h>
#include <pthread.h>
#include <semaphore.h>
#include <sys/mman.h>
#include <sys/wait.h>
#include <threads.h>

static pthread_mutex_t mutex = PTHREAD_MUTEX_INITIALIZER;
static pthread_cond_t condition = PTHREAD_COND_INITIALIZER;
static sem_t semaphore;

static void wait_on_condition(clockid_t id, int ms) {
    begin();
    struct timespec t = after_ms(id, ms);
    pthread_mutex_lock(&mutex);
    ends_with(pthread_cond_clockwait(&condition, &mutex, id, &t));
    note("%d", pthread_mutex_trylock(&mutex) == EBUSY);
}

static void conditions_cond_clock(void) {
    wait_on_condition(CLOCK_MONOTONIC, SOON);
}

static void conditions_cond_timed(void) {
    begin();
    struct timespec t = after_ms(CLOCK_REALTIME, SOON);
    pthread_mutex_lock(&mutex);
    ends_with(pthread_cond_timedwait(&condition, &mutex, &t));
}

static void conditions_cond_monotonic(void) {
    begin();
    struct timespec t = after_ms(CLOCK_MONOTONIC, SOON);
    pthread_condattr_t attributes;
    pthread_condattr_init(&attributes);
    pthread_condattr_setclock(&attributes, CLOCK_MONOTONIC);
    pthread_cond_init(&condition, &attributes);
    pthread_mutex_lock(&mutex);
    ends_with(pthread_cond_timedwait(&condition, &mutex, &t));
}

static void signal_it(void *nothing) {
    (void)nothing;
    pthread_mutex_lock(&mutex);
    pthread_cond_signal(&condition);
    pthread_mutex_unlock(&mutex);
}

static void conditions_cond_signal(void) {
    later(SOON, signal_it, NULL);
    wait_on_condition(CLOCK_MONOTONIC, LONG);
}

static void conditions_cond_wrong(void) {
    struct timespec t = {0, 1000000000};
    pthread_mutex_lock(&mutex);
    begin();
    ends_with(pthread_cond_timedwait(&condition, &mutex, &t));
}

static void *count_woken(void *of) {
    pthread_mutex_lock(&mutex);
    pthread_cond_wait(&condition, &mutex);
    ++*(int *)of;
    pthread_mutex_unlock(&mutex);
    return NULL;
}

static void conditions_cond_broadcast(void) {
    pthread_t threads[3];
    int woken = 0;
    for (int i = 0; i < 3; i++) {
        pthread_create(&threads[i], NULL, count_woken, &woken);
    }
    begin();
    usleep(SOON * 1000);
    pthread_cond_broadcast(&condition);
    for (int i = 0; i < 3; i++) {
        pthread_join(threads[i], NULL);
    }
    end(woken);
}

static void conditions_cnd_timed(void) {
    begin();
    struct timespec t = after_ms(CLOCK_REALTIME, SOON);
    mtx_t lock;
    cnd_t woken;
    mtx_init(&lock, mtx_timed);
    cnd_init(&woken);
    mtx_lock(&lock);
    end(cnd_timedwait(&woken, &lock, &t) == thrd_timedout);
}

static void conditions_sem_timed(void) {
    begin();
    struct timespec t = after_ms(CLOCK_REALTIME, SOON);
    sem_init(&semaphore, 0, 0);
    end(sem_timedwait(&semaphore, &t));
}

static void conditions_sem_clock(void) {
    begin();
    struct timespec t = after_ms(CLOCK_MONOTONIC, SOON);
    sem_init(&semaphore, 0, 0);
    end(sem_clockwait(&semaphore, CLOCK_MONOTONIC, &t));
}

static void post(void *of) {
    sem_post(of);
}

static void conditions_sem_post(void) {
    sem_init(&semaphore, 0, 0);
    begin();
    later(SOON, post, &semaphore);
    end(sem_wait(&semaphore));
}

static void conditions_sem_wrong(void) {
    struct timespec t = {0, -1};
    sem_init(&semaphore, 0, 0);
    begin();
    end(sem_timedwait(&semaphore, &t));
}

static void conditions_sem_open(void) {
    char name[32];
    snprintf(name, sizeof name, "/waits.%d", getpid());
    sem_t *named = sem_open(name, O_CREAT, 0600, 0), *again = sem_open(name, 0);
    sem_unlink(name);
    begin();
    if (fork() == 0) {
        usleep(SOON * 1000);
        sem_post(again);
        _exit(0);
    }
    end(sem_wait(named));
}

/* Two semaphores at the same offset in two pages: only the thread that waits for the posted semaphore continues. */
static void conditions_sem_pages(void) {
    char *pages = mmap(NULL, 8192, PROT_READ | PROT_WRITE, MAP_SHARED | MAP_ANONYMOUS, -1, 0);
    sem_t *first = (sem_t *)pages, *second = (sem_t *)(pages + 4096);
    sem_init(first, 1, 0);
    sem_init(second, 1, 0);
    begin();
    if (fork() == 0) {
        sem_wait(second);
        _exit(0);
    }
    if (fork() == 0) {
        usleep(SOON * 1000);
        sem_post(first);
        sem_post(second);
        _exit(0);
    }
    sem_wait(first);
    wait(NULL);
    end(0);
}

const struct wait conditions[] = {
    {"conditions_cond_timed", SOON, conditions_cond_timed},
    {"conditions_cond_clock", SOON, conditions_cond_clock},
    {"conditions_cond_monotonic", SOON, conditions_cond_monotonic},
    {"conditions_cond_signal", SOON, conditions_cond_signal},
    {"conditions_cond_wrong", 0, conditions_cond_wrong},
    {"conditions_cond_broadcast", SOON, conditions_cond_broadcast},
    {"conditions_cnd_timed", SOON, conditions_cnd_timed},
    {"conditions_sem_timed", SOON, conditions_sem_timed},
    {"conditions_sem_clock", SOON, conditions_sem_clock},
    {"conditions_sem_post", SOON, conditions_sem_post},
    {"conditions_sem_wrong", 0, conditions_sem_wrong},
    {"conditions_sem_open", SOON, conditions_sem_open},
    {"conditions_sem_pages", SOON, conditions_sem_pages},
    {NULL, 0, NULL},
};
