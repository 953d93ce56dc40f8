/* Mutexes, spin locks and read-write locks. */
#include "waits.h"

#include <pthread.h>
#include <sys/mman.h>
#include <threads.h>

static pthread_mutex_t mutex = PTHREAD_MUTEX_INITIALIZER;
static pthread_rwlock_t rwlock = PTHREAD_RWLOCK_INITIALIZER;

static void locks_mutex_timed(void) {
    begin();
    struct timespec t = after_ms(CLOCK_REALTIME, SOON);
    pthread_mutex_lock(&mutex);
    ends_with(pthread_mutex_timedlock(&mutex, &t));
}

static void locks_mutex_clock(void) {
    begin();
    struct timespec t = after_ms(CLOCK_MONOTONIC, SOON);
    pthread_mutex_lock(&mutex);
    ends_with(pthread_mutex_clocklock(&mutex, CLOCK_MONOTONIC, &t));
}

static void locks_mutex_wrong(void) {
    struct timespec t = {0, -1};
    pthread_mutex_lock(&mutex);
    begin();
    ends_with(pthread_mutex_timedlock(&mutex, &t));
}

static void *hold(void *of) {
    pthread_mutex_lock(of);
    usleep(SOON * 1000);
    pthread_mutex_unlock(of);
    return NULL;
}

static void hold_it(pthread_mutex_t *of) {
    pthread_t thread;
    pthread_create(&thread, NULL, hold, of);
    while (pthread_mutex_trylock(of) == 0) {
        pthread_mutex_unlock(of);
        sched_yield();
    }
}

static void locks_mutex(void) {
    begin();
    hold_it(&mutex);
    ends_with(pthread_mutex_lock(&mutex));
}

static void mutex_of(int kind, int protocol) {
    pthread_mutexattr_t attributes;
    pthread_mutexattr_init(&attributes);
    pthread_mutexattr_settype(&attributes, kind);
    pthread_mutexattr_setprotocol(&attributes, protocol);
    pthread_mutex_init(&mutex, &attributes);
}

static void locks_mutex_checked(void) {
    mutex_of(PTHREAD_MUTEX_ERRORCHECK, PTHREAD_PRIO_NONE);
    pthread_mutex_lock(&mutex);
    begin();
    ends_with(pthread_mutex_lock(&mutex));
}

static void locks_mutex_recursive(void) {
    mutex_of(PTHREAD_MUTEX_RECURSIVE, PTHREAD_PRIO_NONE);
    begin();
    hold_it(&mutex);
    pthread_mutex_lock(&mutex);
    ends_with(pthread_mutex_lock(&mutex));
}

static void locks_mutex_inherits(void) {
    mutex_of(PTHREAD_MUTEX_NORMAL, PTHREAD_PRIO_INHERIT);
    begin();
    hold_it(&mutex);
    ends_with(pthread_mutex_lock(&mutex));
}

static pthread_mutex_t *robust(void) {
    pthread_mutexattr_t attributes;
    pthread_mutex_t *made = mmap(NULL, 4096, PROT_READ | PROT_WRITE, MAP_SHARED | MAP_ANONYMOUS, -1, 0);
    pthread_mutexattr_init(&attributes);
    pthread_mutexattr_setrobust(&attributes, PTHREAD_MUTEX_ROBUST);
    pthread_mutexattr_setpshared(&attributes, PTHREAD_PROCESS_SHARED);
    pthread_mutex_init(made, &attributes);
    return made;
}

static void *die_with(void *of) {
    pthread_mutex_lock(of);
    usleep(SOON * 1000);
    return NULL;
}

static void locks_robust_thread(void) {
    pthread_mutex_t *dead = robust();
    pthread_t thread;
    begin();
    pthread_create(&thread, NULL, die_with, dead);
    usleep(SOON * 500);
    ends_with(pthread_mutex_lock(dead));
    note("%d", pthread_mutex_consistent(dead));
}

static void locks_robust_process(void) {
    pthread_mutex_t *dead = robust();
    begin();
    if (fork() == 0) {
        die_with(dead);
        _exit(0);
    }
    usleep(SOON * 500);
    ends_with(pthread_mutex_lock(dead));
}

static void locks_robust_killed(void) {
    pthread_mutex_t *dead = robust();
    begin();
    pid_t pid = fork();
    if (pid == 0) {
        pthread_mutex_lock(dead);
        pause();
    }
    usleep(SOON * 1000);
    kill(pid, SIGKILL);
    ends_with(pthread_mutex_lock(dead));
}

static void locks_mtx_timed(void) {
    begin();
    struct timespec t = after_ms(CLOCK_REALTIME, SOON);
    mtx_t lock;
    mtx_init(&lock, mtx_timed);
    mtx_lock(&lock);
    end(mtx_timedlock(&lock, &t) == thrd_timedout);
}

static void *read_lock(void *nothing) {
    pthread_rwlock_rdlock(&rwlock);
    usleep(SOON * 1000);
    pthread_rwlock_unlock(&rwlock);
    return nothing;
}

static void locks_rwlock(void) {
    pthread_t thread;
    begin();
    pthread_create(&thread, NULL, read_lock, NULL);
    usleep(SOON * 500);
    ends_with(pthread_rwlock_wrlock(&rwlock));
}

static void locks_rwlock_timed(void) {
    begin();
    struct timespec t = after_ms(CLOCK_REALTIME, SOON);
    pthread_rwlock_wrlock(&rwlock);
    pthread_rwlock_unlock(&rwlock);
    pthread_rwlock_rdlock(&rwlock);
    ends_with(pthread_rwlock_timedwrlock(&rwlock, &t));
}

static void *try_rwlock(void *nothing) {
    struct timespec t = after_ms(CLOCK_MONOTONIC, SOON);
    (void)nothing;
    int error = pthread_rwlock_clockrdlock(&rwlock, CLOCK_MONOTONIC, &t);
    return (void *)(intptr_t)error;
}

static void locks_rwlock_clock(void) {
    pthread_t thread;
    void *error;
    pthread_rwlock_wrlock(&rwlock);
    begin();
    pthread_create(&thread, NULL, try_rwlock, NULL);
    pthread_join(thread, &error);
    ends_with((int)(intptr_t)error);
}

static void locks_rwlock_clock_write(void) {
    begin();
    struct timespec t = after_ms(CLOCK_MONOTONIC, SOON);
    pthread_rwlock_rdlock(&rwlock);
    ends_with(pthread_rwlock_clockwrlock(&rwlock, CLOCK_MONOTONIC, &t));
}

static void locks_rwlock_wrong(void) {
    struct timespec t = {0, -1};
    pthread_rwlock_rdlock(&rwlock);
    begin();
    ends_with(pthread_rwlock_timedwrlock(&rwlock, &t));
}

static pthread_spinlock_t spin;

static void *hold_spin(void *nothing) {
    pthread_spin_lock(&spin);
    usleep(SOON * 1000);
    pthread_spin_unlock(&spin);
    return nothing;
}

/* The duration of this wait is not printed, because virtual time passes in steps while a thread is in a busy loop. */
static void locks_spin(void) {
    pthread_t thread;
    pthread_spin_init(&spin, 0);
    pthread_create(&thread, NULL, hold_spin, NULL);
    usleep(SOON * 500);
    int error = pthread_spin_lock(&spin);
    begin();
    ends_with(error);
}

const struct wait locks[] = {
    {"locks_mutex", SOON, locks_mutex},
    {"locks_mutex_timed", SOON, locks_mutex_timed},
    {"locks_mutex_clock", SOON, locks_mutex_clock},
    {"locks_mutex_wrong", 0, locks_mutex_wrong},
    {"locks_mutex_checked", 0, locks_mutex_checked},
    {"locks_mutex_recursive", SOON, locks_mutex_recursive},
    {"locks_mutex_inherits", SOON, locks_mutex_inherits},
    {"locks_robust_thread", SOON, locks_robust_thread},
    {"locks_robust_process", SOON, locks_robust_process},
    {"locks_robust_killed", SOON, locks_robust_killed},
    {"locks_mtx_timed", SOON, locks_mtx_timed},
    {"locks_rwlock", SOON, locks_rwlock},
    {"locks_rwlock_timed", SOON, locks_rwlock_timed},
    {"locks_rwlock_clock", SOON, locks_rwlock_clock},
    {"locks_rwlock_clock_write", SOON, locks_rwlock_clock_write},
    {"locks_rwlock_wrong", 0, locks_rwlock_wrong},
    {"locks_spin", 0, locks_spin},
    {NULL, 0, NULL},
};
