/* Read-write locks and barriers. */
#define _GNU_SOURCE
#include "locks.h"

#include <limits.h>

static uint64_t key_of_lock(const pthread_rwlock_t *lock) {
    return lock->__data.__shared ? key_of_any(lock, OF_LOCK) : key_of(lock, OF_LOCK);
}

static int rwlock_until(pthread_rwlock_t *lock, int (*try)(pthread_rwlock_t *), uint64_t deadline) {
    for (;;) {
        int error = try(lock);
        if (error != EBUSY) {
            return error;
        }
        if (lock->__data.__cur_writer == (int)RAW(SYS_gettid, 0)) {
            return EDEADLK;
        }
        if (deadline <= run->now) {
            return ETIMEDOUT;
        }
        wait_turn(deadline, key_of_lock(lock), KIND_LOCK);
    }
}

EXPORT int pthread_rwlock_rdlock(pthread_rwlock_t *lock) {
    REAL(pthread_rwlock_rdlock);
    return run ? rwlock_until(lock, pthread_rwlock_tryrdlock, NEVER) : real(lock);
}

EXPORT int pthread_rwlock_wrlock(pthread_rwlock_t *lock) {
    REAL(pthread_rwlock_wrlock);
    return run ? rwlock_until(lock, pthread_rwlock_trywrlock, NEVER) : real(lock);
}

ALSO(__pthread_rwlock_rdlock, pthread_rwlock_rdlock)
ALSO(__pthread_rwlock_wrlock, pthread_rwlock_wrlock)

EXPORT int pthread_rwlock_clockrdlock(pthread_rwlock_t *restrict lock, clockid_t id,
                                      const struct timespec *restrict t) {
    REAL(pthread_rwlock_clockrdlock);
    return !run                  ? real(lock, id, t)
           : is_proper_moment(t) ? rwlock_until(lock, pthread_rwlock_tryrdlock, moment_of(id, t))
                                 : EINVAL;
}

EXPORT int pthread_rwlock_clockwrlock(pthread_rwlock_t *restrict lock, clockid_t id,
                                      const struct timespec *restrict t) {
    REAL(pthread_rwlock_clockwrlock);
    return !run                  ? real(lock, id, t)
           : is_proper_moment(t) ? rwlock_until(lock, pthread_rwlock_trywrlock, moment_of(id, t))
                                 : EINVAL;
}

EXPORT int pthread_rwlock_timedrdlock(pthread_rwlock_t *restrict lock, const struct timespec *restrict t) {
    return pthread_rwlock_clockrdlock(lock, CLOCK_REALTIME, t);
}

EXPORT int pthread_rwlock_timedwrlock(pthread_rwlock_t *restrict lock, const struct timespec *restrict t) {
    return pthread_rwlock_clockwrlock(lock, CLOCK_REALTIME, t);
}

EXPORT int pthread_rwlock_unlock(pthread_rwlock_t *lock) {
    REAL(pthread_rwlock_unlock);
    int error = real(lock);
    if (run && !error) {
        wake(key_of_lock(lock), INT_MAX);
    }
    return error;
}
ALSO(__pthread_rwlock_unlock, pthread_rwlock_unlock)

/* ---- barriers ---- */

/* The layout of the C library's barrier. A barrier without waiting threads is in its initial state, so it may be
 * destroyed. */
struct barrier {
    uint32_t in, round, count;
    int is_shared;
};

static uint64_t key_of_barrier(const struct barrier *barrier) {
    return barrier->is_shared ? key_of_any(barrier, OF_BARRIER) : key_of(barrier, OF_BARRIER);
}

/* Waits at a barrier. A woken thread does not read the barrier again, because another thread may have destroyed it. */
static int wait_at_barrier(struct barrier *barrier) {
    uint64_t key = key_of_barrier(barrier);
    regain_turn();
    if (++barrier->in == barrier->count) {
        barrier->in = 0;
        wake(key, INT_MAX);
        return PTHREAD_BARRIER_SERIAL_THREAD;
    }
    while (!(wait_turn(NEVER, key, KIND_LOCK) & IS_WOKEN)) {
    }
    return 0;
}

EXPORT int pthread_barrier_wait(pthread_barrier_t *barrier) {
    REAL(pthread_barrier_wait);
    return run ? wait_at_barrier((struct barrier *)barrier) : real(barrier);
}
