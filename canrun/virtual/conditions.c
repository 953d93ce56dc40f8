/* Condition variables and semaphores. */
#define _GNU_SOURCE
#include "locks.h"

#include <limits.h>
#include <semaphore.h>
#include <threads.h>

/* ---- condition variables, whose waiting threads are woken in the order of arrival ---- */

/* Some systems keep older versions of these functions under the same names. */
#define CONDITION(name)                                                    \
    static __typeof__(&name) real;                                         \
    if (!real) {                                                           \
        real = (__typeof__(&name))dlvsym(RTLD_NEXT, #name, "GLIBC_2.3.2"); \
        real = real ? real : (__typeof__(&name))dlsym(RTLD_NEXT, #name);   \
    }

static uint64_t key_of_condition(const pthread_cond_t *condition) {
    return condition->__data.__wrefs & 1 ? key_of_any(condition, OF_CONDITION) : key_of(condition, OF_CONDITION);
}

struct relock {
    pthread_mutex_t *mutex;
    int error;
};

static void lock_again(void *given) {
    struct relock *relock = given;
    relock->error = lock_until(relock->mutex, NEVER);
}

static int wait_for_condition(pthread_cond_t *condition, pthread_mutex_t *mutex, uint64_t deadline) {
    struct relock relock = {mutex, 0};
    int error;
    cancel_point();
    regain_turn();
    if (mutex->__data.__owner && mutex->__data.__owner != (int)RAW(SYS_gettid, 0) &&
        (mutex->__data.__kind & 3) == PTHREAD_MUTEX_ERRORCHECK) {
        return EPERM;
    }
    pthread_mutex_unlock(mutex);
    pthread_cleanup_push(lock_again, &relock);
    error = wait_for_key(key_of_condition(condition), deadline);
    pthread_cleanup_pop(1);
    return relock.error ? relock.error : error;
}

EXPORT int pthread_cond_wait(pthread_cond_t *restrict condition, pthread_mutex_t *restrict mutex) {
    CONDITION(pthread_cond_wait);
    return run ? wait_for_condition(condition, mutex, NEVER) : real(condition, mutex);
}

EXPORT int pthread_cond_timedwait(pthread_cond_t *restrict condition, pthread_mutex_t *restrict mutex,
                                  const struct timespec *restrict t) {
    CONDITION(pthread_cond_timedwait);
    if (!run) {
        return real(condition, mutex, t);
    }
    clockid_t id = condition->__data.__wrefs & 2 ? CLOCK_MONOTONIC : CLOCK_REALTIME;
    return is_proper_moment(t) ? wait_for_condition(condition, mutex, moment_of(id, t)) : EINVAL;
}

EXPORT int pthread_cond_clockwait(pthread_cond_t *restrict condition, pthread_mutex_t *restrict mutex, clockid_t id,
                                  const struct timespec *restrict t) {
    REAL(pthread_cond_clockwait);
    if (!run) {
        return real(condition, mutex, id, t);
    }
    return is_proper_moment(t) ? wait_for_condition(condition, mutex, moment_of(id, t)) : EINVAL;
}

EXPORT int pthread_cond_signal(pthread_cond_t *condition) {
    CONDITION(pthread_cond_signal);
    if (!run) {
        return real(condition);
    }
    wake(key_of_condition(condition), condition->__data.__wrefs & 1 ? INT_MAX : 1);
    return 0;
}

EXPORT int pthread_cond_broadcast(pthread_cond_t *condition) {
    CONDITION(pthread_cond_broadcast);
    if (!run) {
        return real(condition);
    }
    wake(key_of_condition(condition), INT_MAX);
    return 0;
}

EXPORT int pthread_cond_destroy(pthread_cond_t *condition) {
    CONDITION(pthread_cond_destroy);
    return run ? 0 : real(condition);
}

EXPORT int cnd_wait(cnd_t *condition, mtx_t *mutex) {
    return pthread_cond_wait((pthread_cond_t *)condition, (pthread_mutex_t *)mutex) ? thrd_error : thrd_success;
}

EXPORT int cnd_timedwait(cnd_t *restrict condition, mtx_t *restrict mutex, const struct timespec *restrict t) {
    int error = pthread_cond_timedwait((pthread_cond_t *)condition, (pthread_mutex_t *)mutex, t);
    return error == ETIMEDOUT ? thrd_timedout : error ? thrd_error : thrd_success;
}

EXPORT int cnd_signal(cnd_t *condition) {
    return pthread_cond_signal((pthread_cond_t *)condition) ? thrd_error : thrd_success;
}

EXPORT int cnd_broadcast(cnd_t *condition) {
    return pthread_cond_broadcast((pthread_cond_t *)condition) ? thrd_error : thrd_success;
}

/* ---- semaphores of one process or of several processes ---- */

/* CPython reads the clock for every lock that it takes, even if the lock is free. The number of reads depends on
 * CPython's version. */
EXPORT int sem_trywait(sem_t *semaphore) {
    REAL(sem_trywait);
    int result = real(semaphore);
    if (run && !result && is_python()) {
        forget_look();
    }
    return result;
}

/* The third word of a semaphore is nonzero if processes share it. */
static uint64_t key_of_semaphore(const sem_t *semaphore) {
    return ((const int *)semaphore)[2] ? key_of_any(semaphore, OF_SEMAPHORE) : key_of(semaphore, OF_SEMAPHORE);
}

static int semaphore_until(sem_t *semaphore, uint64_t deadline) {
    uint32_t flags = 0;
    cancel_point();
    regain_turn();
    for (;;) {
        if (!sem_trywait(semaphore)) {
            return 0;
        }
        /* A signal handler ends a call that has a timeout, even with SA_RESTART. */
        if (flags & IS_INTERRUPTED && (my.has_to_return || deadline != NEVER)) {
            return errno = EINTR, -1;
        }
        if (deadline <= run->now) {
            return errno = ETIMEDOUT, -1;
        }
        flags = wait_turn_or_cancel(deadline, key_of_semaphore(semaphore), KIND_LOCK);
    }
}

EXPORT int sem_wait(sem_t *semaphore) {
    REAL(sem_wait);
    return run ? semaphore_until(semaphore, NEVER) : real(semaphore);
}

EXPORT int sem_clockwait(sem_t *restrict semaphore, clockid_t id, const struct timespec *restrict t) {
    REAL(sem_clockwait);
    if (!run) {
        return real(semaphore, id, t);
    }
    if (!is_proper_moment(t)) {
        return sem_trywait(semaphore) ? (errno = EINVAL, -1) : 0;
    }
    if (moment_of(id, t) <= run->now) {
        looked();
    }
    return semaphore_until(semaphore, moment_of(id, t));
}

EXPORT int sem_timedwait(sem_t *restrict semaphore, const struct timespec *restrict t) {
    REAL(sem_timedwait);
    return run ? sem_clockwait(semaphore, CLOCK_REALTIME, t) : real(semaphore, t);
}

EXPORT int sem_post(sem_t *semaphore) {
    REAL(sem_post);
    int result = real(semaphore);
    if (run && !result) {
        wake(key_of_semaphore(semaphore), INT_MAX);
    }
    return result;
}
