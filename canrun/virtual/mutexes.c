/* Mutexes and spin locks. */
#define _GNU_SOURCE
#include "locks.h"

#include <limits.h>
#include <linux/futex.h>
#include <threads.h>

static bool is_shared_mutex(const pthread_mutex_t *mutex) {
    return mutex->__data.__kind & 128;
}

static uint64_t key_of_mutex(const pthread_mutex_t *mutex) {
    return is_shared_mutex(mutex) ? key_of_any(mutex, OF_MUTEX) : key_of(mutex, OF_MUTEX);
}

static _Atomic uint32_t mutex_waits;

/* Returns whether a mutex is robust. The owner of a robust mutex may die, and the kernel does not report that to the
 * run. */
static bool is_robust(const pthread_mutex_t *mutex) {
    return mutex->__data.__kind & 16;
}

int lock_until(pthread_mutex_t *mutex, uint64_t deadline) {
    for (enum tries tries = TRIES;; tries = TRIES_ON) {
        int error = pthread_mutex_trylock(mutex);
        if (error != EBUSY) {
            return error;
        }
        bool checks = (mutex->__data.__kind & 3) == PTHREAD_MUTEX_ERRORCHECK;
        if (checks && mutex->__data.__owner == (int)RAW(SYS_gettid, 0)) {
            return EDEADLK;
        }
        if (deadline <= run->now) {
            return ETIMEDOUT;
        }
        mutex_waits++;
        my.tries = is_robust(mutex) ? tries : TRIES_NOT;
        wait_turn(deadline, key_of_mutex(mutex), KIND_LOCK);
        mutex_waits--;
    }
}

EXPORT int pthread_mutex_lock(pthread_mutex_t *mutex) {
    REAL(pthread_mutex_lock);
    return run ? lock_until(mutex, NEVER) : real(mutex);
}

ALSO(__pthread_mutex_lock, pthread_mutex_lock)

EXPORT int pthread_mutex_clocklock(pthread_mutex_t *restrict mutex, clockid_t id, const struct timespec *restrict t) {
    REAL(pthread_mutex_clocklock);
    if (!run) {
        return real(mutex, id, t);
    }
    int error = lock_until(mutex, is_proper_moment(t) ? moment_of(id, t) : 0);
    return error == ETIMEDOUT && !is_proper_moment(t) ? EINVAL : error;
}

EXPORT int pthread_mutex_timedlock(pthread_mutex_t *restrict mutex, const struct timespec *restrict t) {
    REAL(pthread_mutex_timedlock);
    return run ? pthread_mutex_clocklock(mutex, CLOCK_REALTIME, t) : real(mutex, t);
}

EXPORT int pthread_mutex_unlock(pthread_mutex_t *mutex) {
    REAL(pthread_mutex_unlock);
    if (!run) {
        return real(mutex);
    }
    bool is_shared = is_shared_mutex(mutex);
    uint64_t key = is_shared || mutex_waits ? key_of_mutex(mutex) : 0;
    int error = real(mutex);
    if (key) {
        wake(key, is_shared ? INT_MAX : 1);
    }
    return error;
}

ALSO(__pthread_mutex_unlock, pthread_mutex_unlock)

/* Does what the kernel does at the end of a thread, but while the thread still has its turn. */
void leave_mutexes(void) {
    struct robust_list_head *head;
    size_t size;
    uint32_t tid = (uint32_t)RAW(SYS_gettid, 0);
    if (RAW(SYS_get_robust_list, 0, &head, &size)) {
        return;
    }
    struct robust_list *entry = head->list.next;
    while (entry != &head->list && !((uintptr_t)entry & 1)) {
        struct robust_list *next = entry->next;
        uint32_t *word = (uint32_t *)((char *)entry + head->futex_offset);
        if ((*word & FUTEX_TID_MASK) == tid) {
            *word = (*word & FUTEX_WAITERS) | FUTEX_OWNER_DIED;
        }
        entry = next;
    }
    head->list.next = entry;
}

EXPORT int mtx_lock(mtx_t *mutex) {
    return pthread_mutex_lock((pthread_mutex_t *)mutex) ? thrd_error : thrd_success;
}

EXPORT int mtx_timedlock(mtx_t *restrict mutex, const struct timespec *restrict t) {
    int error = pthread_mutex_timedlock((pthread_mutex_t *)mutex, t);
    return error == ETIMEDOUT ? thrd_timedout : error ? thrd_error : thrd_success;
}

EXPORT int mtx_unlock(mtx_t *mutex) {
    return pthread_mutex_unlock((pthread_mutex_t *)mutex) ? thrd_error : thrd_success;
}

EXPORT int pthread_spin_lock(pthread_spinlock_t *lock) {
    REAL(pthread_spin_lock);
    if (!run) {
        return real(lock);
    }
    while (pthread_spin_trylock(lock)) {
        looked();
        regain_turn();
        yield_turn();
    }
    return 0;
}
