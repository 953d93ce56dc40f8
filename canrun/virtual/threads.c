/* Threads: how they begin and end, and how other threads wait for their end. */
#define _GNU_SOURCE
#include "locks.h"

#include <limits.h>
#include <stdlib.h>
#include <threads.h>

/* How long a CPython thread waits for the interpreter before it requests the interpreter from the thread that owns it:
 * 5 ms. If the owner computes for a long time, such a wait lets the coordinator give the turn to the waiting thread. */
#define SWITCH_INTERVAL 5000000

bool is_python(void) {
    static int is_known = -1;
    if (is_known < 0) {
        is_known = dlsym(RTLD_DEFAULT, "PyEval_RestoreThread") != NULL;
    }
    return is_known;
}

static enum kind kind_of_wait(uint64_t deadline) {
    return is_python() && deadline - run->now == SWITCH_INTERVAL ? KIND_INTERPRETER : KIND_LOCK;
}

int wait_for_key(uint64_t key, uint64_t deadline) {
    cancel_point();
    if (deadline <= run->now) {
        looked();
        yield_turn();
        return ETIMEDOUT;
    }
    uint32_t flags;
    do { /* No signal ends this wait. */
        flags = wait_turn_or_cancel(deadline, key, kind_of_wait(deadline));
    } while (!(flags & (IS_WOKEN | IS_OVER)) && run->now < deadline);
    return flags & IS_WOKEN ? 0 : ETIMEDOUT;
}

/* ---- the beginning and the end of a thread ---- */

struct beginning {
    void *(*routine)(void *);
    void *argument;
    uint32_t slot;
};

static pthread_key_t at_end;

/* Called at the end of a thread. It must run after the destructors of other keys, so it postpones its own call as often
 * as possible. */
static void thread_ends(void *count) {
    uintptr_t left = (uintptr_t)count;
    struct slot *slot = my.slot;
    if (left > 1) {
        pthread_setspecific(at_end, (void *)(left - 1));
        return;
    }
    if (!slot) {
        return;
    }
    my.is_deciding++;
    do {
        regain_turn();
    } while (!begin_deciding());
    leave_mutexes();
    wake(key_of((void *)(uintptr_t)pthread_self(), OF_END), INT_MAX);
    /* No thread waits for the end of a first thread, because the first thread exists as long as its process. */
    run->ending = slot->tid != slot->pid ? (uint64_t)slot->pid << 32 | slot->tid : 0;
    free_slot(slot);
    uint32_t next = next_turn(false);
    my.slot = NULL;
    hand_turn(next);
}

static void *begin(void *given) {
    struct beginning it = *(struct beginning *)given;
    free(given);
    pthread_setspecific(at_end, (void *)(uintptr_t)(PTHREAD_DESTRUCTOR_ITERATIONS - 1));
    run->slots[it.slot].thread = pthread_self();
    begin_slot(it.slot);
    return it.routine(it.argument);
}

EXPORT int pthread_create(pthread_t *restrict thread, const pthread_attr_t *restrict attributes,
                          void *(*routine)(void *), void *restrict argument) {
    REAL(pthread_create);
    struct beginning *it = run ? malloc(sizeof *it) : NULL;
    if (!it) {
        return real(thread, attributes, routine, argument);
    }
    regain_turn();
    *it = (struct beginning){routine, argument, take_slot()};
    uint32_t slot = it->slot;
    run->slots[slot].pid = my_slot()->pid;
    run->slots[slot].state = SLOT_BORN;
    int error = real(thread, attributes, begin, it);
    if (error) {
        free_slot(&run->slots[slot]);
        free(it);
    } else {
        run->slots[slot].thread = *thread; /* The new thread waits for its turn, and may not have stored its id. */
    }
    return error;
}

static bool is_alive(pthread_t thread) {
    for (uint32_t i = 0; i < slots_used(); i++) {
        struct slot *slot = &run->slots[i];
        if (slot->state != SLOT_FREE && slot->thread == thread && slot->pid == my_slot()->pid) {
            return true;
        }
    }
    return false;
}

/* Waits until a thread has ended. Returns 0 or ETIMEDOUT. The last part of the thread's end takes no virtual time. */
static int wait_for_end(pthread_t thread, uint64_t deadline) {
    regain_turn();
    while (is_alive(thread)) {
        if (wait_for_key(key_of((void *)(uintptr_t)thread, OF_END), deadline)) {
            return ETIMEDOUT;
        }
    }
    return 0;
}

EXPORT int pthread_join(pthread_t thread, void **result) {
    REAL(pthread_join);
    if (run && thread != pthread_self()) {
        wait_for_end(thread, NEVER);
    }
    return real(thread, result);
}

EXPORT int pthread_clockjoin_np(pthread_t thread, void **result, clockid_t id, const struct timespec *t) {
    REAL(pthread_clockjoin_np);
    if (!run) {
        return real(thread, result, id, t);
    }
    return wait_for_end(thread, moment_of(id, t)) ? ETIMEDOUT : pthread_join(thread, result);
}

EXPORT int pthread_timedjoin_np(pthread_t thread, void **result, const struct timespec *t) {
    return pthread_clockjoin_np(thread, result, CLOCK_REALTIME, t);
}

EXPORT int pthread_tryjoin_np(pthread_t thread, void **result) {
    REAL(pthread_tryjoin_np);
    if (!run) {
        return real(thread, result);
    }
    looked();
    regain_turn();
    return is_alive(thread) ? EBUSY : pthread_join(thread, result);
}

/* ---- C11 threads, which use POSIX threads ---- */

struct c_beginning {
    thrd_start_t routine;
    void *argument;
};

static void *begin_c(void *given) {
    struct c_beginning it = *(struct c_beginning *)given;
    free(given);
    return (void *)(intptr_t)it.routine(it.argument);
}

EXPORT int thrd_create(thrd_t *thread, thrd_start_t routine, void *argument) {
    struct c_beginning *it = malloc(sizeof *it);
    if (!it) {
        return thrd_nomem;
    }
    *it = (struct c_beginning){routine, argument};
    int error = pthread_create(thread, NULL, begin_c, it);
    if (error) {
        free(it);
    }
    return error == ENOMEM ? thrd_nomem : error ? thrd_error : thrd_success;
}

EXPORT int thrd_join(thrd_t thread, int *result) {
    void *returned;
    if (pthread_join(thread, &returned)) {
        return thrd_error;
    }
    if (result) {
        *result = (int)(intptr_t)returned;
    }
    return thrd_success;
}

void begin_first_thread(void) {
    my_slot()->thread = pthread_self();
    pthread_setspecific(at_end, (void *)(uintptr_t)(PTHREAD_DESTRUCTOR_ITERATIONS - 1));
}

__attribute__((constructor(101))) static void make_key(void) {
    pthread_key_create(&at_end, thread_ends);
}
