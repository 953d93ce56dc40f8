/* With --wait, SIGINT, SIGTERM and SIGHUP end every write that waits for room, whatever flags their handlers have.
 * After a handler with SA_RESTART the kernel would restart the system call, and the wait would continue. Therefore,
 * while a write waits, a handler of this library is called first. It makes the bridge end all waits of this process,
 * and then calls the program's handler. If the program then writes again, its writes do not wait until one of them has
 * found room. */
#define _GNU_SOURCE
#include "library.h"

#include <errno.h>
#include <pthread.h>
#include <sched.h>
#include <signal.h>
#include <stdlib.h>

/* The maximum number of waits in a process that signals can end. No bridge keeps more waiting frames than this. */
#define WAITS 64
enum state { UNUSED, BEGUN, ASKED, ENDING, ENDED };

static struct wait {
    uint32_t state;
    int fd, reply_from;
} waits[WAITS];

static const int numbers[] = {SIGINT, SIGTERM, SIGHUP};
#define NUMBERS (sizeof numbers / sizeof *numbers)
static struct sigaction programs[NUMBERS];
static uint32_t is_locked, users;
static bool has_waits, is_stopped;

static bool change(struct wait *wait, uint32_t from, uint32_t to) {
    return __atomic_compare_exchange_n(&wait->state, &from, to, false, __ATOMIC_ACQ_REL, __ATOMIC_ACQUIRE);
}

static void end_waits(void) {
    const struct wire_request request = {.kind = WIRE_CANCEL};
    for (struct wait *wait = waits; wait < waits + WAITS; wait++) {
        if (!change(wait, BEGUN, ENDED) && change(wait, ASKED, ENDING)) {
            while (put_request(wait->fd, wait->reply_from, &request, NULL, 0) == EINTR) {
            }
            __atomic_store_n(&wait->state, ENDED, __ATOMIC_RELEASE);
        }
    }
}

static void on_signal(int number, siginfo_t *info, void *context) {
    int before = errno;
    const struct sigaction *program = programs;
    while (numbers[program - programs] != number) {
        program++;
    }
    end_waits();
    errno = before;
    if (program->sa_flags & SA_SIGINFO) {
        program->sa_sigaction(number, info, context);
    } else {
        program->sa_handler(number);
    }
}

static bool is_ours(const struct sigaction *action) {
    return action->sa_flags & SA_SIGINFO && action->sa_sigaction == on_signal;
}

/* Replaces the program's handler with the library's, if the program has one. */
static void replace(size_t at) {
    struct sigaction action;
    bool has_handler = !sigaction(numbers[at], NULL, &action) &&
                       (action.sa_flags & SA_SIGINFO || (action.sa_handler != SIG_DFL && action.sa_handler != SIG_IGN));
    if (has_handler && !is_ours(&action)) {
        programs[at] = action;
        action.sa_flags |= SA_SIGINFO;
        action.sa_sigaction = on_signal;
        sigaction(numbers[at], &action, NULL);
    }
}

/* Restores the program's handler, unless the program has installed another one in the meantime. */
static void put_back(size_t at) {
    struct sigaction action;
    if (!sigaction(numbers[at], NULL, &action) && is_ours(&action)) {
        sigaction(numbers[at], &programs[at], NULL);
    }
}

/* Counts the waits: the first one installs the library's handlers, and the last one restores the program's. Signals are
 * blocked in the meantime, because a handler in this thread may itself write. */
static void count_users(uint32_t change) {
    sigset_t all, before;
    sigfillset(&all);
    pthread_sigmask(SIG_BLOCK, &all, &before);
    while (__atomic_exchange_n(&is_locked, 1, __ATOMIC_ACQUIRE)) {
        sched_yield();
    }
    bool is_first = !users;
    users += change;
    for (size_t at = 0; at < NUMBERS; at++) {
        if (is_first) {
            replace(at);
        } else if (!users) {
            put_back(at);
        }
    }
    __atomic_store_n(&is_locked, 0, __ATOMIC_RELEASE);
    pthread_sigmask(SIG_SETMASK, &before, NULL);
}

/* Resets the state after fork, because the child has no other threads and so no waits. */
static void forget_waits(void) {
    for (size_t at = 0; users && at < NUMBERS; at++) {
        put_back(at);
    }
    is_locked = users = 0;
    for (size_t i = 0; i < WAITS; i++) {
        waits[i] = (struct wait){0};
    }
}

__attribute__((constructor)) static void start(void) {
    has_waits = getenv("CANBUSD_RUN_WAIT") && !pthread_atfork(NULL, NULL, forget_waits);
}

struct wait *wait_begin(int fd, int reply_from) {
    for (struct wait *wait = waits; has_waits && wait < waits + WAITS; wait++) {
        if (change(wait, UNUSED, BEGUN)) {
            wait->fd = fd;
            wait->reply_from = reply_from;
            count_users(1);
            return wait;
        }
    }
    return NULL;
}

bool wait_is_over(struct wait *wait) {
    return wait && !change(wait, BEGUN, ASKED);
}

bool wait_end(struct wait *wait) {
    if (!wait) {
        return false;
    }
    while (__atomic_load_n(&wait->state, __ATOMIC_ACQUIRE) == ENDING) {
        sched_yield();
    }
    bool is_ended = __atomic_exchange_n(&wait->state, UNUSED, __ATOMIC_ACQ_REL) == ENDED;
    if (is_ended) {
        __atomic_store_n(&is_stopped, true, __ATOMIC_RELAXED);
    }
    count_users(-1u);
    return is_ended;
}

bool waits_are_over(void) {
    return __atomic_load_n(&is_stopped, __ATOMIC_RELAXED);
}

void waits_begin(void) {
    if (waits_are_over()) {
        __atomic_store_n(&is_stopped, false, __ATOMIC_RELAXED);
    }
}
