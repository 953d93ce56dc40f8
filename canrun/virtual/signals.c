/* Signals. A handler runs when its thread has the turn. A waiting thread gets the turn for the handler, and the
 * thread's wait ends with EINTR. So this library wraps handlers, and the sender of a signal waits until the receiver
 * has taken the signal. */
#define _GNU_SOURCE
#include "calls.h"

#include <pthread.h>
#include <string.h>

#define SIGNALS 65
#define DEFERRED 32

typedef void handler(int, siginfo_t *, void *);

static struct sigaction programs[SIGNALS];
static __thread struct {
    int count;
    int numbers[DEFERRED];
    siginfo_t infos[DEFERRED];
} deferred;

/* A copy of the wait that a slot describes, because a handler that waits overwrites this description. */
struct kept {
    uint32_t state, flags, kind, tries, bits;
    uint64_t deadline, key, since;
    enum tries mine;
};

static struct kept keep(const struct slot *slot) {
    return (struct kept){slot->state,    slot->flags, slot->kind,  slot->tries, slot->bits,
                         slot->deadline, slot->key,   slot->since, my.tries};
}

static void put_back(struct slot *slot, const struct kept *kept) {
    slot->deadline = kept->deadline;
    slot->key = kept->key;
    slot->kind = kept->kind;
    slot->since = kept->since;
    slot->tries = kept->tries;
    slot->bits = kept->bits;
    my.tries = kept->mine;
    slot->flags = kept->flags | IS_INTERRUPTED;
    slot->state = kept->state;
}

static void run_handler(int number, siginfo_t *info, void *context) {
    struct sigaction *action = &programs[number];
    struct slot *slot = my_slot();
    if (!has_turn()) {
        slot->flags |= IS_INTERRUPTED;
        if (slot->state == SLOT_OUTSIDE) {
            slot->state = SLOT_READY;
        }
        ring();
        await_turn();
    }
    struct kept kept = keep(slot);
    kept.state = kept.state == SLOT_WAITS ? SLOT_WAITS : SLOT_RUNS;
    slot->state = SLOT_RUNS;
    slot->deadline = NEVER;
    slot->key = 0;
    slot->tries = my.tries = 0;
    my.handled++;
    bool returns = my.has_to_return || !(action->sa_flags & SA_RESTART);
    ((handler *)(void *)action->sa_sigaction)(number, info, context);
    my.has_to_return = returns;
    put_back(slot, &kept);
}

static void on_signal(int number, siginfo_t *info, void *context) {
    int before = errno;
    if (my.is_deciding && deferred.count < DEFERRED) {
        deferred.numbers[deferred.count] = number;
        deferred.infos[deferred.count++] = *info;
    } else {
        run_handler(number, info, context);
    }
    errno = before;
}

static void run_deferred(void) {
    while (deferred.count) {
        siginfo_t info = deferred.infos[0];
        int number = deferred.numbers[0];
        deferred.count--;
        memmove(deferred.numbers, deferred.numbers + 1, sizeof(int) * (size_t)deferred.count);
        memmove(deferred.infos, deferred.infos + 1, sizeof info * (size_t)deferred.count);
        run_handler(number, &info, NULL);
    }
}

void start_signals(void) {
    handle_deferred = run_deferred;
}

static bool is_handler(const struct sigaction *action) {
    return action->sa_handler != SIG_DFL && action->sa_handler != SIG_IGN;
}

/* Returns whether a signal is a fault, which is handled at once, whichever thread has the turn. */
static bool is_fault(int number) {
    return number == SIGSEGV || number == SIGBUS || number == SIGILL || number == SIGFPE || number == SIGTRAP ||
           number == SIGABRT;
}

EXPORT int sigaction(int number, const struct sigaction *restrict action, struct sigaction *restrict old) {
    REAL(sigaction);
    if (!run || number <= 0 || number >= SIGNALS || is_fault(number)) {
        return real(number, action, old);
    }
    struct sigaction wrapped, kernels, before = programs[number];
    if (action) {
        wrapped = *action;
        if (is_handler(action)) {
            wrapped.sa_sigaction = on_signal;
            wrapped.sa_flags |= SA_SIGINFO;
            programs[number] = *action;
        }
    }
    int result = real(number, action ? &wrapped : NULL, &kernels);
    if (result) {
        programs[number] = before;
    } else if (old) {
        *old = kernels.sa_sigaction == on_signal ? before : kernels;
    }
    return result;
}

static __sighandler_t set_handler(int number, __sighandler_t to, int flags) {
    struct sigaction action = {.sa_handler = to, .sa_flags = flags}, old;
    sigemptyset(&action.sa_mask);
    return sigaction(number, &action, &old) ? SIG_ERR : old.sa_handler;
}

ALSO(__sigaction, sigaction)

EXPORT __sighandler_t signal(int number, __sighandler_t to) {
    return set_handler(number, to, SA_RESTART);
}

ALSO(bsd_signal, signal)
ALSO(ssignal, signal)

EXPORT __sighandler_t sysv_signal(int number, __sighandler_t to) {
    return set_handler(number, to, SA_RESETHAND | SA_NODEFER);
}

ALSO(__sysv_signal, sysv_signal)

/* Replaces the C library's function, which bypasses this library's wrapping of handlers. SIG_HOLD blocks the signal,
 * and all other values unblock it. */
EXPORT __sighandler_t sigset(int number, __sighandler_t to) {
    struct sigaction old;
    sigset_t one, before;
    sigemptyset(&one);
    if (sigaddset(&one, number) || sigprocmask(to == SIG_HOLD ? SIG_BLOCK : SIG_UNBLOCK, &one, &before)) {
        return SIG_ERR;
    }
    if (to == SIG_HOLD ? sigaction(number, NULL, &old)
                       : sigaction(number, &(struct sigaction){.sa_handler = to}, &old)) {
        return SIG_ERR;
    }
    return sigismember(&before, number) ? SIG_HOLD : old.sa_handler;
}

EXPORT int siginterrupt(int number, int is_interrupting) {
    struct sigaction action;
    if (sigaction(number, NULL, &action)) {
        return -1;
    }
    action.sa_flags = is_interrupting ? action.sa_flags & ~SA_RESTART : action.sa_flags | SA_RESTART;
    return sigaction(number, &action, NULL);
}

/* ---- signal masks during a wait ---- */

struct masked set_mask(const sigset_t *mask) {
    struct masked masked = {.handled = my.handled, .is_set = mask != NULL};
    if (mask) {
        RAW(SYS_rt_sigprocmask, SIG_SETMASK, mask, &masked.before, 8);
    }
    return masked;
}

void put_mask_back(const struct masked *masked) {
    if (masked->is_set) {
        RAW(SYS_rt_sigprocmask, SIG_SETMASK, &masked->before, NULL, 8);
    }
}

/* Waits until another handler has run. */
static int wait_for_handler(uint32_t handled) {
    regain_turn();
    while (my.handled == handled) {
        wait_turn_or_cancel(NEVER, key_of_signals(my_slot()->pid), KIND_SIGNAL);
    }
    return errno = EINTR, -1;
}

EXPORT int pause(void) {
    return run ? wait_for_handler(my.handled) : (int)answer(RAW(SYS_pause, 0));
}

EXPORT int sigsuspend(const sigset_t *mask) {
    if (!run) {
        return (int)answer(RAW(SYS_rt_sigsuspend, mask, 8));
    }
    struct masked masked = set_mask(mask);
    int result = wait_for_handler(masked.handled);
    put_mask_back(&masked);
    return result;
}
ALSO(__sigsuspend, sigsuspend)

EXPORT int __sigpause(int mask_or_number, int is_number);
int __sigpause(int mask_or_number, int is_number) {
    sigset_t mask = {{(unsigned long)(unsigned)mask_or_number}};
    if (is_number) {
        sigprocmask(SIG_BLOCK, NULL, &mask);
        if (sigdelset(&mask, mask_or_number)) {
            return -1;
        }
    }
    return sigsuspend(&mask);
}

/* The header declares __xpg_sigpause under the name sigpause. */
EXPORT int sigpause_of_mask(int mask) __asm__("sigpause");
int sigpause_of_mask(int mask) {
    return __sigpause(mask, 0);
}

EXPORT int __xpg_sigpause(int number);
int __xpg_sigpause(int number) {
    return __sigpause(number, 1);
}

static int wait_for_signal(const sigset_t *set, siginfo_t *info, uint64_t deadline) {
    uint32_t flags = 0;
    cancel_point();
    regain_turn();
    for (enum tries tries = TRIES;; tries = TRIES_ON) {
        long result = RAW(SYS_rt_sigtimedwait, set, info, &no_time, 8);
        if (result != -EAGAIN) {
            return (int)answer(result);
        }
        if (flags & IS_INTERRUPTED || deadline <= run->now) {
            return errno = flags & IS_INTERRUPTED ? EINTR : EAGAIN, -1;
        }
        my.tries = tries; /* No thread reports signals that the kernel itself sends. */
        flags = wait_turn(deadline, key_of_signals(my_slot()->pid), KIND_SIGNAL);
        cancel_point();
    }
}

EXPORT int sigtimedwait(const sigset_t *restrict set, siginfo_t *restrict info, const struct timespec *restrict t) {
    if (!run) {
        return (int)answer(RAW(SYS_rt_sigtimedwait, set, info, t, 8));
    }
    return t && !is_proper(t) ? (errno = EINVAL, -1) : wait_for_signal(set, info, t ? after(length_of(t)) : NEVER);
}

EXPORT int sigwaitinfo(const sigset_t *restrict set, siginfo_t *restrict info) {
    return sigtimedwait(set, info, NULL);
}

EXPORT int sigwait(const sigset_t *restrict set, int *restrict number) {
    int result;
    do {
        result = sigtimedwait(set, NULL, NULL);
    } while (result < 0 && errno == EINTR);
    if (result < 0) {
        return errno;
    }
    *number = result;
    return 0;
}

/* ---- sending: the sender waits until the receiver has taken the signal ---- */

static void sent_to(uint32_t pid) {
    settle(pid);
    wake(key_of_signals(pid), SLOTS);
    wake_descriptors(pid);
}

void signal_sent(pid_t pid, int number) {
    uint32_t told[64], count = 0;
    for (uint32_t i = 0; i < slots_used() && count < 64; i++) {
        uint32_t of = run->slots[i].pid;
        bool is_new = of != 0 && of != (uint32_t)RAW(SYS_getpid, 0) && (pid <= 0 || of == (uint32_t)pid);
        for (uint32_t k = 0; k < count; k++) {
            is_new &= told[k] != of;
        }
        if (is_new) {
            told[count++] = of;
        }
    }
    for (uint32_t k = 0; k < count; k++) {
        sent_to(told[k]);
    }
    if (number == SIGSTOP || number == SIGTSTP || number == SIGCONT) {
        for (uint32_t i = 0; i < slots_used(); i++) {
            struct slot *slot = &run->slots[i];
            slot->flags |= slot->state == SLOT_WAITS && slot->kind == KIND_CHILD ? IS_WOKEN : 0;
        }
    }
    if (pid == (pid_t)RAW(SYS_getpid, 0)) {
        wake(key_of_signals((uint32_t)pid), SLOTS);
        wake_descriptors((uint32_t)pid);
    }
}

EXPORT int kill(pid_t pid, int number) {
    long result = RAW(SYS_kill, pid, number);
    if (run && !result && number) {
        signal_sent(pid, number);
    }
    return (int)answer(result);
}

EXPORT int killpg(pid_t group, int number) {
    return group < 0 ? (errno = EINVAL, -1) : kill(-group, number);
}

EXPORT int sigqueue(pid_t pid, int number, const union sigval value) {
    REAL(sigqueue);
    int result = real(pid, number, value);
    if (run && !result && number) {
        signal_sent(pid, number);
    }
    return result;
}

EXPORT int tgkill(pid_t pid, pid_t tid, int number) {
    long result = RAW(SYS_tgkill, pid, tid, number);
    if (run && !result && number && tid != (pid_t)RAW(SYS_gettid, 0)) {
        sent_to((uint32_t)pid);
    }
    return (int)answer(result);
}

EXPORT int pidfd_send_signal(int fd, int number, siginfo_t *info, unsigned flags);
int pidfd_send_signal(int fd, int number, siginfo_t *info, unsigned flags) {
    long result = RAW(SYS_pidfd_send_signal, fd, number, info, flags);
    if (run && !result && number) {
        signal_sent(-1, number); /* The receiver is unknown, so all processes are checked. */
    }
    return (int)answer(result);
}

EXPORT int pthread_sigqueue(pthread_t thread, int number, const union sigval value) {
    REAL(pthread_sigqueue);
    int error = real(thread, number, value);
    if (run && !error && number && thread != pthread_self()) {
        sent_to((uint32_t)RAW(SYS_getpid, 0));
    }
    return error;
}

EXPORT int pthread_kill(pthread_t thread, int number) {
    REAL(pthread_kill);
    int error = real(thread, number);
    if (run && !error && number && thread != pthread_self()) {
        sent_to((uint32_t)RAW(SYS_getpid, 0));
    }
    return error;
}
