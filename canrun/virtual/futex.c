/* Waits on a word, futex(2). This library wakes the waits that it sees. The kernel wakes the other waits. */
#define _GNU_SOURCE
#include "calls.h"
#include "tell.h"

#include <linux/futex.h>

#define ALL_BITS 0xffffffffu

/* All words have the same salt, because there is only one kind of wait on a word. */
static uint64_t key_of_word(long word, int operation) {
    const volatile void *at = (const volatile void *)word;
    return operation & FUTEX_PRIVATE_FLAG ? key_of(at, 0) : key_of_any(at, 0);
}

static bool is_as(long word, long expected) {
    return *(volatile uint32_t *)word == (uint32_t)expected;
}

static long wait_until(long word, long expected, uint64_t key, uint32_t bits, uint64_t deadline) {
    regain_turn();
    while (is_as(word, expected)) {
        if (deadline <= run->now) {
            looked();
            yield_turn();
            return is_as(word, expected) ? -ETIMEDOUT : -EAGAIN;
        }
        my_slot()->bits = bits;
        uint32_t flags = wait_turn(deadline, key, KIND_LOCK);
        if (flags & IS_WOKEN || flags == IS_OVER) {
            return 0;
        }
        /* A signal handler ends a call that has a timeout, even with SA_RESTART. */
        if (flags & IS_INTERRUPTED && (my.has_to_return || deadline != NEVER)) {
            return -EINTR;
        }
        if (!flags) {
            return -ETIMEDOUT;
        }
    }
    return -EAGAIN;
}

static uint64_t deadline_of(int operation, const struct timespec *t) {
    bool is_relative = (operation & FUTEX_CMD_MASK) == FUTEX_WAIT;
    clockid_t id = operation & FUTEX_CLOCK_REALTIME ? CLOCK_REALTIME : CLOCK_MONOTONIC;
    return !t ? NEVER : is_relative ? after(length_of(t)) : moment_of(id, t);
}

static long wait_on_word(long word, int operation, long expected, const struct timespec *t, uint32_t bits) {
    if ((word & 3) || !bits || (t && !is_proper(t))) {
        return -EINVAL;
    }
    return wait_until(word, expected, key_of_word(word, operation), bits, deadline_of(operation, t));
}

/* Waits on a word of memory that other processes may have at other addresses. The thread that wakes the wait uses the
 * same key. */
EXPORT long canbusd_virtual_wait(uint32_t *word, uint32_t expected, uint64_t key, const struct timespec *t);

long canbusd_virtual_wait(uint32_t *word, uint32_t expected, uint64_t key, const struct timespec *t) {
    return answer(run ? wait_until((long)word, (long)expected, key_of_number(key), ALL_BITS, after(length_of(t)))
                      : RAW(SYS_futex, word, FUTEX_WAIT, expected, t, NULL, 0));
}

/* Returns the thread that has waited longest for a key with one of these bits, or NULL if there is none. */
static struct slot *first_of(uint64_t key, uint32_t bits) {
    struct slot *first = NULL;
    for (uint32_t i = 0; i < slots_used(); i++) {
        struct slot *slot = &run->slots[i];
        if (slot->state == SLOT_WAITS && slot->key == key && slot->bits & bits && !(slot->flags & IS_WOKEN) &&
            (!first || slot->since < first->since)) {
            first = slot;
        }
    }
    return first;
}

/* Wakes up to `most` threads that wait in this library, and makes up to `most_moved` other threads wait for another
 * key. Returns the number of woken threads; if `counts_moved` is true, it includes the moved threads. */
static long wake_and_move(uint64_t key, uint32_t bits, long most, uint64_t to, long most_moved, bool counts_moved) {
    long woken = 0, moved = 0;
    struct slot *slot;
    regain_turn();
    for (; woken < most && (slot = first_of(key, bits)); woken++) {
        slot->flags |= IS_WOKEN;
    }
    for (; moved < most_moved && (slot = first_of(key, bits)); moved++) {
        slot->key = to;
    }
    return woken + (counts_moved ? moved : 0);
}

static long wake_word(long word, int operation, long most, uint32_t bits) {
    long woken = wake_and_move(key_of_word(word, operation), bits, most, 0, 0, false);
    /* All waits of a server are in this library. */
    if (woken >= most || is_server) {
        return woken;
    }
    long rest = RAW(SYS_futex, word, operation, most - woken, NULL, NULL, bits);
    return rest < 0 ? rest : woken + rest;
}

/* Performs the operation of FUTEX_WAKE_OP on the second word. Returns whether the old value passes the comparison, in
 * which case the waits for that word are woken. */
static bool change_word(long word, uint32_t encoded) {
    uint32_t argument = encoded >> 12 & 0xfff, compared = encoded & 0xfff, before;
    uint32_t operand = encoded >> 31 ? 1u << (argument & 31) : argument;
    volatile uint32_t *at = (volatile uint32_t *)word;
    switch (encoded >> 28 & 7) {
    case FUTEX_OP_SET: before = __atomic_exchange_n(at, operand, __ATOMIC_SEQ_CST); break;
    case FUTEX_OP_ADD: before = __atomic_fetch_add(at, operand, __ATOMIC_SEQ_CST); break;
    case FUTEX_OP_OR: before = __atomic_fetch_or(at, operand, __ATOMIC_SEQ_CST); break;
    case FUTEX_OP_ANDN: before = __atomic_fetch_and(at, ~operand, __ATOMIC_SEQ_CST); break;
    default: before = __atomic_fetch_xor(at, operand, __ATOMIC_SEQ_CST); break;
    }
    int32_t was = (int32_t)before, than = (int32_t)(compared << 20) >> 20;
    switch (encoded >> 24 & 15) {
    case FUTEX_OP_CMP_EQ: return was == than;
    case FUTEX_OP_CMP_NE: return was != than;
    case FUTEX_OP_CMP_LT: return was < than;
    case FUTEX_OP_CMP_LE: return was <= than;
    case FUTEX_OP_CMP_GT: return was > than;
    default: return was >= than;
    }
}

/* ---- futex words that hold the thread ID of their owner (FUTEX_LOCK_PI) ---- */

struct owned {
    long word;
    int operation;
};

static long try_owned(void *given) {
    struct owned *it = given;
    return RAW(SYS_futex, it->word, FUTEX_TRYLOCK_PI | (it->operation & FUTEX_PRIVATE_FLAG));
}

static long lock_owned(long word, int operation, const struct timespec *t) {
    struct owned it = {word, operation};
    bool is_of_day = (operation & FUTEX_CMD_MASK) == FUTEX_LOCK_PI || operation & FUTEX_CLOCK_REALTIME;
    uint64_t deadline = t ? moment_of(is_of_day ? CLOCK_REALTIME : CLOCK_MONOTONIC, t) : NEVER;
    return try_until(try_owned, &it, EAGAIN, deadline, true);
}

static long refuse(int what) {
    char test[TEST_ROOM];
    tell(true, "%.60s (thread %ld of process %ld) makes operation %d of futex(2), which virtual time does not know%s",
         program_invocation_short_name, RAW(SYS_gettid, 0), RAW(SYS_getpid, 0), what, tell_test(test));
    return -ENOSYS;
}

long futex(long word, long operation, long value, long fourth, long fifth, long sixth) {
    int how = (int)operation, what = how & FUTEX_CMD_MASK;
    const struct timespec *t = (const struct timespec *)fourth;
    uint32_t bits = what == FUTEX_WAIT_BITSET || what == FUTEX_WAKE_BITSET ? (uint32_t)sixth : ALL_BITS;
    switch (what) {
    case FUTEX_WAIT:
    case FUTEX_WAIT_BITSET: return wait_on_word(word, how, value, t, bits);
    case FUTEX_WAKE:
    case FUTEX_WAKE_BITSET: return bits ? wake_word(word, how, (int)value, bits) : -EINVAL;
    case FUTEX_CMP_REQUEUE:
    case FUTEX_REQUEUE:
        if (what == FUTEX_CMP_REQUEUE && !is_as(word, sixth)) {
            return -EAGAIN;
        }
        return wake_and_move(key_of_word(word, how), ALL_BITS, (int)value, key_of_word(fifth, how), (int)fourth, true);
    case FUTEX_WAKE_OP: {
        bool wakes = change_word(fifth, (uint32_t)sixth);
        long woken = wake_word(word, FUTEX_WAKE | (how & FUTEX_PRIVATE_FLAG), (int)value, ALL_BITS);
        return woken + (wakes ? wake_word(fifth, FUTEX_WAKE | (how & FUTEX_PRIVATE_FLAG), (int)fourth, ALL_BITS) : 0);
    }
    case FUTEX_LOCK_PI:
    case FUTEX_LOCK_PI2: return lock_owned(word, how, t);
    case FUTEX_TRYLOCK_PI:
    case FUTEX_UNLOCK_PI: return RAW(SYS_futex, word, operation, value, fourth, fifth, sixth);
    default: return refuse(what);
    }
}
