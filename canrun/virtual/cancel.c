/* pthread_cancel. A cancelled thread that waits for its turn is woken. After it has got the turn, it ends at the end of
 * a cancellable wait, or at any point if its cancellation type is asynchronous. */
#define _GNU_SOURCE
#include "calls.h"

bool may_be_cancelled;

uint32_t wait_turn_or_cancel(uint64_t deadline, uint64_t key, enum kind kind) {
    uint32_t flags;
    do {
        cancel_point();
        flags = wait_turn(deadline, key, kind);
    } while (flags == IS_CANCELLED && run->now < deadline);
    cancel_point();
    return flags;
}

EXPORT int pthread_cancel(pthread_t thread) {
    REAL(pthread_cancel);
    if (!run) {
        return real(thread);
    }
    regain_turn();
    may_be_cancelled = true;
    int error = real(thread);
    for (uint32_t i = 0; i < slots_used(); i++) {
        struct slot *slot = &run->slots[i];
        if (slot->state == SLOT_WAITS && slot->thread == thread && slot->pid == my_slot()->pid) {
            slot->flags |= IS_CANCELLED;
        }
    }
    return error;
}

/* While a thread waits for its turn, its cancellation type is deferred, because its cleanup handlers must not run
 * without the turn. */
static void hold(bool is_held) {
    REAL(pthread_setcanceltype);
    real(is_held ? PTHREAD_CANCEL_DEFERRED : PTHREAD_CANCEL_ASYNCHRONOUS, NULL);
}

EXPORT int pthread_setcanceltype(int type, int *old) {
    REAL(pthread_setcanceltype);
    if (run && (type == PTHREAD_CANCEL_ASYNCHRONOUS || type == PTHREAD_CANCEL_DEFERRED)) {
        hold_cancel = hold;
        my.is_asynchronous = type == PTHREAD_CANCEL_ASYNCHRONOUS;
    }
    return real(type, old);
}
