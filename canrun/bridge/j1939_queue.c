/* The messages that a J1939 socket sends. They wait in its queue, and their transfers begin one after another. */
#include "j1939_host.h"

#include <errno.h>
#include <string.h>

static void take_out(struct transfer *transfer) {
    transfer->owner->queue = transfer->next_queued;
    transfer->is_queued = false;
}

void queue_begin_next(struct transfer *transfer) {
    struct member *owner = transfer->owner;
    int error = transfer->error;
    if (!owner || owner->queue != transfer) {
        return;
    }
    take_out(transfer);
    for (struct transfer *next; (next = owner->queue);) {
        if (transfer_activate(next)) {
            if (error) {
                transfer_try_again(next);
            } else {
                transfer_go_on(next, 0);
            }
            return;
        }
        next->error = -EBUSY;
        take_out(next);
        transfer_settle(next);
    }
}

static void append(struct member *owner, struct transfer *transfer) {
    struct transfer **last = &owner->queue;
    while (*last) {
        last = &(*last)->next_queued;
    }
    *last = transfer;
    transfer->is_queued = true;
}

static enum transfer_kind kind_of(uint32_t size) {
    return size <= ONE_FRAME ? TRANSFER_SIMPLE : size <= TP_LONGEST ? TRANSFER_TP : TRANSFER_ETP;
}

/* Returns 0 if a message with this destination and size may be sent, otherwise an errno. */
static int check(const struct wire_way *way, uint32_t size) {
    if (is_of_transport(way->pgn)) {
        return refused(EDOM, "this group is that of transfers themselves");
    }
    if (size > ETP_LONGEST) {
        return refused(EMSGSIZE, "a message has 117440505 bytes at most");
    }
    if (size > TP_LONGEST && is_to_all(way)) {
        return refused(EDESTADDRREQ, "to all, a message has 1785 bytes at most");
    }
    return 0;
}

/* Starts the first message of a socket. If another transfer is active between the same ends, all messages of the socket
 * are abandoned. */
static int begin(struct transfer *transfer) {
    struct member *owner = transfer->owner;
    if (transfer_activate(transfer)) {
        transfer_go_on(transfer, 0);
        return 0;
    }
    while (owner->queue) {
        struct transfer *first = owner->queue;
        first->error = EBUSY;
        take_out(first);
        transfer_settle(first);
    }
    return refused(EBUSY, "another socket sends a message between the same addresses");
}

int queue_send(struct member *owner, const struct j1939_ask *ask, const void *data, size_t length) {
    struct wire_way way = ask->way;
    int error = check(&way, ask->size);
    error = error ? error : host_resolve(&way, data, length);
    if (error) {
        return error;
    }
    struct transfer *transfer = transfer_make(&way, kind_of(ask->size), ask->size);
    if (!transfer) {
        return refused(ENOMEM, "no memory for a message");
    }
    transfer->owner = owner;
    transfer->is_sent = transfer->is_from_us = true;
    transfer->is_to_us = names_are_local(way.to);
    transfer->key = ask->key;
    transfer->total = (ask->size + IN_PACKET - 1) / IN_PACKET;
    transfer->block = transfer->kind == TRANSFER_ETP ? 255 : MIN(255u, transfer->total);
    transfer->last = is_to_all(&way) ? transfer->total : 0;
    memcpy(transfer->data, data, length);
    transfer->filled = (uint32_t)length;
    bool is_first = !owner->queue;
    append(owner, transfer);
    return is_first ? begin(transfer) : 0;
}

void queue_fill(struct member *owner, uint32_t key, const void *data, size_t length) {
    struct transfer *one = owner->queue;
    while (one && one->key != key) {
        one = one->next_queued;
    }
    if (!one || length > one->size - one->filled) {
        member_tell_freed(owner, (uint32_t)length);
        return;
    }
    memcpy(one->data + one->filled, data, length);
    one->filled += (uint32_t)length;
}

void queue_leave(struct member *owner) {
    while (owner->queue) {
        struct transfer *first = owner->queue;
        take_out(first);
        first->error = ESHUTDOWN;
        if (first->state == TRANSFER_NEW) {
            transfer_forget(first);
        }
    }
    transfers_leave(owner);
}
