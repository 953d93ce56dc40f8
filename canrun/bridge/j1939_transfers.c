/* The transfers of J1939: messages of one or more frames, to and from all sockets of an interface. The transfers of a
 * socket begin one after another. Two transfers between the same ends are never active at the same time. */
#include "j1939_host.h"

#include <errno.h>
#include <stdlib.h>
#include <string.h>

/* Times in milliseconds: how long an aborted transfer is kept, and the pause before a refused frame is sent again,
 * which is 10 to 25. */
enum { ABORT_TIME = 500, LEAST_PAUSE = 10, PAUSES = 16, RETRIES = 100 };

static struct transfer *active, **active_end = &active;

/* ---- the list of transfers, and the queues of sockets ---- */

struct transfer *transfer_make(const struct wire_way *way, enum transfer_kind kind, uint32_t size) {
    struct transfer *transfer = calloc(1, sizeof *transfer);
    uint8_t *data = malloc(size + 1);
    if (!transfer || !data) {
        free(transfer);
        free(data);
        return NULL;
    }
    transfer->way = *way;
    transfer->kind = kind;
    transfer->size = size;
    transfer->data = data;
    transfer->send_at = transfer->due = NEVER;
    transfer->frame = NEVER;
    return transfer;
}

void transfer_drop_old(struct transfer *transfer) {
    uint32_t next = transfer->freed + SEGMENT;
    if (transfer->owner && next < transfer->filled && next < transfer->confirmed * IN_PACKET) {
        member_tell_freed(transfer->owner, SEGMENT);
        transfer->freed = next;
    }
}

/* Frees a transfer if nothing more will happen to it. Like the kernel, it reports the end of the transfer only then. */
void transfer_settle(struct transfer *transfer) {
    bool is_used = transfer->is_queued || transfer->send_at != NEVER || transfer->due != NEVER ||
                   transfer->state == TRANSFER_ACTIVE || transfer->state == TRANSFER_ABORTING;
    if (is_used) {
        return;
    }
    if (transfer->is_sent) {
        transfer_notice(transfer, transfer->error ? EVENT_FAILED : EVENT_SENT);
    } else if (transfer->error) {
        transfer_notice(transfer, EVENT_BROKEN);
    }
    if (transfer->owner) {
        struct j1939_told told = {.kind = TOLD_ENDED, .key = transfer->key};
        member_tell_freed(transfer->owner, transfer->filled - transfer->freed);
        member_tell(transfer->owner, &told, NULL, 0);
    }
    transfer_forget(transfer);
}

/* Adds a transfer to the list. A finished transfer stays in the list until it is freed, because its timers may still be
 * running. */
static void list(struct transfer *transfer) {
    transfer->next = NULL;
    *active_end = transfer;
    active_end = &transfer->next;
}

void transfer_forget(struct transfer *transfer) {
    for (struct transfer **place = &active; *place; place = &(*place)->next) {
        if (*place == transfer) {
            *place = transfer->next;
            break;
        }
    }
    for (active_end = &active; *active_end;) {
        active_end = &(*active_end)->next;
    }
    free(transfer->data);
    free(transfer);
}

static bool is_going_on(const struct transfer *transfer) {
    return transfer->state == TRANSFER_ACTIVE || transfer->state == TRANSFER_ABORTING;
}

static bool is_end(uint64_t name, uint8_t address, uint64_t other_name, uint8_t other_address) {
    return name ? name == other_name : address == other_address;
}

struct transfer *transfer_find(const struct wire_way *way, enum transfer_kind kind, bool is_reverse, bool is_sent) {
    for (struct transfer *one = active; one; one = one->next) {
        const struct wire_way *own = &one->way;
        bool is_same = is_reverse ? is_end(own->name, own->from, way->to_name, way->to) &&
                                        is_end(own->to_name, own->to, way->name, way->from)
                                  : is_end(own->name, own->from, way->name, way->from) &&
                                        is_end(own->to_name, own->to, way->to_name, way->to);
        if (is_same && one->kind == kind && one->is_sent == is_sent && is_going_on(one)) {
            return one;
        }
    }
    return NULL;
}

struct transfer *transfer_receive(const struct wire_way *way, enum transfer_kind kind, uint32_t size) {
    struct transfer *transfer = transfer_make(way, kind, size);
    if (transfer) {
        memset(transfer->data, 0, size);
        transfer->filled = size;
    }
    return transfer;
}

bool transfer_activate(struct transfer *transfer) {
    if (transfer->kind != TRANSFER_SIMPLE && transfer_find(&transfer->way, transfer->kind, false, transfer->is_sent)) {
        return false;
    }
    transfer->state = TRANSFER_ACTIVE;
    list(transfer);
    return true;
}

/* ---- timers ---- */

void transfer_go_on(struct transfer *transfer, unsigned milliseconds) {
    transfer->send_at = clock_now() + milliseconds * MILLISECOND;
}

void transfer_wait(struct transfer *transfer, unsigned milliseconds) {
    transfer->due = clock_now() + milliseconds * MILLISECOND;
}

void transfer_stop(struct transfer *transfer) {
    transfer->send_at = transfer->due = NEVER;
}

/* Continues a transfer after a pause. The pause is random, so that two senders do not collide repeatedly. */
void transfer_try_again(struct transfer *transfer) {
    static uint32_t state = 1;
    state = state * 1664525u + 1013904223u;
    transfer_go_on(transfer, LEAST_PAUSE + (state >> 16) % PAUSES);
}

/* ---- the end of a transfer ---- */

void transfer_end(struct transfer *transfer) {
    if (!is_going_on(transfer)) {
        return;
    }
    transfer->state = TRANSFER_OVER;
    queue_begin_next(transfer);
    transfer_settle(transfer);
}

void transfer_complete(struct transfer *transfer, const struct heard *heard) {
    if (!transfer->is_sent) {
        const struct heard whole = {.moment = heard->moment};
        members_deliver(&transfer->way, transfer->data, transfer->size, &whole);
    }
    transfer_end(transfer);
}

/* ---- failures ---- */

void transfer_notice(const struct transfer *transfer, enum wire_event what) {
    struct j1939_told told = {.kind = TOLD_NOTICE};
    told.notice = (struct wire_notice){.way = transfer->way,
                                       .error = transfer->error,
                                       .nanoseconds = host_moment(),
                                       .what = what,
                                       .key = transfer->key,
                                       .size = transfer->size,
                                       .done = MIN(transfer->confirmed * IN_PACKET, transfer->size)};
    if (transfer->kind == TRANSFER_SIMPLE) {
        told.notice.done = transfer->size;
    }
    for (struct member *member = members; member && !transfer->is_sent; member = member->next) {
        if (member_wants(member, &transfer->way)) {
            member_tell(member, &told, NULL, 0);
        }
    }
    if (transfer->owner) {
        member_tell(transfer->owner, &told, NULL, 0);
    }
}

void transfer_tell_error(const struct transfer *transfer) {
    if (transfer->owner) {
        member_tell(transfer->owner, &(struct j1939_told){.kind = TOLD_ERROR, .error = transfer->error}, NULL, 0);
    }
}

static void abort_it(struct transfer *transfer, uint8_t reason) {
    transfer->error = errno_of_abort(reason);
    transfer->state = TRANSFER_ABORTING;
    transfer_send_abort(transfer, reason);
    transfer_tell_error(transfer);
}

void transfer_cancel(struct transfer *transfer, uint8_t reason) {
    if (transfer->state == TRANSFER_ACTIVE) {
        transfer_wait(transfer, ABORT_TIME);
        abort_it(transfer, reason);
    }
    if (!transfer->is_sent) {
        transfer_notice(transfer, EVENT_BROKEN);
    }
}

/* Handles a transfer whose next frame has not arrived in time. */
static void time_out(struct transfer *transfer) {
    transfer->due = NEVER;
    if (transfer->state == TRANSFER_ABORTING) {
        transfer_end(transfer);
        return;
    }
    if (transfer->kind == TRANSFER_SIMPLE) {
        transfer->error = transfer->state == TRANSFER_ACTIVE ? -ETIME : transfer->error;
        transfer->state = TRANSFER_OVER;
        queue_begin_next(transfer);
    } else if (transfer->state == TRANSFER_ACTIVE) {
        transfer_wait(transfer, ABORT_TIME);
        abort_it(transfer, ABORT_TIMEOUT);
    }
    if (!transfer->is_sent) {
        transfer_notice(transfer, EVENT_BROKEN);
    }
    transfer_settle(transfer);
}

/* Handles a frame that was refused for a reason other than lack of room. */
static void fail(struct transfer *transfer, int error) {
    if (error == ENETDOWN) {
        return; /* The transfer will time out. */
    }
    if (transfer->kind == TRANSFER_SIMPLE) {
        transfer->error = -error;
        transfer->due = NEVER;
        transfer_end(transfer);
    } else {
        transfer_cancel(transfer, ABORT_OTHER);
    }
}

/* ---- continuing a transfer ---- */

static void go_on(struct transfer *transfer) {
    transfer->send_at = NEVER;
    if (!is_going_on(transfer)) {
        transfer_settle(transfer);
        return;
    }
    int error = transfer_send_next(transfer);
    if (!error) {
        transfer->retries = 0;
        if (transfer->kind == TRANSFER_SIMPLE) {
            queue_begin_next(transfer);
        }
    } else if (error == ENOBUFS && (raw_waits() || transfer->retries++ < RETRIES)) {
        transfer_try_again(transfer);
    } else if (error == ENOBUFS) {
        transfer->error = -ENETUNREACH;
        transfer->due = NEVER;
        transfer_end(transfer);
    } else {
        fail(transfer, error);
    }
}

const struct member *transfers_echo(uint64_t number) {
    for (struct transfer *one = active; one; one = one->next) {
        if (one->kind == TRANSFER_SIMPLE && one->frame == number && is_going_on(one)) {
            return one->owner;
        }
    }
    return NULL;
}

void transfers_sent(uint64_t number) {
    for (struct transfer *one = active; one; one = one->next) {
        if (one->kind == TRANSFER_SIMPLE && one->frame == number && is_going_on(one)) {
            transfer_stop(one);
            one->state = TRANSFER_OVER;
            transfer_settle(one);
            return;
        }
    }
}

/* Returns the first transfer that is due, or that had no answer until `known`. Returns NULL if there is none. */
static struct transfer *next_due(uint64_t now, uint64_t known) {
    struct transfer *best = NULL;
    uint64_t soonest = NEVER;
    for (struct transfer *one = active; one; one = one->next) {
        uint64_t moment = MIN(one->send_at <= now ? one->send_at : NEVER, one->due <= known ? one->due : NEVER);
        if (moment < soonest) {
            soonest = moment;
            best = one;
        }
    }
    return best;
}

uint64_t transfers_due(uint64_t now, uint64_t known) {
    uint64_t soonest = NEVER;
    for (struct transfer *one; (one = next_due(now, known));) {
        if (one->send_at <= now && one->send_at <= one->due) {
            go_on(one);
        } else {
            time_out(one);
        }
    }
    for (const struct transfer *one = active; one; one = one->next) {
        soonest = MIN(soonest, MIN(one->send_at, one->due));
    }
    return soonest;
}

void transfers_leave(const struct member *owner) {
    struct transfer *next;
    for (struct transfer *one = active; one; one = next) {
        next = one->next;
        if (one->owner == owner) {
            transfer_forget(one);
        }
    }
}

bool transfers_go_on(void) {
    return active != NULL;
}
