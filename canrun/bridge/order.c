/* Merges the items of a socket's sessions in the order of their timestamps. The server sends to each session
 * separately, so an item must wait as long as another session may still deliver an older item. After an item has
 * arrived, the bridge queries from each session how many items the server had queued for it. The item is passed on when
 * all these items have arrived. */
#include "../shared/planted.h"
#include "bridge.h"

#include <poll.h>
#include <stdlib.h>

/* The maximum number of waiting items. If there are more, the items are passed on without waiting. */
#define HELD 4096
/* How many nanoseconds to wait before repeating a query that could not be sent for lack of room. */
#define PAUSE 1000000

static struct held {
    struct item item;
    int index;
    unsigned rank; /* how many items with the same timestamp this interface brought before; on one bus, the same frame
                      has the same rank at each interface */
} held[HELD];
static unsigned count;
/* Whether the sessions are being queried about items up to the timestamp `until`. */
static bool is_open;
static uint64_t until;

static int compare(const void *one, const void *other) {
    const struct held *first = one, *second = other;
    if (first->item.moment != second->item.moment) {
        return first->item.moment < second->item.moment ? -1 : 1;
    }
    return first->rank != second->rank ? (int)(first->rank - second->rank) : first->index - second->index;
}

/* Passes the items up to this timestamp to the protocol. */
static void release(uint64_t moment) {
    unsigned done = 0;
    qsort(held, count, sizeof *held, compare);
    for (; done < count && held[done].item.moment <= moment; done++) {
        protocol->receive(&held[done].item, held[done].index);
    }
    for (unsigned i = done; i < count; i++) {
        held[i - done] = held[i];
    }
    count -= done;
    is_open = false;
    outbox_flush();
}

/* Waits if a sweep delays this frame. Returns whether the sweep drops the frame. */
static bool is_lost(const struct item *item, int index) {
    static struct planted planted;
    static bool is_read;
    if (!is_read) {
        planted = planted_read();
        is_read = true;
    }
    if (planted.kind == PLANTED_NONE || planted.kind == PLANTED_FULL || item->moment != planted.moment ||
        !planted_is_of(&planted, index, item->frame.can_id)) {
        return false;
    }
    if (planted.kind == PLANTED_LATE) {
        poll(NULL, 0, PLANTED_DELAY);
    }
    return planted.kind == PLANTED_MISSED;
}

void order_put(const struct item *item, int index) {
    if (is_lost(item, index)) {
        return;
    }
    if (!is_bound || bound_index || session_count < 2) {
        protocol->receive(item, index);
        return;
    }
    if (count == HELD) {
        release(UINT64_MAX);
    }
    static struct last {
        uint64_t moment;
        unsigned rank;
    } lasts[INTERFACE_MOST];
    struct last *last = &lasts[index - INTERFACE_FIRST];
    last->rank = last->moment == item->moment ? last->rank + 1 : 0;
    last->moment = item->moment;
    held[count++] = (struct held){*item, index, last->rank};
}

void order_flush(void) {
    release(UINT64_MAX);
}

/* Starts to query all sessions about the items up to now. */
static void ask_all(void) {
    until = 0;
    for (unsigned i = 0; i < count; i++) {
        until = held[i].item.moment > until ? held[i].item.moment : until;
    }
    for (int i = 0; i < session_count; i++) {
        session_ask_all(sessions[i]);
    }
    is_open = true;
}

bool order_has_news(void) {
    return count && !is_open;
}

int64_t order_due(void) {
    while (count) {
        bool has_all = true, waits = false;
        if (!is_open) {
            ask_all();
        }
        for (int i = 0; i < session_count; i++) {
            has_all &= session_has_all(sessions[i]);
            waits |= sessions[i]->is_receiving && !sessions[i]->is_asked;
        }
        if (!has_all) {
            return waits ? PAUSE : -1;
        }
        release(until);
    }
    return -1;
}
