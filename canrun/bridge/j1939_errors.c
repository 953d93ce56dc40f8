/* The error queue of a J1939 socket. Its entries report on messages that the socket sends or receives. */
#include "j1939.h"

#include <linux/net_tstamp.h>
#include <stdlib.h>
#include <unistd.h>
#include <poll.h>

/* The maximum number of entries. The kernel has the same limit for a socket with the default buffer size. */
#define MOST 256
/* The maximum number of pipes on which processes wait for an error. */
#define WATCHERS 64

bool errors_are_on;
uint32_t errors_wanted;

static struct wire_notice queue[MOST];
static unsigned first, count;
static int watchers[WATCHERS];
static unsigned watcher_count;

static bool is_wanted(int what) {
    switch (what) {
    case EVENT_SENT: return errors_wanted & SOF_TIMESTAMPING_TX_ACK;
    case EVENT_BEGUN: return errors_wanted & SOF_TIMESTAMPING_TX_SCHED;
    case EVENT_FAILED: return true;
    default: return errors_wanted & SOF_TIMESTAMPING_RX_SOFTWARE;
    }
}

void errors_put(const struct wire_notice *notice) {
    if (!errors_are_on || !is_wanted(notice->what) || count == MOST) {
        return;
    }
    queue[(first + count++) % MOST] = *notice;
    if (count == 1) {
        outbox_ring();
    }
    errors_show();
}

bool errors_take(struct wire_notice *notice) {
    if (!count) {
        return false;
    }
    *notice = queue[first];
    first = (first + 1) % MOST;
    count--;
    return true;
}

void errors_clear(void) {
    count = 0;
}

bool errors_are_there(void) {
    return count || error_is_set();
}

void errors_show(void) {
    if (!errors_are_there()) {
        return;
    }
    while (watcher_count) {
        request_reply(watchers[--watcher_count], 0, 1);
    }
}

/* Removes the pipes that no process reads any longer. */
static void forget_gone(void) {
    unsigned kept = 0;
    for (unsigned i = 0; i < watcher_count; i++) {
        struct pollfd polled = {watchers[i], 0, 0};
        if (poll(&polled, 1, 0) > 0 && polled.revents & POLLERR) {
            close(watchers[i]);
        } else {
            watchers[kept++] = watchers[i];
        }
    }
    watcher_count = kept;
}

int errors_watch(int reply_to) {
    forget_gone();
    if (watcher_count == WATCHERS) {
        close(watchers[0]);
        watchers[0] = watchers[--watcher_count];
    }
    watchers[watcher_count++] = reply_to;
    errors_show();
    return SENT_LATER;
}
