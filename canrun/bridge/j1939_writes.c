/* The writes of a J1939 socket. The bytes of a message are passed to the host as far as SO_SNDBUF has room for their
 * segments. The write waits until there is room for the rest. */
#include "j1939.h"

#include <errno.h>
#include <stdlib.h>
#include <string.h>
#include <sys/socket.h>

/* The maximum number of waiting writes. */
#define TURNS 64
/* The maximum number of requests that are left in the socket. */
#define KEPT 64
/* The constants with which cost_of computes how many bytes the kernel counts for a segment. The size of a kernel buffer
 * is a power of two, and part of the buffer does not hold data. */
#define BUFFER_HEAD 256
#define BUFFER_LEAST 512
#define BUFFER_OTHER 384
/* The minimum of SO_SNDBUF, and its maximum without privileges. */
#define ROOM_LEAST 4608
#define ROOM_MOST 212992

struct turn {
    struct turn *next;
    int reply_to;
    bool may_wait, is_first;
    struct wire_way way;
    uint32_t key, size;
    size_t length, done;
    char data[];
};
static struct turn *turns;
static unsigned turn_count;

static uint32_t keys, keys_before; /* how many messages there were so far, and how many when counting restarted */
static unsigned pending;           /* how many messages have not ended yet */
static int used, room = ROOM_MOST;
/* The key of a message whose remaining bytes come with the next write. */
static uint32_t open_key, open_left; /* how many bytes remain */

static int cost_of(uint32_t length) {
    int size = BUFFER_LEAST;
    while (size < (int)length + BUFFER_OTHER) {
        size *= 2;
    }
    return size + BUFFER_HEAD;
}

void writes_set_room(int number) {
    room = MAX(ROOM_LEAST, MIN(MAX(number, 0), ROOM_MOST) * 2);
}

int writes_room(void) {
    return room;
}

void writes_count_anew(void) {
    keys_before = keys;
}

uint32_t writes_number(const struct wire_notice *notice) {
    bool is_of_sent = notice->what == EVENT_SENT || notice->what == EVENT_BEGUN || notice->what == EVENT_FAILED;
    return is_of_sent ? notice->key - keys_before : notice->key;
}

bool writes_are_pending(void) {
    return pending || turns;
}

bool writes_are_full(unsigned kept) {
    return used >= room / 2 && kept < KEPT;
}

bool writes_have_place(void) {
    return turn_count < TURNS;
}

void writes_free(uint32_t length) {
    used -= cost_of(length);
}

void writes_end(uint32_t key) {
    pending--;
    if (open_key == key) {
        open_left = 0;
    }
}

/* Returns how many bytes of a write there is room for, and sets `cost` to the number of bytes that they count against
 * SO_SNDBUF. */
static size_t fitting(const struct turn *turn, int *cost) {
    size_t length = 0, left = turn->length - turn->done;
    *cost = 0;
    do {
        size_t part = MIN(left - length, SEGMENT);
        if (used + *cost >= room) {
            break;
        }
        *cost += cost_of((uint32_t)part);
        length += part;
    } while (length < left);
    return length;
}

/* Passes the next bytes of a write to the host. Returns 0, or an errno. */
static int hand_on(struct turn *turn, size_t length, int cost) {
    struct j1939_ask ask = {
        .kind = ASK_SEND, .key = turn->key, .size = turn->size, .is_first = turn->is_first, .way = turn->way};
    int error = link_ask(&ask, turn->data + turn->done, length);
    if (error && error != EBUSY) {
        return error;
    }
    /* EBUSY means that another message is active. This message still counts as begun, and its end will be reported. */
    used += cost;
    pending += turn->is_first;
    keys += turn->is_first;
    open_left = turn->is_first ? turn->size : open_left;
    open_key = turn->key;
    open_left -= MIN((uint32_t)length, open_left);
    turn->is_first = false;
    turn->done += length;
    return error;
}

/* Continues a write as far as there is room. Returns 0 if all bytes were passed to the host, SENT_LATER if the write
 * has to wait, or an errno. */
static int go_on(struct turn *turn) {
    bool is_over = false;
    while (!is_over) {
        int cost, error = error_take();
        if (error) {
            return refused(error, "a message before did not get through");
        }
        size_t length = fitting(turn, &cost);
        if (!cost) {
            return turn->may_wait ? SENT_LATER : refused(EAGAIN, "SO_SNDBUF has no room");
        }
        turn->key = turn->is_first ? keys : open_key;
        error = hand_on(turn, length, cost);
        if (error) {
            return error;
        }
        is_over = turn->done == turn->length;
    }
    return 0;
}

/* Replies to a write. If the write has waited in vain, the result is the number of bytes that were passed to the host.
 */
static void finish(const struct turn *turn, int error) {
    bool is_part = turn->done && (error == EAGAIN || error == EINTR);
    request_reply(turn->reply_to, is_part ? 0 : error, (int)turn->done | (writes_are_full(0) ? WIRE_FULL : 0));
}

static void take_out(struct turn **place, int error) {
    struct turn *turn = *place;
    *place = turn->next;
    turn_count--;
    finish(turn, error);
    free(turn);
}

void writes_go_on(void) {
    while (turns) {
        int error = go_on(turns);
        if (error == SENT_LATER) {
            return;
        }
        take_out(&turns, error);
    }
}

void writes_cancel(int asks) {
    for (struct turn **place = &turns; *place; place = &(*place)->next) {
        if (is_same_pipe((*place)->reply_to, asks)) {
            take_out(place, refused(EINTR, "a signal came while it waited"));
            return;
        }
    }
}

void writes_leave(void) {
    while (turns) {
        take_out(&turns, refused(ENODEV, "the server is gone"));
    }
    pending = 0;
    used = 0;
    open_left = 0;
}

static struct turn *make(const struct wire_way *way, uint32_t size, const char *data, size_t length, int reply_to) {
    struct turn *turn = malloc(sizeof *turn + length);
    if (turn) {
        *turn = (struct turn){.reply_to = reply_to, .is_first = true, .way = *way, .size = size, .length = length};
        memcpy(turn->data, data, length);
    }
    return turn;
}

int writes_add(const struct wire_request *request, const struct wire_way *way, uint32_t size, const char *data,
               size_t length, int reply_to) {
    bool is_rest = request->option;
    if (is_rest && !open_left) {
        return 0; /* As in the kernel, the rest of a message that has ended is dropped. */
    }
    if (!is_rest && open_left && open_left != size) {
        return refused(EIO, "the rest of the message before has another length");
    }
    if (turns && request->number == WIRE_NO_WAIT) {
        return refused(EAGAIN, "another write waits");
    }
    struct turn *turn = make(way, size, data, length, reply_to), **last = &turns;
    if (!turn) {
        return refused(ENOMEM, "no memory for a message");
    }
    turn->is_first = !open_left;
    turn->may_wait = request->number != WIRE_NO_WAIT;
    while (*last) {
        last = &(*last)->next;
    }
    *last = turn;
    turn_count++;
    writes_go_on();
    return SENT_LATER;
}
