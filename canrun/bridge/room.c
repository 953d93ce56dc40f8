/* Frames that wait for room in a transmit queue. On each interface they are sent in order, and other work does not wait
 * for them. */
#include "bridge.h"

#include <errno.h>
#include <poll.h>
#include <string.h>

/* The maximum number of waiting frames. When this many are waiting, the bridge reads no more requests. */
#define WAITERS 64
/* The shortest and the longest pause between two checks of an interface's counts, in nanoseconds. */
#define SHORT_PAUSE 100000
#define LONG_PAUSE 2000000
/* A waiting frame is sent only if there is room, because every refused frame adds an entry to the server's record. If
 * other senders have taken the free room at this many checks in a row, the frame is sent anyway. */
#define MOST_MISSED 16
/* Half of the assumed length of a queue that has never been full. */
#define FEW_PLACES 4

static struct waiter {
    int index; /* the index of the interface */
    bool is_fd;
    struct canfd_frame frame;
    struct later later;
} waiters[WAITERS];
static unsigned count;

/* Returns the index in `waiters` of the first waiting frame of this interface, or `count` if there is none. */
static unsigned first_at(int index) {
    unsigned at = 0;
    while (at < count && waiters[at].index != index) {
        at++;
    }
    return at;
}

/* Removes a waiting frame and reports the end of its wait. */
static void finish(unsigned at, int error) {
    struct later later = waiters[at].later;
    count--;
    memmove(&waiters[at], &waiters[at + 1], (count - at) * sizeof *waiters);
    if (later.done) {
        later.done(&later, error);
    }
}

/* Starts to check the counts of a queue that was full. */
static void begin_looking(struct session *session) {
    session->pause = SHORT_PAUSE;
    session->look_at = clock_now();
}

/* Returns whether one more frame may make the queue half full, as far as the queue's size is known. If so, the counts
 * are requested. */
static bool is_half_full(const struct session *session) {
    uint64_t half = session->was_full ? (session->places + 1) / 2 : FEW_PLACES;
    return session->waiting + session->since + 1 >= half;
}

static int send_now(struct session *to, const struct canfd_frame *frame, bool is_fd, bool waits) {
    int error = session_send(to, frame, is_fd, waits && is_half_full(to));
    to->is_stuck &= error != 0;
    to->was_full |= waits && error == ENOBUFS;
    return error;
}

/* Sends a frame that may wait for room, but only if the queue has room now. */
static int send_to_room(struct session *to, const struct canfd_frame *frame, bool is_fd) {
    if (!session_has_room(to)) {
        int error = session_look(to);
        if (error || !session_has_room(to)) {
            return error ? error : refused(ENOBUFS, "the transmit queue is full");
        }
    }
    return send_now(to, frame, is_fd, true);
}

int room_send(struct session *to, const struct canfd_frame *frame, bool is_fd, const struct later *later) {
    bool has_turn = first_at(to->index) == count, waits = later || raw_waits();
    int error = !has_turn || (later && later->is_refused) ? refused(ENOBUFS, "others wait for room")
                : waits                                   ? send_to_room(to, frame, is_fd)
                                                          : send_now(to, frame, is_fd, false);
    if (error != ENOBUFS || !later || (later->until && to->is_stuck)) {
        return error;
    }
    if (count == WAITERS) {
        return refused(ENOBUFS, "too many frames wait for room");
    }
    if (has_turn && !later->is_refused) {
        begin_looking(to);
    }
    waiters[count++] = (struct waiter){to->index, is_fd, *frame, *later};
    return SENT_LATER;
}

void room_look(int index) {
    struct session *session = sessions_for(index);
    if (session && first_at(index) == count) {
        begin_looking(session);
    }
}

/* Returns whether to send the first waiting frame, because there is room or because other senders have taken the room
 * too often. */
static bool is_time(struct session *session, uint64_t gone_before) {
    session->missed += session->gone != gone_before;
    bool is_time = session_has_room(session) || session->missed >= MOST_MISSED;
    session->missed = is_time ? 0 : session->missed;
    return is_time;
}

/* Returns whether the process of a waiting write was killed. */
static bool is_abandoned(const struct later *later) {
    struct pollfd polled = {later->reply_to, 0, 0};
    return later->reply_to >= 0 && poll(&polled, 1, 0) > 0 && polled.revents & POLLERR;
}

/* Checks the counts and sends the frames for which there is room. If the check fails, the waits of all frames of this
 * interface fail. */
static void look(struct session *session) {
    uint64_t gone_before = session->gone;
    int error = session_look(session);
    bool has = !error && is_time(session, gone_before);
    unsigned at;
    session->pause = MIN(session->pause * 3 / 2, LONG_PAUSE);
    session->look_at = clock_now() + session->pause;
    while ((at = first_at(session->index)) < count) {
        if (is_abandoned(&waiters[at].later)) {
            finish(at, EINTR);
            continue;
        }
        if (!has && !error) {
            return;
        }
        int sent = error ? error : send_now(session, &waiters[at].frame, waiters[at].is_fd, true);
        if (sent == ENOBUFS) {
            begin_looking(session);
            return;
        }
        finish(at, sent);
        if (!error) {
            begin_looking(session);
            has = session_has_room(session);
        }
    }
}

/* Ends the waits whose time has run out. Returns the nanoseconds until the next wait ends, or -1. */
static int64_t end_vain(void) {
    uint64_t now = count ? clock_now() : 0, until = UINT64_MAX;
    for (unsigned at = 0; at < count;) {
        uint64_t own = waiters[at].later.until;
        if (own && own <= now) {
            sessions_for(waiters[at].index)->is_stuck = true;
            finish(at, refused(ENOBUFS, "no room for a second, in a thread whose waits no signal ends"));
            continue;
        }
        until = own ? MIN(until, own) : until;
        at++;
    }
    return until == UINT64_MAX ? -1 : (int64_t)(until - now);
}

int64_t room_due(void) {
    int64_t next = end_vain();
    uint64_t now = count ? clock_now() : 0;
    for (int i = 0; i < session_count; i++) {
        if (first_at(sessions[i]->index) == count) {
            continue;
        }
        if (sessions[i]->look_at <= now) {
            look(sessions[i]);
            now = clock_now();
        }
        if (first_at(sessions[i]->index) < count) {
            int64_t left = sessions[i]->look_at > now ? (int64_t)(sessions[i]->look_at - now) : 0;
            next = next < 0 ? left : MIN(next, left);
        }
    }
    return next;
}

bool room_is_idle(void) {
    return count == 0;
}

bool room_takes_requests(void) {
    return count < WAITERS;
}

void room_cancel(int asks) {
    for (unsigned at = 0; at < count; at++) {
        if (waiters[at].later.reply_to >= 0 && is_same_pipe(waiters[at].later.reply_to, asks)) {
            finish(at, refused(EINTR, "a signal came while it waited for room"));
            return;
        }
    }
}

void room_forget(void (*done)(const struct later *later, int error)) {
    for (unsigned at = 0; at < count;) {
        if (waiters[at].later.done == done) {
            waiters[at].later.done = NULL;
            finish(at, 0);
        } else {
            at++;
        }
    }
}

void room_leave(int index) {
    for (unsigned at; (at = first_at(index)) < count;) {
        finish(at, refused(ENXIO, "the socket is bound to another interface"));
    }
}

bool room_has_unasked(void) {
    for (unsigned at = 0; at < count; at++) {
        if (waiters[at].later.reply_to == NOBODY) {
            return true;
        }
    }
    return false;
}
