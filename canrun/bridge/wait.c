/* Waits for the program, for the sessions, or until a given time. */
#define _GNU_SOURCE
#include "bridge.h"

#include <poll.h>
#include <time.h>

uint64_t clock_now(void) {
    struct timespec now;
    clock_gettime(CLOCK_MONOTONIC, &now);
    return (uint64_t)now.tv_sec * SECOND + (uint64_t)now.tv_nsec;
}

static int wait_for(struct pollfd *polled, nfds_t count, int64_t nanoseconds) {
    struct timespec left = {nanoseconds / (int64_t)SECOND, nanoseconds % (int64_t)SECOND};
    return ppoll(polled, count, nanoseconds < 0 ? NULL : &left, NULL);
}

bool wait_for_input(int64_t nanoseconds, bool takes_requests) {
    static struct pollfd polled[3 + INTERFACE_MOST];
    short events = (short)((takes_requests ? POLLIN : 0) | (outbox_is_empty() ? 0 : POLLOUT));
    /* While requests stay in the socket, poll always reports the socket as readable. So the bridge instead polls an
     * epoll descriptor for new requests. */
    int news = takes_requests && protocol->is_full ? request_news() : -1;
    bool is_kept = news >= 0 && request_is_kept();
    /* If the other end is closed, poll always reports the socket as ready, even though there are no requests. So the
     * bridge instead polls the descriptor of the pending close. */
    bool is_closing = !takes_requests && program_is_gone();
    polled[0] = (struct pollfd){is_closing ? close_waiter_fd() : PROGRAM, is_closing ? POLLIN : events, 0};
    polled[0].events &= (short)(news >= 0 ? ~POLLIN : ~0);
    polled[1] = (struct pollfd){news, POLLIN, 0};
    /* While a program has borrowed the session, that program reads the session's replies, and the bridge only watches
     * for the end of the session. */
    short news_of_session = quick_lend() ? POLLRDHUP : POLLIN;
    for (int i = 0; i < session_count; i++) {
        polled[2 + i] = (struct pollfd){outbox_is_crowded() ? -1 : sessions[i]->fd, news_of_session, 0};
    }
    nfds_t count = 2 + (nfds_t)session_count;
    if (protocol->descriptor) {
        polled[count++] = (struct pollfd){protocol->descriptor(), POLLIN, 0};
    }
    int ready = wait_for(polled, count, is_kept ? 0 : nanoseconds);
    quick_take_back();
    if (ready <= 0) {
        return is_kept;
    }
    if (polled[0].revents & POLLOUT) {
        outbox_has_room();
        outbox_flush();
    }
    for (int i = 0; i < session_count; i++) {
        if (polled[2 + i].revents) {
            session_read(sessions[i], false);
        }
    }
    return takes_requests && (is_kept || polled[0].revents & (POLLIN | POLLHUP | POLLERR) || polled[1].revents);
}

bool wait_for_session(const struct session *session, uint64_t until) {
    for (;;) {
        uint64_t now = clock_now();
        struct pollfd polled = {session->fd, POLLIN | POLLOUT, 0};
        if (now >= until) {
            return false;
        }
        if (wait_for(&polled, 1, (int64_t)(until - now)) > 0) {
            return true;
        }
    }
}

bool program_is_gone(void) {
    struct pollfd polled = {PROGRAM, 0, 0};
    return poll(&polled, 1, 0) > 0 && polled.revents & POLLHUP;
}
