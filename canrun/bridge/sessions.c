/* The sessions of a socket: one for each interface that the socket is bound to, and one for each other interface on
 * which it sends. */
#define _GNU_SOURCE
#include "bridge.h"

#include <errno.h>
#include <stdio.h>
#include <stdlib.h>
#include <string.h>

struct session *sessions[INTERFACE_MOST];
int session_count;
bool is_bound;
int bound_index;

/* If the server has no room for another session, stores an explanation that names the interface. Returns `error`. */
static int explain(int error, const char *name) {
    static char why[240];
    const char *address = getenv("CANBUSD_ADDRESS");
    if (error != EUSERS) {
        return error;
    }
    snprintf(
        why, sizeof why,
        "%s: the server at %.108s has 64 sessions, as many as it can; each CAN socket takes one for each interface",
        name, address ? address : "CANBUSD_ADDRESS");
    return refused(error, why);
}

/* Opens the interface with this index in raw mode. Returns 0 and a session that the caller owns, or an errno. */
static int start_raw(int index, bool is_receiving, struct session **started) {
    char name[IFNAMSIZ], text[2048];
    if (!interface_name(index, name)) {
        return refused(ENODEV, "no interface has this index");
    }
    size_t length =
        (size_t)snprintf(text, sizeof text, "< open %s >< rawmode >< errdata 1 >< ack 1 >< origin 1 >", name);
    int error = 0;
    struct session *session = session_start(&error);
    if (!session) {
        return explain(error, name);
    }
    session->index = index;
    session->is_receiving = is_receiving;
    raw_setup(session, text + length, sizeof text - length);
    session->is_receiving = false; /* too many frames would arrive before the filters are set */
    error = session_command(session, text);
    session->is_receiving = is_receiving;
    if (error) {
        session_end(session);
        return explain(error, name);
    }
    *started = session;
    return 0;
}

/* Starts a session for every interface of the server. */
static int start_all(struct session *started[INTERFACE_MOST], int *count) {
    char name[IFNAMSIZ];
    int error = 0;
    while (!error && interface_name(INTERFACE_FIRST + *count, name)) {
        error = start_raw(INTERFACE_FIRST + *count, true, &started[*count]);
        *count += !error;
    }
    return *count || error ? error : refused(ENODEV, "CANBUSD_INTERFACES has no interface");
}

/* Ends all sessions and drops the frames that wait for room in them. */
static void end_all(void) {
    order_flush();
    while (session_count) {
        struct session *session = sessions[session_count - 1];
        room_leave(session->index);
        session_count--;
        session_end(session);
    }
}

bool sessions_leave(void) {
    bool was_bound = is_bound;
    end_all();
    is_bound = false;
    bound_index = 0;
    return was_bound;
}

/* Binds the socket. As in the kernel, a refused bind changes nothing. */
int sessions_bind(int index) {
    struct session *started[INTERFACE_MOST];
    int count = 0, error;
    if (is_bound && bound_index == index) {
        return 0;
    }
    if (!index) {
        error = start_all(started, &count);
    } else {
        error = start_raw(index, true, &started[0]);
        count = !error;
    }
    if (error) {
        while (count) {
            session_end(started[--count]);
        }
        return error;
    }
    end_all();
    memcpy(sessions, started, (size_t)count * sizeof *started);
    session_count = count;
    is_bound = true;
    bound_index = index;
    return 0;
}

struct session *sessions_for(int index) {
    for (int i = 0; i < session_count; i++) {
        if (sessions[i]->index == index) {
            return sessions[i];
        }
    }
    if (!index) {
        refused(ENXIO, "the socket is bound to no interface");
        return NULL;
    }
    return start_raw(index, false, &sessions[session_count]) ? NULL : sessions[session_count++];
}

int sessions_apply(void) {
    char text[2048];
    int error = 0;
    for (int i = 0; i < session_count && !error; i++) {
        text[0] = 0;
        raw_setup(sessions[i], text, sizeof text);
        error = *text ? session_command(sessions[i], text) : 0;
    }
    return error;
}

bool sessions_ended(void) {
    for (int i = 0; i < session_count; i++) {
        if (sessions[i]->fd < 0) {
            return true;
        }
    }
    return false;
}
