/* A session with the server: its messages, its commands, and the server's verdicts on frames. */
#define _GNU_SOURCE
#include "bridge.h"

#include "../shared/address.h"

#include <errno.h>
#include <stdio.h>
#include <stdlib.h>
#include <string.h>
#include <sys/socket.h>
#include <sys/time.h>
#include <unistd.h>

/* The maximum length of the commands in one write, which are the filters and the echo. */
#define LONGEST 2048
/* Returns the errno for a refusal by the server, as SocketCAN would return it. */
static int error_of(const char *reply) {
    static const struct {
        const char *text;
        int error;
    } known[] = {{"no buffers", ENOBUFS}, {"bus off", ENETDOWN},         {"interface down", ENETDOWN},
                 {"record full", ENOSPC}, {"no such interface", ENODEV}, {"too many sessions", EUSERS},
                 {"no memory", ENOMEM}};
    static char kept[sizeof((struct session *)0)->reply + 20];
    if (strncmp(reply, "error ", 6) != 0) {
        return 0;
    }
    snprintf(kept, sizeof kept, "the server says: %s", reply + 6);
    for (size_t i = 0; i < sizeof known / sizeof *known; i++) {
        if (!strcmp(reply + 6, known[i].text)) {
            return refused(known[i].error, kept);
        }
    }
    return refused(EINVAL, kept);
}

static void lose(struct session *session) {
    close(session->fd);
    session->fd = -1;
}

void session_end(struct session *session) {
    if (session && session->fd >= 0) {
        if (session->is_shared) {
            shutdown(session->fd, SHUT_RDWR); /* because programs have copies of the file descriptor */
        }
        close(session->fd);
    }
    free(session);
}

/* ---- which received frames came from this session ---- */

/* Records that the frame with this number belongs to this session. The numbers between the previous frame of this
 * session and this one belong to frames of other sessions. */
static void keep_number(struct session *session, uint64_t number) {
    if (!session->sent_end) {
        session->sent_end = number;
    } else if (number >= session->sent_end + NUMBERS_KEPT) {
        memset(session->sent, 0, sizeof session->sent);
        session->sent_end = number;
    }
    for (; session->sent_end <= number; session->sent_end++) {
        session->sent[session->sent_end % NUMBERS_KEPT / 8] &= (uint8_t) ~(1 << session->sent_end % 8);
    }
    session->sent[number % NUMBERS_KEPT / 8] |= (uint8_t)(1 << number % 8);
}

static bool is_own_number(const struct session *session, uint64_t number) {
    bool is_kept = number < session->sent_end && session->sent_end - number <= NUMBERS_KEPT;
    return is_kept && session->sent[number % NUMBERS_KEPT / 8] >> number % 8 & 1;
}

uint64_t session_last_number(const struct session *session) {
    return session->sent_end - 1;
}

/* Reads a message that accepts a frame, and records the frame's number. Returns false for other messages. */
static bool note_sent(struct session *session, const char *text) {
    static const char word[] = "ack ";
    uint64_t number;
    if (strncmp(text, word, sizeof word - 1) != 0) {
        return false;
    }
    text += sizeof word - 1;
    if (message_number(&text, &number)) {
        keep_number(session, number);
    }
    return true;
}

/* Returns the flags of a received frame for recvmsg: MSG_DONTROUTE if the frame was sent by the same interface, and
 * MSG_CONFIRM if it was sent by this socket. The server always accepts a frame before sending the frame back. */
static uint32_t message_flags(const struct session *session, const struct item *item) {
    if (item->origin != ORIGIN_SAME) {
        return 0;
    }
    return MSG_DONTROUTE | (is_own_number(session, item->number) ? MSG_CONFIRM : 0);
}

/* ---- messages from the server ---- */

/* Reads a message that contains the counts. Returns false for other messages. */
static bool note_counts(struct session *session, const char *text, unsigned long *queued, unsigned *dropped) {
    unsigned long done, waiting, lost;
    if (strncmp(text, "stats ", 6) ||
        sscanf(text, "stats %lu %u %*u %*u %lu %lu %lu", queued, dropped, &done, &waiting, &lost) != 5) {
        return false;
    }
    session->gone = done + lost;
    session->waiting = waiting;
    session->since = 0;
    session->places = MAX(session->places, waiting);
    return true;
}

static enum due after_verdict(enum due due) {
    return due == DUE_VERDICT_AND_COUNTS ? DUE_COUNTS : DUE_NOTHING;
}

static void handle_reply(struct session *session, const char *text) {
    unsigned long queued;
    unsigned dropped;
    bool is_verdict = session->due >= DUE_VERDICT;
    bool has_counts = note_counts(session, text, &queued, &dropped);
    if (is_verdict && note_sent(session, text)) {
        session->since++;
        session->due = after_verdict(session->due);
    } else if (session->due == DUE_ECHO && !strcmp(text, "echo")) {
        session->due = DUE_NOTHING;
    } else if (session->due == DUE_COUNTS && (has_counts || !strncmp(text, "error ", 6))) {
        session->due = DUE_NOTHING;
    } else if (session->is_counting && has_counts) {
        session->is_counting = false;
        session->is_answered = session->is_asked;
        session->queued = queued;
        outbox_server_dropped(session, dropped);
    } else if (session->due && !has_counts && !*session->reply && strcmp(text, "ok") != 0) {
        snprintf(session->reply, sizeof session->reply, "%s", text);
        session->due = is_verdict ? after_verdict(session->due) : session->due;
    }
}

/* Handles the complete messages in the input buffer. An incomplete message stays there. */
static void handle_input(struct session *session) {
    char *at = session->input, *end = at + session->have, *close_at;
    while ((close_at = memchr(at, '>', (size_t)(end - at)))) {
        char *open_at = memrchr(at, '<', (size_t)(close_at - at)), *last = close_at;
        struct item item;
        at = close_at + 1;
        if (!open_at) {
            continue;
        }
        for (open_at++; *open_at == ' '; open_at++) {
        }
        for (; last > open_at && last[-1] == ' '; last--) {
        }
        *last = 0;
        if (!message_to_item(open_at, &item)) {
            handle_reply(session, open_at);
            continue;
        }
        session->seen++;
        if (session->is_receiving) {
            item.message_flags = message_flags(session, &item);
            order_put(&item, session->index);
        }
    }
    session->have = (size_t)(end - at);
    memmove(session->input, at, session->have);
    if (session->have == sizeof session->input) {
        session->have = 0; /* The input is longer than any message, so the server is not a canbusd. */
    }
}

/* Returns how many nanoseconds a read waits. The time is short for a server that has failed to reply before, so that
 * writes in several threads do not all wait one after another. */
static uint64_t patience_with(const struct session *session) {
    return session->is_silent ? SECOND / 10 : PATIENCE * SECOND;
}

bool session_read(struct session *session, bool waits) {
    char *at = session->input + session->have;
    size_t room = sizeof session->input - session->have;
    ssize_t length = waits && is_virtual() ? receive_within(session->fd, at, room, patience_with(session))
                                           : recv(session->fd, at, room, waits ? 0 : MSG_DONTWAIT);
    if (length > 0) {
        session->have += (size_t)length;
        handle_input(session);
    } else if (length == 0 || (errno != EAGAIN && errno != EINTR)) {
        lose(session);
    }
    outbox_flush();
    return length >= 0 || errno != EAGAIN;
}

/* ---- commands ---- */

/* Writes the whole string, or drops the session. While waiting, it handles input, because a server whose output is not
 * read accepts no commands. A server that has closed the connection accepts none either, but may have sent the reason.
 */
static void put_text(struct session *session, const char *text, size_t length) {
    uint64_t until = 0;
    size_t written = 0;
    while (session->fd >= 0) {
        ssize_t part = send(session->fd, text + written, length - written, MSG_DONTWAIT | MSG_NOSIGNAL);
        written += part > 0 ? (size_t)part : 0;
        if (written == length) {
            return;
        }
        until = until ? until : clock_now() + PATIENCE * SECOND;
        if (wait_for_session(session, until)) {
            session_read(session, false);
        } else {
            lose(session); /* Perhaps only half of a command was written. */
        }
    }
}

static void set_silent(struct session *session, bool is_silent) {
    session->is_silent = is_silent;
    const uint64_t patience = patience_with(session);
    const struct timeval time = {(time_t)(patience / SECOND), (suseconds_t)(patience % SECOND / 1000)};
    setsockopt(session->fd, SOL_SOCKET, SO_RCVTIMEO, &time, sizeof time);
}

/* Waits until the session expects no reply that is later in enum due than `most`. Returns false if a reply does not
 * arrive in time. */
static bool settle(struct session *session, enum due most) {
    while (session->due > most && session->fd >= 0) {
        if (!session_read(session, true)) {
            set_silent(session, true);
            return false;
        }
    }
    if (session->is_silent) {
        set_silent(session, false);
    }
    return true;
}

/* Waits for the verdict on a frame. Returns 0, or the errno of the refusal. */
static int verdict(struct session *session) {
    if (!settle(session, DUE_COUNTS)) {
        return refused(ETIMEDOUT, "the server does not reply");
    }
    /* The server's last message may contain the reason, for example too many sessions. So it is checked first. */
    int error = error_of(session->reply);
    return error ? error : session->due > DUE_COUNTS ? refused(ENXIO, "the server is gone") : 0;
}

/* Sends commands and waits for the reply `due`, which comes after them. First it waits for the reply to an earlier
 * command whose wait was given up. */
static int give(struct session *session, const char *text, size_t length, enum due due) {
    if (!settle(session, DUE_NOTHING)) {
        return refused(ETIMEDOUT, "the server does not reply");
    }
    session->reply[0] = 0;
    session->due = due;
    put_text(session, text, length);
    return verdict(session);
}

/* ---- frames that a program has sent through the lent session ---- */

bool session_brings_nothing(const struct session *session) {
    return session->fd >= 0 && session->is_local && session->given.filters == NO_FILTERS && !session->given.errors &&
           !session->have && !session->due && !session->is_counting && !session->is_silent;
}

void session_note_number(struct session *session, uint64_t number) {
    keep_number(session, number);
}

int session_take_over(struct session *session, const char *text, size_t length, bool is_new) {
    if (!length && !is_new) {
        set_silent(session, true); /* because the program has already waited for the reply */
    }
    memcpy(session->input, text, length);
    session->have = length;
    session->reply[0] = 0;
    session->due = DUE_VERDICT;
    handle_input(session);
    return verdict(session);
}

int session_command(struct session *session, const char *text) {
    char whole[LONGEST];
    int length = snprintf(whole, sizeof whole, "%s< echo >", text);
    return give(session, whole, (size_t)length, DUE_ECHO);
}

static const char stats[] = "< stats >";

int session_send(struct session *session, const struct canfd_frame *frame, bool is_fd, bool asks_counts) {
    char text[COMMAND + sizeof stats];
    message_of_frame(text, frame, is_fd);
    strcat(text, asks_counts ? stats : "");
    return give(session, text, strlen(text), asks_counts ? DUE_VERDICT_AND_COUNTS : DUE_VERDICT);
}

struct session *session_start(int *error) {
    struct address address;
    const char *text = getenv("CANBUSD_ADDRESS");
    struct session *session = calloc(1, sizeof *session);
    if (!session) {
        *error = refused(ENOMEM, "no memory for a session");
        return NULL;
    }
    session->given = (struct options){.loopback = 1};
    session->fd = -1;
    if (!address_read(text && *text ? text : ADDRESS_DEFAULT, &address)) {
        *error = refused(ENODEV, "CANBUSD_ADDRESS is no address");
    } else if ((session->fd = address_connect(&address)) < 0) {
        bool is_limit = errno == EMFILE || errno == ENFILE || errno == ENOMEM;
        *error = is_limit ? refused(errno, "the bridge of the socket has no descriptor, or memory, for the server")
                          : refused(ENODEV, "there is no server at CANBUSD_ADDRESS");
    } else {
        static uint32_t count;
        int domain = 0;
        session->number = ++count;
        getsockopt(session->fd, SOL_SOCKET, SO_DOMAIN, &domain, &(socklen_t){sizeof domain});
        session->is_local = domain == AF_UNIX;
        set_silent(session, false);
        *error = session_command(session, "");
        if (!*error && strcmp(session->reply, "hi") != 0) {
            *error = refused(ENODEV, "what listens at CANBUSD_ADDRESS is no canbusd");
        }
    }
    if (*error) {
        session_end(session);
        return NULL;
    }
    return session;
}

/* ---- counts ---- */

void session_ask_counts(struct session *session) {
    const ssize_t length = sizeof stats - 1;
    if (!session->is_counting && session->fd >= 0) {
        session->is_counting = send(session->fd, stats, (size_t)length, MSG_DONTWAIT | MSG_NOSIGNAL) == length;
    }
}

void session_ask_all(struct session *session) {
    session->is_asked = session->is_answered = false;
}

bool session_has_all(struct session *session) {
    if (!session->is_receiving) {
        return true;
    }
    if (!session->is_asked && !session->is_counting) {
        session_ask_counts(session);
        session->is_asked = session->is_counting;
    }
    return session->is_asked && session->is_answered && session->seen >= session->queued;
}

int session_look(struct session *session) {
    session->gone = UINT64_MAX;
    int error = session_command(session, stats);
    return error ? error : session->gone == UINT64_MAX ? refused(ENETDOWN, "the server has no counts") : 0;
}

bool session_has_room(struct session *session) {
    return settle(session, DUE_NOTHING) &&
           (!session->was_full || session->waiting + session->since < MAX(session->places, 1));
}
