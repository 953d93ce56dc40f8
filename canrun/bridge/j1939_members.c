/* The J1939 sockets of an interface. The host has a connection to the bridge of each socket. */
#define _GNU_SOURCE
#include "j1939_host.h"

#include <errno.h>
#include <stdlib.h>
#include <string.h>
#include <sys/socket.h>
#include <sys/uio.h>
#include <unistd.h>

/* The maximum number of messages that wait for a bridge that does not read. Further messages are lost, as with a socket
 * whose buffer is full. */
#define BACKLOG 1024

struct member *members;
unsigned member_count;

struct told {
    struct told *next;
    struct j1939_told head;
    size_t length;
    char data[];
};

void member_add(int fd) {
    struct member *member = calloc(1, sizeof *member), **last = &members;
    if (!member) {
        close(fd);
        return;
    }
    member->fd = fd;
    while (*last) {
        last = &(*last)->next;
    }
    *last = member;
    member_count++;
}

/* Unbinds the socket and abandons its messages. */
static void unbind(struct member *member) {
    queue_leave(member);
    if (member->is_bound) {
        names_release(member->socket.name, member->socket.from);
    }
    member->is_bound = false;
}

void member_remove(struct member *member) {
    struct member **place = &members;
    unbind(member);
    while (*place != member) {
        place = &(*place)->next;
    }
    *place = member->next;
    member_count--;
    while (member->backlog) {
        struct told *first = member->backlog;
        member->backlog = first->next;
        free(first);
    }
    close(member->fd);
    free(member->filters);
    free(member);
}

/* ---- messages to a bridge ---- */

static bool put(const struct member *member, const struct j1939_told *told, const void *data, size_t length) {
    struct iovec parts[] = {{(void *)told, sizeof *told}, {(void *)data, length}};
    struct msghdr message = {.msg_iov = parts, .msg_iovlen = 2};
    return sendmsg(member->fd, &message, MSG_DONTWAIT | MSG_NOSIGNAL) >= 0 || errno != EAGAIN;
}

void member_tell(struct member *member, const struct j1939_told *told, const void *data, size_t length) {
    struct told **last = &member->backlog;
    unsigned count = 0;
    if (!*last && put(member, told, data, length)) {
        return;
    }
    for (; *last; last = &(*last)->next) {
        count++;
    }
    struct told *kept = count < BACKLOG || told->kind != TOLD_MESSAGE ? malloc(sizeof *kept + length) : NULL;
    if (kept) {
        *kept = (struct told){NULL, *told, length};
        if (length) {
            memcpy(kept->data, data, length);
        }
        *last = kept;
    }
}

void member_tell_freed(struct member *member, uint32_t length) {
    do {
        struct j1939_told told = {.kind = TOLD_FREED, .size = MIN(length, SEGMENT)};
        member_tell(member, &told, NULL, 0);
        length -= told.size;
    } while (length);
}

void member_flush(struct member *member) {
    for (struct told *first; (first = member->backlog) && put(member, &first->head, first->data, first->length);) {
        member->backlog = first->next;
        free(first);
    }
}

static void reply(struct member *member, int error) {
    struct j1939_told told = {.kind = TOLD_REPLY, .error = error};
    member_tell(member, &told, refusal, error ? strlen(refusal) : 0);
}

/* ---- requests from a bridge ---- */

static int bind_member(struct member *member, const struct j1939_socket *socket) {
    if (member->is_bound) {
        names_release(member->socket.name, member->socket.from);
    }
    member->socket = *socket;
    int error = names_use(socket->name, socket->from);
    member->is_bound = !error;
    return error;
}

static int change_member(struct member *member, const struct j1939_socket *socket, const void *data, size_t length) {
    struct j1939_filter *filters = malloc(length + 1);
    if (!filters) {
        return refused(ENOMEM, "no memory for filters");
    }
    memcpy(filters, data, length);
    free(member->filters);
    member->filters = filters;
    member->filter_count = length / sizeof *filters;
    member->socket = *socket;
    return 0;
}

static int send_of(struct member *member, const struct j1939_ask *ask, const void *data, size_t length) {
    if (ask->is_first) {
        host_settle_claims();
        return queue_send(member, ask, data, MIN(length, ask->size));
    }
    queue_fill(member, ask->key, data, length);
    return 0;
}

/* Handles a socket that leaves. For the last socket, it first closes the listening socket, so that a later socket does
 * not get this host with its outdated tables. */
static void leave(struct member *member) {
    unbind(member);
    if (member_count == 1) {
        host_close();
    }
    reply(member, 0);
}

void member_serve(struct member *member) {
    static char data[WIRE_LARGEST];
    struct j1939_ask ask;
    struct iovec parts[] = {{&ask, sizeof ask}, {data, sizeof data}};
    ssize_t length = recvmsg(member->fd, &(struct msghdr){.msg_iov = parts, .msg_iovlen = 2}, MSG_DONTWAIT);
    if (length < 0 && (errno == EAGAIN || errno == EINTR)) {
        return;
    }
    if (length < (ssize_t)sizeof ask) {
        member_remove(member);
        return;
    }
    size_t rest = (size_t)length - sizeof ask;
    switch (ask.kind) {
    case ASK_BIND: reply(member, bind_member(member, &ask.socket)); break;
    case ASK_CHANGE: reply(member, change_member(member, &ask.socket, data, rest)); break;
    case ASK_SEND: reply(member, send_of(member, &ask, data, rest)); break;
    default: leave(member);
    }
}

/* ---- which messages a socket receives ---- */

static bool is_to(const struct j1939_socket *socket, const struct wire_way *way) {
    if (socket->name && way->to_name) {
        return socket->name == way->to_name;
    }
    return is_unicast(way->to) ? socket->from == way->to : socket->is_broadcast;
}

static bool is_from_peer(const struct j1939_socket *socket, const struct wire_way *way) {
    return socket->to_name && way->name ? socket->to_name == way->name : socket->to == way->from;
}

static bool passes(const struct member *member, const struct wire_way *way) {
    for (size_t i = 0; i < member->filter_count; i++) {
        const struct j1939_filter *one = &member->filters[i];
        if ((way->pgn & one->pgn_mask) == (one->pgn & one->pgn_mask) &&
            (way->from & one->addr_mask) == (one->addr & one->addr_mask) &&
            (way->name & one->name_mask) == (one->name & one->name_mask)) {
            return true;
        }
    }
    return !member->filter_count;
}

bool member_wants(const struct member *member, const struct wire_way *way) {
    const struct j1939_socket *socket = &member->socket;
    bool is_for_it =
        socket->is_promiscuous || (is_to(socket, way) && (!socket->is_connected || is_from_peer(socket, way)) &&
                                   (!is_pgn(socket->pgn) || socket->pgn == way->pgn));
    return member->is_bound && is_for_it && passes(member, way);
}

bool members_want(const struct wire_way *way) {
    const struct member *member = members;
    while (member && !member_wants(member, way)) {
        member = member->next;
    }
    return member;
}

void members_deliver(const struct wire_way *way, const void *data, size_t length, const struct heard *heard) {
    struct j1939_told told = {.kind = TOLD_MESSAGE, .moment = heard->moment, .notice = {.way = *way}};
    told.is_frame = heard->is_frame;
    told.flags = heard->is_local ? MSG_DONTROUTE : 0;
    told.size = (uint32_t)length;
    for (struct member *member = members; member; member = member->next) {
        if (member != heard->sender && member_wants(member, way)) {
            member_tell(member, &told, data, length);
        }
    }
}
