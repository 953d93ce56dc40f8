/* The host of an interface: a process that all J1939 sockets of the interface share, with one session with the server.
 * The library starts the host for the first socket, and the bridges of the sockets connect to its abstract socket name.
 * The host exits after the last socket is closed. */
#define _GNU_SOURCE
#include "j1939_host.h"

#include <errno.h>
#include <poll.h>
#include <stddef.h>
#include <string.h>
#include <sys/socket.h>
#include <sys/un.h>
#include <time.h>
#include <unistd.h>

#define MEMBERS 1000
/* The size of the queue of received frames. Frames are queued because nothing can be sent while messages from the
 * server are being read. */
#define WAITING 8192
/* How many queries the server must answer before a transfer or a claim times out. A frame and the reply to it arrive
 * within that time, so a frame that was on the bus in time is not missed on a busy machine. */
#define ROUNDS 10
#define PAUSE MILLISECOND

static struct item waiting[WAITING];
static unsigned first_waiting, end_waiting;

/* ---- frames ---- */

static bool asks_for_claims(const struct wire_way *way, const uint8_t *data, size_t length) {
    return way->pgn == J1939_PGN_REQUEST && length >= 3 && number_at(data, 3) == J1939_PGN_ADDRESS_CLAIMED;
}

/* Checks the address claim of a socket, and removes any other address that the name had. */
static int resolve_claim(const struct wire_way *way, const uint8_t *data, size_t length) {
    uint64_t name = 0;
    memcpy(&name, data, MIN(length, sizeof name));
    if (length != sizeof name || name != way->name || way->from == J1939_NO_ADDR || way->to_name ||
        way->to != J1939_NO_ADDR) {
        return refused(EPROTO, "a claim has the 8 bytes of the socket's name, and goes to all");
    }
    return names_claim(name, way->from) ? 0 : refused(ENODEV, "the name is not known");
}

int host_resolve(struct wire_way *way, const uint8_t *data, size_t length) {
    if (way->pgn == J1939_PGN_ADDRESS_CLAIMED) {
        int error = resolve_claim(way, data, length);
        if (error) {
            return error;
        }
    } else if (way->name) {
        uint8_t address = names_address(way->name);
        if (!is_unicast(address) && !asks_for_claims(way, data, length)) {
            return refused(EADDRNOTAVAIL, "the socket's name has no address yet: it was not claimed for 250 ms");
        }
        way->from = address;
    }
    if (way->to_name) {
        uint8_t address = names_address(way->to_name);
        if (!is_unicast(address)) {
            return refused(EADDRNOTAVAIL, "nobody has claimed an address for the name of the destination");
        }
        way->to = address;
    }
    return 0;
}

int host_put(const struct wire_way *way, const uint8_t *data, size_t length, uint64_t *number) {
    struct session *to = sessions_for(bound_index);
    struct canfd_frame frame = {.len = (uint8_t)length};
    struct wire_way resolved = *way;
    resolved.pgn &= has_destination(way->pgn) ? J1939_PGN_PDU1_MAX : J1939_PGN_MAX;
    int error = to ? host_resolve(&resolved, data, length) : ENETDOWN;
    if (error) {
        return error;
    }
    canid_t priority = resolved.priority > 7 ? 6 : resolved.priority;
    frame.can_id = CAN_EFF_FLAG | priority << 26 | resolved.pgn << 8 | resolved.from;
    frame.can_id |= has_destination(resolved.pgn) ? (canid_t)resolved.to << 8 : 0;
    memcpy(frame.data, data, length);
    error = raw_send(to, &frame, false, NULL);
    if (!error && number) {
        *number = session_last_number(to);
    }
    return error;
}

/* Sets the names of a received frame's source and destination. An address claim contains the name of its sender; the
 * claimed address is recorded. */
static void name_heard(struct heard *heard) {
    struct wire_way *way = &heard->way;
    if (way->pgn != J1939_PGN_ADDRESS_CLAIMED) {
        way->name = names_at(way->from);
    } else if (heard->length == sizeof way->name) {
        memcpy(&way->name, heard->data, sizeof way->name);
        names_claimed(way->name, way->from, heard->moment);
    }
    way->to_name = names_at(way->to);
}

static void take_frame(const struct item *item) {
    canid_t id = item->frame.can_id;
    uint32_t pgn = id >> 8 & J1939_PGN_MAX;
    struct heard heard = {.is_frame = true, .moment = item->moment};
    if (!(id & CAN_EFF_FLAG) || id & (CAN_RTR_FLAG | CAN_ERR_FLAG) || item->is_fd || (uint8_t)id == J1939_NO_ADDR) {
        return;
    }
    heard.way.priority = id >> 26 & 7;
    heard.way.from = (uint8_t)id;
    heard.way.to = has_destination(pgn) ? (uint8_t)pgn : J1939_NO_ADDR;
    heard.way.pgn = has_destination(pgn) ? pgn & J1939_PGN_PDU1_MAX : pgn;
    heard.length = MIN(item->frame.len, sizeof heard.data);
    memcpy(heard.data, item->frame.data, heard.length);
    heard.is_from_us = names_are_local(heard.way.from);
    heard.is_to_us = names_are_local(heard.way.to);
    bool is_own = item->message_flags & MSG_CONFIRM;
    heard.sender = is_own ? transfers_echo(item->number) : NULL;
    heard.is_local = heard.sender || (item->message_flags & MSG_DONTROUTE && !is_own);
    names_expire(item->moment);
    name_heard(&heard);
    if (transfers_take(&heard)) {
        return;
    }
    if (is_own) {
        transfers_sent(item->number);
    }
    members_deliver(&heard.way, heard.data, heard.length, &heard);
}

static void host_receive(const struct item *item, int index) {
    (void)index;
    if (end_waiting - first_waiting < WAITING) {
        waiting[end_waiting++ % WAITING] = *item;
    }
}

static uint64_t moment;

uint64_t host_moment(void) {
    struct timespec now;
    clock_gettime(CLOCK_REALTIME, &now);
    return moment ? moment : (uint64_t)now.tv_sec * SECOND + (uint64_t)now.tv_nsec;
}

static void take_waiting(void) {
    while (first_waiting != end_waiting) {
        struct item item = waiting[first_waiting++ % WAITING];
        moment = item.moment;
        take_frame(&item);
    }
    moment = 0;
}

/* ---- time ---- */

/* All frames that were on the bus before this time have been handled. */
static uint64_t known;

/* Requests the frames up to now from the server. Returns after how many nanoseconds to call it again. */
static int64_t learn(uint64_t now) {
    static uint64_t asked_at;
    static unsigned rounds;
    if (!rounds) {
        asked_at = now;
    }
    if (!rounds || session_has_all(sessions[0])) {
        if (rounds == ROUNDS) {
            rounds = 0;
            known = asked_at;
            return 0;
        }
        rounds++;
        session_ask_all(sessions[0]);
    }
    if (now - asked_at > PATIENCE * SECOND) {
        rounds = 0; /* Give up waiting for a server that does not reply. */
        known = now;
        return 0;
    }
    return session_has_all(sessions[0]) ? 0 : sessions[0]->is_asked ? (int64_t)SECOND : (int64_t)PAUSE;
}

/* Does the work that is due. Returns the nanoseconds until more work is due, or -1. */
static int64_t host_due(void) {
    while (session_count) {
        take_waiting();
        uint64_t now = clock_now(), names = names_due(known), next = MIN(names, transfers_due(now, known));
        if (first_waiting != end_waiting) {
            continue;
        }
        if (next > now) {
            return next == NEVER ? -1 : (int64_t)(next - now);
        }
        int64_t pause = learn(now);
        if (pause) {
            return pause;
        }
    }
    return -1;
}

void host_settle_claims(void) {
    uint64_t now = clock_now();
    while (session_count && sessions[0]->fd >= 0 && names_due(known) <= now) {
        struct pollfd polled = {sessions[0]->fd, POLLIN, 0};
        int64_t pause = learn(clock_now());
        if (pause &&
            ppoll(&polled, 1, &(struct timespec){pause / (int64_t)SECOND, pause % (int64_t)SECOND}, NULL) > 0) {
            session_read(sessions[0], false);
        }
        take_waiting();
    }
}

/* ---- the process ---- */

static const struct protocol host_protocol = {.receive = host_receive, .due = host_due};

bool host_is_asked(void) {
    struct sockaddr_un name = {0};
    socklen_t length = sizeof name;
    return !getsockname(PROGRAM, (struct sockaddr *)&name, &length) && name.sun_family == AF_UNIX &&
           length > offsetof(struct sockaddr_un, sun_path) + sizeof J1939_NAME &&
           !memcmp(name.sun_path + 1, J1939_NAME, sizeof J1939_NAME - 1);
}

/* Returns the index of the interface that is named in the last part of the socket's name. */
static int interface_asked(void) {
    struct sockaddr_un name = {0};
    socklen_t length = sizeof name - 1;
    getsockname(PROGRAM, (struct sockaddr *)&name, &length);
    const char *slash = strrchr(name.sun_path + 1, '/');
    return slash ? interface_index(slash + 1) : 0;
}

/* The listening socket to which bridges connect, or -1 after the last bridge has disconnected. */
static int door = PROGRAM;

void host_close(void) {
    if (door >= 0) {
        close(door);
    }
    door = -1;
}

/* Opens a session on the interface. It receives all extended frames, including those that the host sends. */
static int open_interface(void) {
    const struct can_filter all = {CAN_EFF_FLAG, CAN_EFF_FLAG | CAN_RTR_FLAG};
    raw_want_own();
    int error = raw_want(&all, 1);
    return error ? error : sessions_bind(interface_asked());
}

/* Accepts a bridge's connection, but only from the user who started this process. */
static void let_in(void) {
    struct ucred peer = {0};
    int fd = accept4(door, NULL, NULL, SOCK_CLOEXEC | SOCK_NONBLOCK);
    if (fd < 0) {
        return;
    }
    bool is_known = !getsockopt(fd, SOL_SOCKET, SO_PEERCRED, &peer, &(socklen_t){sizeof peer}) && peer.uid == geteuid();
    if (!is_known || member_count == MEMBERS) {
        close(fd);
        return;
    }
    int room = 2 * WIRE_LARGEST_J1939;
    setsockopt(fd, SOL_SOCKET, SO_SNDBUF, &room, sizeof room);
    member_add(fd);
}

static void refuse_all(int error) {
    const struct j1939_told told = {.kind = TOLD_REPLY, .error = error};
    struct pollfd polled = {PROGRAM, POLLIN, 0};
    if (poll(&polled, 1, PATIENCE * 1000) > 0) {
        let_in();
    }
    host_close();
    if (members) {
        member_tell(members, &told, refusal, strlen(refusal));
        polled = (struct pollfd){members->fd, POLLIN | POLLRDHUP, 0};
        poll(&polled, 1, PATIENCE * 1000);
    }
}

/* Waits for input and handles it. */
static void wait_for_all(int64_t nanoseconds) {
    static struct pollfd polled[2 + MEMBERS];
    struct timespec left = {nanoseconds / (int64_t)SECOND, nanoseconds % (int64_t)SECOND};
    nfds_t count = 2;
    polled[0] = (struct pollfd){door, POLLIN, 0};
    polled[1] = (struct pollfd){sessions[0]->fd, POLLIN, 0};
    for (struct member *member = members; member; member = member->next) {
        polled[count++] = (struct pollfd){member->fd, (short)(POLLIN | (member->backlog ? POLLOUT : 0)), 0};
    }
    if (ppoll(polled, count, nanoseconds < 0 ? NULL : &left, NULL) <= 0) {
        return;
    }
    if (polled[1].revents) {
        session_read(sessions[0], false);
    }
    struct member *next = members;
    for (nfds_t i = 2; i < count; i++) {
        struct member *member = next;
        next = member->next;
        if (polled[i].revents & POLLOUT) {
            member_flush(member);
        }
        if (polled[i].revents & ~POLLOUT) {
            member_serve(member);
        }
    }
    if (polled[0].revents) {
        let_in();
    }
}

/* Waits until the remaining transfers have ended. If a message was being received when the last socket was closed, it
 * is abandoned only after its timeout, as in the kernel. */
static void end_transfers(void) {
    while (!members && transfers_go_on() && !sessions_ended()) {
        first_waiting = end_waiting;
        wait_for_all(host_due());
    }
}

int host_run(void) {
    protocol = &host_protocol;
    close(WIRE_MEMORY);
    int error = open_interface();
    if (error) {
        refuse_all(error);
        return 0;
    }
    uint64_t until = clock_now() + PATIENCE * SECOND;
    for (bool has_begun = false; members || (!has_begun && clock_now() < until); has_begun |= members != NULL) {
        int64_t due = host_due();
        if (sessions_ended()) {
            break;
        }
        wait_for_all(members || (due >= 0 && due < (int64_t)SECOND) ? due : (int64_t)SECOND);
    }
    host_close();
    end_transfers();
    while (members) {
        member_tell(members, &(struct j1939_told){.kind = TOLD_GONE}, NULL, 0);
        member_remove(members);
    }
    sessions_leave();
    return 0;
}
