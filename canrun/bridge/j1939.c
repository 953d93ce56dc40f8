/* CAN_J1939: the options, addresses and requests of a socket. */
#include "j1939.h"

#include <errno.h>
#include <linux/net_tstamp.h>
#include <stdlib.h>
#include <string.h>
#include <sys/socket.h>

static struct j1939_socket own = {.pgn = J1939_NO_PGN, .from = J1939_NO_ADDR, .to = J1939_NO_ADDR};
static int own_index;               /* the interface that the socket is bound to */
static uint32_t pgn = J1939_NO_PGN; /* the PGN of a message whose address contains no PGN */
static uint8_t priority = 6;
static struct j1939_filter *filters;
static size_t filter_count;

/* ---- addresses ---- */

/* Returns false if a PGN contains a destination byte that is not 0. */
static bool is_clean(uint32_t number) {
    return !is_pgn(number) || !has_destination(number) || !(number & 0xff);
}

static int check_address(const struct sockaddr_can *address) {
    if (!address->can_ifindex) {
        return refused(ENODEV, "CAN_J1939 is bound to one interface");
    }
    return is_clean(address->can_addr.j1939.pgn) ? 0 : refused(EINVAL, "the group has a destination in its number");
}

/* Sends the address and filters of the socket to the host. */
static int change(void) {
    const struct j1939_ask ask = {.kind = ASK_CHANGE, .socket = own};
    return link_fd() < 0 ? 0 : link_ask(&ask, filters, filter_count * sizeof *filters);
}

/* Binds the socket in the host. A host that is just exiting counts as no host. */
static int join(int index) {
    char name[IFNAMSIZ];
    if (!interface_name(index, name)) {
        return refused(ENODEV, "no interface has this index");
    }
    int error = link_fd() < 0 ? refused(ECONNREFUSED, "the host of the interface is gone") : 0;
    if (error) {
        return error;
    }
    error = link_ask(&(struct j1939_ask){.kind = ASK_BIND, .socket = own}, NULL, 0);
    error = error ? error : change();
    if (error && !own_index) {
        link_close();
    }
    return error == ECONNRESET ? ECONNREFUSED : error;
}

static int j1939_bind(const struct sockaddr_can *address) {
    struct j1939_socket before = own;
    int error = check_address(address);
    if (error) {
        return error;
    }
    if (own_index && own_index != address->can_ifindex) {
        return refused(EINVAL, "the socket is bound to another interface");
    }
    own.pgn = is_pgn(address->can_addr.j1939.pgn) ? address->can_addr.j1939.pgn : own.pgn;
    own.name = address->can_addr.j1939.name;
    own.from = address->can_addr.j1939.addr;
    error = join(address->can_ifindex);
    if (error) {
        own = before;
        return error;
    }
    own_index = address->can_ifindex;
    return 0;
}

static int j1939_connect(const struct sockaddr_can *address) {
    int error = check_address(address);
    if (error) {
        return error;
    }
    if (!own_index || own_index != address->can_ifindex) {
        return refused(EINVAL, "bind comes first, to the same interface");
    }
    if (!address->can_addr.j1939.name && address->can_addr.j1939.addr == J1939_NO_ADDR && !own.is_broadcast) {
        return refused(EACCES, "SO_BROADCAST is off");
    }
    own.to_name = address->can_addr.j1939.name;
    own.to = address->can_addr.j1939.addr;
    own.is_connected = true;
    pgn = is_pgn(address->can_addr.j1939.pgn) ? address->can_addr.j1939.pgn : pgn;
    return change();
}

static int j1939_getname(struct sockaddr_can *address, bool is_peer) {
    address->can_ifindex = own_index;
    address->can_addr.j1939.pgn = pgn;
    address->can_addr.j1939.name = is_peer ? own.to_name : own.name;
    address->can_addr.j1939.addr = is_peer ? own.to : own.from;
    return is_peer && !own.is_connected ? refused(EADDRNOTAVAIL, "the socket is not connected") : 0;
}

/* ---- options ---- */

static int set_filters(const void *value, size_t length) {
    if (length % sizeof *filters || length / sizeof *filters > J1939_FILTER_MAX) {
        return refused(EINVAL, "these are no filters, or more than 512");
    }
    struct j1939_filter *fresh = malloc(length + 1);
    if (!fresh) {
        return refused(ENOMEM, "no memory for filters");
    }
    memcpy(fresh, value, length);
    free(filters);
    filters = fresh;
    filter_count = length / sizeof *filters;
    return change();
}

static int j1939_setsockopt(int option, const void *value, size_t length) {
    int number = 0;
    if (option == SO_J1939_FILTER) {
        return set_filters(value, length);
    }
    if (option != SO_J1939_PROMISC && option != SO_J1939_ERRQUEUE && option != SO_J1939_SEND_PRIO) {
        return refused(ENOPROTOOPT, "linux/can/j1939.h has no such option");
    }
    if (length != sizeof number) {
        return refused(EINVAL, "the value has the wrong length");
    }
    memcpy(&number, value, sizeof number);
    if (option == SO_J1939_PROMISC) {
        own.is_promiscuous = number != 0;
        return change();
    }
    if (option == SO_J1939_ERRQUEUE) {
        errors_are_on = number != 0;
        if (!errors_are_on) {
            errors_clear();
        }
        return 0;
    }
    if (number < 0 || number > 7) {
        return refused(EDOM, "priorities are 0 to 7");
    }
    priority = (uint8_t)number;
    return 0;
}

static int j1939_getsockopt(int option, void *room, uint32_t *length) {
    int number = option == SO_J1939_PROMISC     ? own.is_promiscuous
                 : option == SO_J1939_ERRQUEUE  ? errors_are_on
                 : option == SO_J1939_SEND_PRIO ? priority
                                                : -1;
    memcpy(room, &number, sizeof number);
    *length = sizeof number;
    return number < 0 ? refused(ENOPROTOOPT, "linux/can/j1939.h has no such option to be read") : 0;
}

static bool set_socket(int option, int number) {
    switch (option) {
    case SO_BROADCAST:
        own.is_broadcast = number != 0;
        change();
        return true;
    case SO_PRIORITY: priority = (uint8_t)(7 - MIN(MAX(number, 0), 7)); return true;
    case SO_SNDBUF:
    case SO_SNDBUFFORCE: writes_set_room(number); return true;
    case SO_RCVBUF:
    case SO_RCVBUFFORCE: outbox_set(option, MAX(number, 2 * WIRE_LARGEST_J1939)); return true;
    case SO_TIMESTAMPING_OLD:
    case SO_TIMESTAMPING_NEW:
        if (number & ~errors_wanted & SOF_TIMESTAMPING_OPT_ID) {
            writes_count_anew();
        }
        errors_wanted = (uint32_t)number;
        return false;
    default: return false;
    }
}

/* ---- writes ---- */

/* Checks a write before all other checks. */
static int check_write(const struct wire_j1939 *head) {
    const struct sockaddr_can *to = &head->address;
    bool is_to_all = head->has_address ? !to->can_addr.j1939.name && to->can_addr.j1939.addr == J1939_NO_ADDR
                                       : !own.to_name && own.to == J1939_NO_ADDR;
    if (!own_index || (!own.name && own.from == J1939_NO_ADDR)) {
        return refused(EBADFD, "the socket has no address");
    }
    if (head->has_address && head->address_length < J1939_ADDRESS) {
        return refused(EINVAL, "the address is too short");
    }
    if (head->has_address && to->can_family != AF_CAN) {
        return refused(EINVAL, "the address is not of AF_CAN");
    }
    if (head->has_address && to->can_ifindex && to->can_ifindex != own_index) {
        return refused(EBADFD, "the socket is bound to another interface");
    }
    if (head->has_address && !is_clean(to->can_addr.j1939.pgn)) {
        return refused(EINVAL, "the group has a destination in its number");
    }
    return is_to_all && !own.is_broadcast ? refused(EACCES, "SO_BROADCAST is off") : 0;
}

static struct wire_way way_of(const struct wire_j1939 *head) {
    const struct sockaddr_can *to = &head->address;
    struct wire_way way = {
        .name = own.name, .to_name = own.to_name, .pgn = pgn, .from = own.from, .to = own.to, .priority = priority};
    if (head->has_address && (to->can_addr.j1939.name || to->can_addr.j1939.addr != J1939_NO_ADDR)) {
        way.to_name = to->can_addr.j1939.name;
        way.to = to->can_addr.j1939.addr;
    }
    if (head->has_address && is_pgn(to->can_addr.j1939.pgn)) {
        way.pgn = to->can_addr.j1939.pgn;
    }
    return way;
}

static int j1939_sendmsg(const struct wire_request *request, const char *data, size_t length, int reply_to,
                         struct wire_reply *reply) {
    struct wire_j1939 head = {.size = (uint32_t)length};
    if (reply_to != NOBODY && length >= sizeof head) {
        memcpy(&head, data, sizeof head);
        data += sizeof head;
        length -= sizeof head;
    }
    reply->value = (int)length;
    int error = request->option ? 0 : check_write(&head);
    if (error) {
        return error;
    }
    struct wire_way way = way_of(&head);
    return writes_add(request, &way, head.size, data, length, reply_to);
}

/* ---- messages from the host ---- */

/* The maximum number of received messages without data that are kept. Their datagrams are empty, so the library
 * requests their source and destination. */
#define EMPTIES 64
static struct wire_empty empties[EMPTIES];
static unsigned first_empty, empty_count;

static void take_message(const struct j1939_told *told, const char *data, size_t length) {
    const uint32_t stamps = SOF_TIMESTAMPING_SOFTWARE | SOF_TIMESTAMPING_RX_SOFTWARE;
    struct wire_note note = {.nanoseconds = told->moment, .message_flags = told->flags};
    note.ifindex = told->is_frame ? own_index : 0;
    note.is_stamped = told->is_frame && (errors_wanted & stamps) == stamps;
    if (length) {
        outbox_put_way(data, length, &note, &told->notice.way);
    } else if (empty_count < EMPTIES) {
        empties[(first_empty + empty_count++) % EMPTIES] = (struct wire_empty){note, told->notice.way};
        outbox_ring();
    }
}

/* Called when the server or the host is gone. The socket then has an error and is no longer bound. */
static void leave(void) {
    link_close();
    if (own_index) {
        own_index = 0;
        error_change(ENODEV);
        writes_leave();
    }
}

static void take_told(const struct j1939_told *told, const char *data, size_t length) {
    struct wire_notice notice = told->notice;
    switch (told->kind) {
    case TOLD_MESSAGE: take_message(told, data, length); break;
    case TOLD_NOTICE:
        notice.key = writes_number(&notice);
        errors_put(&notice);
        break;
    case TOLD_ERROR:
        if (!errors_are_on) {
            error_change(told->error);
        }
        break;
    case TOLD_FREED: writes_free(told->size); break;
    case TOLD_ENDED: writes_end(told->key); break;
    case TOLD_GONE: leave(); break;
    default: break;
    }
}

static int64_t j1939_due(void) {
    struct j1939_told told;
    const char *data;
    size_t length;
    while (link_take(&told, &data, &length)) {
        take_told(&told, data, length);
    }
    writes_go_on();
    outbox_flush();
    errors_show();
    if (link_fd() >= 0 && !writes_are_pending() && program_is_gone()) {
        link_ask(&(struct j1939_ask){.kind = ASK_LEAVE}, NULL, 0);
        link_close();
    }
    return -1;
}

/* Makes the socket's buffer large enough for the longest message. */
static void open_socket(void) {
    const int room = WIRE_LARGEST_J1939;
    setsockopt(PROGRAM, SOL_SOCKET, SO_SNDBUF, &room, sizeof room);
    outbox_keep_ways();
}

/* A close also waits until the host has removed the socket. */
static bool j1939_is_busy(void) {
    return link_fd() >= 0;
}

static int j1939_request(const struct wire_request *request, int reply_to, struct wire_reply *reply, char *data) {
    struct sockaddr_un name;
    struct wire_notice notice = {0};
    socklen_t length;
    int error;
    switch (request->kind) {
    case WIRE_WATCH:
        if (request->number) {
            return errors_watch(reply_to);
        }
        reply->value = errors_are_there();
        return 0;
    case WIRE_SOCKET_GET: reply->value = writes_room(); return 0;
    case WIRE_NOTICE:
        reply->value = (errors_take(&notice) ? NOTICE_IS_THERE : 0) | (empty_count ? NOTICE_KEEPS : 0);
        reply->length = sizeof notice;
        memcpy(data, &notice, sizeof notice);
        return 0;
    case WIRE_EMPTY:
        reply->value = empty_count > 0;
        if (empty_count) {
            memcpy(data, &empties[first_empty], reply->length = sizeof *empties);
            first_empty = (first_empty + 1) % EMPTIES;
            empty_count--;
        }
        return 0;
    case WIRE_HOST:
        error = link_fd() < 0 ? link_open(request->ifindex, &name, &length) : 0;
        if (error == ECONNREFUSED) {
            memcpy(data, &name, reply->length = length);
        }
        /* All other errors of this interface index are reported by the bind request. */
        return error == EACCES || error == EMFILE ? error : 0;
    default: return refused(EINVAL, "library and bridge are not of the same version");
    }
}

const struct protocol j1939_protocol = {
    .is_full = writes_are_full,
    .open = open_socket,
    .bind = j1939_bind,
    .connect = j1939_connect,
    .getname = j1939_getname,
    .setsockopt = j1939_setsockopt,
    .getsockopt = j1939_getsockopt,
    .set_socket = set_socket,
    .sendmsg = j1939_sendmsg,
    .request = j1939_request,
    .cancel = writes_cancel,
    .due = j1939_due,
    .is_busy = j1939_is_busy,
    .takes_requests = writes_have_place,
    .descriptor = link_fd,
};
