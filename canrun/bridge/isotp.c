/* CAN_ISOTP (ISO 15765-2): the options of a socket, and the program's writes to it. */
#include "isotp.h"

#include <errno.h>
#include <stdlib.h>
#include <string.h>
#include <sys/socket.h>

/* The size of the queue of received frames. Frames are queued because nothing can be sent while messages from the
 * server are being read. One read returns at most 1,024 frames. */
#define WAITING 8192

struct isotp isotp = {
    .options = {.txpad_content = CAN_ISOTP_DEFAULT_PAD_CONTENT,
                .rxpad_content = CAN_ISOTP_DEFAULT_PAD_CONTENT,
                .frame_txtime = CAN_ISOTP_DEFAULT_FRAME_TXTIME},
    .frame_txtime = CAN_ISOTP_DEFAULT_FRAME_TXTIME,
    .link = {.mtu = CAN_ISOTP_DEFAULT_LL_MTU, .tx_dl = CAN_ISOTP_DEFAULT_LL_TX_DL},
};

static struct item waiting[WAITING];
static unsigned first_waiting, end_waiting;

/* The reply pipe of the write that is waiting for its message to be sent, or NOBODY. */
static int waits_for_end = NOBODY;
static size_t sent_length;

/* The writes that wait until an earlier message has been sent, oldest first. */
#define TURNS 64
struct turn {
    struct turn *next;
    int reply_to;
    size_t length;
    char data[];
};
static struct turn *turns;
static unsigned turn_count;

/* ---- functions for the other files ---- */

unsigned isotp_address_size(void) {
    return isotp.options.flags & CAN_ISOTP_EXTEND_ADDR ? 1 : 0;
}

unsigned isotp_padded(unsigned length) {
    return length < CAN_MAX_DLEN ? CAN_MAX_DLEN : fd_length(length);
}

uint32_t isotp_broadcast(void) {
    return isotp.options.flags & ALL_BROADCAST;
}

bool isotp_is_well_padded(const struct canfd_frame *frame, unsigned from) {
    uint32_t flags = isotp.options.flags;
    if (!(flags & (CAN_ISOTP_CHK_PAD_LEN | CAN_ISOTP_CHK_PAD_DATA))) {
        return true;
    }
    if (!(flags & CAN_ISOTP_RX_PADDING)) {
        unsigned shortest = frame->len > CAN_MAX_DLEN ? isotp_padded(from) : from;
        return flags & CAN_ISOTP_CHK_PAD_LEN && frame->len == shortest;
    }
    if (flags & CAN_ISOTP_CHK_PAD_LEN && frame->len != isotp_padded(frame->len)) {
        return false;
    }
    for (unsigned i = from; flags & CAN_ISOTP_CHK_PAD_DATA && i < frame->len; i++) {
        if (frame->data[i] != isotp.options.rxpad_content) {
            return false;
        }
    }
    return true;
}

int isotp_put(const struct canfd_frame *frame, void (*done)(const struct later *later, int error)) {
    struct session *to = sessions_for(bound_index);
    struct canfd_frame sent = *frame;
    struct later later = {.done = done, .reply_to = NOBODY};
    sent.flags = isotp.link.tx_flags;
    return to ? raw_send(to, &sent, isotp.link.mtu == CANFD_MTU, raw_waits() ? &later : NULL) : ENXIO;
}

uint64_t isotp_last_number(void) {
    return session_last_number(sessions_for(bound_index));
}

/* ---- options ---- */

/* Returns a pointer to the variable of an option, and sets `size` to the variable's size. */
static void *place_of(int option, size_t *size) {
    switch (option) {
    case CAN_ISOTP_OPTS: *size = sizeof isotp.options; return &isotp.options;
    case CAN_ISOTP_RECV_FC: *size = sizeof isotp.flow; return &isotp.flow;
    case CAN_ISOTP_TX_STMIN: *size = sizeof isotp.tx_stmin; return &isotp.tx_stmin;
    case CAN_ISOTP_RX_STMIN: *size = sizeof isotp.rx_stmin; return &isotp.rx_stmin;
    case CAN_ISOTP_LL_OPTS: *size = sizeof isotp.link; return &isotp.link;
    default: return NULL;
    }
}

static bool is_good_link(const struct can_isotp_ll_options *link) {
    if (link->tx_dl != isotp_padded(link->tx_dl)) {
        return false;
    }
    return link->mtu == CANFD_MTU || (link->mtu == CAN_MTU && link->tx_dl == CAN_MAX_DLEN && !link->tx_flags);
}

static int set_options(struct can_isotp_options *options) {
    if (!(options->flags & CAN_ISOTP_RX_EXT_ADDR)) {
        options->rx_ext_address = options->ext_address;
    }
    if (options->frame_txtime) {
        isotp.frame_txtime = options->frame_txtime == CAN_ISOTP_FRAME_TXTIME_ZERO ? 0 : options->frame_txtime;
    }
    if (isotp_broadcast() == ALL_BROADCAST) {
        options->flags &= ~CAN_ISOTP_CF_BROADCAST;
        return refused(EINVAL, "to all, a message has one frame or several, and not both");
    }
    return 0;
}

static int isotp_setsockopt(int option, const void *value, size_t length) {
    size_t size = 0;
    void *place = place_of(option, &size);
    struct can_isotp_ll_options link;
    if (is_bound) {
        return refused(EISCONN, "options come before bind");
    }
    if (!place) {
        return refused(ENOPROTOOPT, "linux/can/isotp.h has no such option, or canbusd has it not");
    }
    if (length != size) {
        return refused(EINVAL, "the value has the wrong length");
    }
    if (option == CAN_ISOTP_LL_OPTS) {
        memcpy(&link, value, sizeof link);
        if (!is_good_link(&link)) {
            return refused(EINVAL, "no frame has this size");
        }
    }
    memcpy(place, value, size);
    return option == CAN_ISOTP_OPTS ? set_options(&isotp.options) : 0;
}

static int isotp_getsockopt(int option, void *room, uint32_t *length) {
    size_t size = 0;
    const void *place = place_of(option, &size);
    if (!place) {
        return refused(ENOPROTOOPT, "linux/can/isotp.h has no such option, or canbusd has it not");
    }
    memcpy(room, place, size);
    *length = (uint32_t)size;
    return 0;
}

/* Returns whether the value is an identifier without other bits. */
static bool is_identifier(canid_t id) {
    return id == (id & (id & CAN_EFF_FLAG ? CAN_EFF_FLAG | CAN_EFF_MASK : CAN_SFF_MASK));
}

/* Returns a filter that passes only frames with this identifier. */
static struct can_filter only(canid_t id) {
    canid_t mask = (id & CAN_EFF_FLAG ? CAN_EFF_MASK : CAN_SFF_MASK) | CAN_EFF_FLAG | CAN_RTR_FLAG;
    return (struct can_filter){id, mask};
}

static int isotp_bind(const struct sockaddr_can *address) {
    canid_t rx_id = address->can_addr.tp.rx_id, tx_id = address->can_addr.tp.tx_id;
    bool is_to_all = isotp_broadcast();
    if (!is_identifier(tx_id) || (!is_to_all && !is_identifier(rx_id))) {
        return refused(EINVAL, "an identifier has too many bits");
    }
    if (!address->can_ifindex) {
        return refused(ENODEV, "CAN_ISOTP is bound to one interface");
    }
    if (is_bound) {
        return refused(EINVAL, "the socket is bound already");
    }
    if (!is_to_all && rx_id == tx_id) {
        return refused(EADDRNOTAVAIL, "both identifiers are the same");
    }
    isotp.rx_id = rx_id;
    isotp.tx_id = tx_id;
    /* The socket also receives its own frames, after they were sent on the bus. */
    struct can_filter wanted[] = {only(tx_id), only(rx_id)};
    int error = raw_want(wanted, is_to_all ? 1 : 2);
    raw_want_fd(isotp.link.mtu == CANFD_MTU);
    raw_want_own();
    return error ? error : sessions_bind(address->can_ifindex);
}

static int isotp_getname(struct sockaddr_can *address, bool is_peer) {
    address->can_addr.tp.rx_id = isotp.rx_id;
    address->can_addr.tp.tx_id = isotp.tx_id;
    return is_peer ? refused(EOPNOTSUPP, "a socket of CAN_ISOTP has no peer") : 0;
}

/* ---- messages ---- */

static void isotp_receive(const struct item *item, int index) {
    (void)index;
    if (item->is_fd == (isotp.link.mtu == CANFD_MTU) && end_waiting - first_waiting < WAITING) {
        waiting[end_waiting++ % WAITING] = *item;
    }
}

/* Starts to send a message. If the write waits until the message has been sent, it keeps the reply pipe and returns
 * SENT_LATER. */
static int start(const char *data, size_t length, int reply_to) {
    int error = error_take();
    error = error ? refused(error, "the message before did not get through") : isotp_send_start(data, length);
    if (!error && isotp_is_sending() && isotp.options.flags & CAN_ISOTP_WAIT_TX_DONE) {
        waits_for_end = reply_to;
        sent_length = length;
        return SENT_LATER;
    }
    return error;
}

/* Queues a write until the preceding messages have been sent. */
static int queue(const char *data, size_t length, int reply_to) {
    struct turn *turn = malloc(sizeof *turn + length), **last = &turns;
    if (!turn) {
        return refused(ENOMEM, "no memory for a message");
    }
    *turn = (struct turn){NULL, reply_to, length};
    memcpy(turn->data, data, length);
    while (*last) {
        last = &(*last)->next;
    }
    *last = turn;
    turn_count++;
    return SENT_LATER;
}

static bool isotp_is_busy(void) {
    return isotp_is_sending() || turns;
}

static bool isotp_is_full(unsigned kept) {
    (void)kept;
    return isotp_is_busy();
}

static int isotp_sendmsg(const struct wire_request *request, const char *data, size_t length, int reply_to,
                         struct wire_reply *reply) {
    (void)reply;
    if (!is_bound) {
        return refused(EADDRNOTAVAIL, "bind comes first");
    }
    if (!isotp_is_busy()) {
        return start(data, length, reply_to);
    }
    return request->number == WIRE_NO_WAIT ? refused(EAGAIN, "a message is being sent") : queue(data, length, reply_to);
}

void isotp_send_done(int error) {
    if (waits_for_end != NOBODY) {
        request_reply(waits_for_end, refused(error, "the message did not get through"), (int)sent_length);
        waits_for_end = NOBODY;
    } else if (error) {
        error_set(error);
    }
}

/* Removes a write from the queue and replies to it. */
static void leave(struct turn **place, int error) {
    struct turn *turn = *place;
    *place = turn->next;
    turn_count--;
    request_reply(turn->reply_to, error, (int)turn->length);
    free(turn);
}

static void isotp_cancel(int asks) {
    static const char why[] = "a signal came while it waited";
    if (waits_for_end != NOBODY && is_same_pipe(waits_for_end, asks)) {
        isotp_send_abort();
        isotp_send_done(refused(EINTR, why));
    }
    for (struct turn **place = &turns; *place; place = &(*place)->next) {
        if (is_same_pipe((*place)->reply_to, asks)) {
            leave(place, refused(EINTR, why));
            return;
        }
    }
}

static bool isotp_takes_requests(void) {
    return turn_count < TURNS;
}

/* Starts the next writes in the queue. */
static void start_next(void) {
    while (turns && !isotp_is_sending()) {
        struct turn *turn = turns;
        turns = turn->next;
        turn_count--;
        int error = start(turn->data, turn->length, turn->reply_to);
        if (error != SENT_LATER) {
            request_reply(turn->reply_to, error, (int)turn->length);
        }
        free(turn);
    }
}

/* Handles a received frame, which is either the echo of a frame that this socket sent, or a frame for this socket. */
static void take_item(const struct item *item) {
    if (item->message_flags & MSG_CONFIRM) {
        isotp_send_echo(item->number);
    } else if (!isotp_broadcast() && item->frame.can_id == isotp.rx_id) {
        isotp_receive_frame(&item->frame, item->moment);
    }
}

static int64_t isotp_due(void) {
    while (first_waiting != end_waiting) {
        struct item item = waiting[first_waiting++ % WAITING];
        take_item(&item);
    }
    isotp_send_due();
    start_next();
    outbox_flush();
    if (first_waiting != end_waiting) {
        return 0;
    }
    uint64_t next = isotp_send_due(), timeout = isotp_receive_due();
    next = timeout && (!next || timeout < next) ? timeout : next;
    uint64_t now = clock_now();
    return !next ? -1 : next > now ? (int64_t)(next - now) : 0;
}

const struct protocol isotp_protocol = {
    .is_full = isotp_is_full,
    .bind = isotp_bind,
    .getname = isotp_getname,
    .setsockopt = isotp_setsockopt,
    .getsockopt = isotp_getsockopt,
    .sendmsg = isotp_sendmsg,
    .cancel = isotp_cancel,
    .receive = isotp_receive,
    .due = isotp_due,
    .is_busy = isotp_is_busy,
    .takes_requests = isotp_takes_requests,
};
