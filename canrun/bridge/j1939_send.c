/* CAN_J1939: the frames that a transfer sends. */
#include "j1939_host.h"

#include <errno.h>
#include <string.h>

/* Times in milliseconds: the pause between two packets to all nodes, and the timeouts for a reply, for the echo of a
 * frame, and for the echo of a one-frame message. */
enum { PAUSE_TO_ALL = 50, REPLY_TIME = 1250, ECHO_TIME = 250, SIMPLE_TIME = 10000 };

bool is_of_transport(uint32_t pgn) {
    return pgn == TP_CONTROL || pgn == TP_DATA || pgn == ETP_CONTROL || pgn == ETP_DATA;
}

uint32_t number_at(const uint8_t *data, unsigned bytes) {
    uint32_t number = 0;
    while (bytes--) {
        number = number << 8 | data[bytes];
    }
    return number;
}

static void put_number(uint8_t *data, uint32_t number, unsigned bytes) {
    for (; bytes--; number >>= 8) {
        *data++ = (uint8_t)number;
    }
}

int errno_of_abort(uint8_t reason) {
    static const int known[] = {0, EALREADY, EMSGSIZE, EHOSTUNREACH, EBADMSG, ENOTRECOVERABLE, ENOTCONN, EILSEQ};
    return reason < sizeof known / sizeof *known ? known[reason] : EPROTO;
}

/* Returns the source and destination for a reply, which are swapped. */
static struct wire_way back(const struct wire_way *way) {
    struct wire_way result = *way;
    result.name = way->to_name;
    result.to_name = way->name;
    result.from = way->to;
    result.to = way->from;
    return result;
}

/* Sends a control frame about messages of this parameter group. `front` contains its first 5 bytes. */
static int put_control(const struct wire_way *way, enum transfer_kind kind, const uint8_t front[5]) {
    uint8_t data[CAN_MAX_DLEN];
    struct wire_way control = *way;
    memcpy(data, front, 5);
    put_number(data + 5, way->pgn, 3);
    control.pgn = kind == TRANSFER_ETP ? ETP_CONTROL : TP_CONTROL;
    return host_put(&control, data, sizeof data, NULL);
}

void send_abort(const struct heard *heard, enum transfer_kind kind, uint8_t reason, uint32_t pgn) {
    struct wire_way way = back(&heard->way);
    way.pgn = pgn;
    if (heard->is_to_us) {
        put_control(&way, kind, (uint8_t[]){ABORT, reason, 0xff, 0xff, 0xff});
    }
}

void transfer_send_abort(const struct transfer *transfer, uint8_t reason) {
    struct wire_way way = transfer->is_sent ? transfer->way : back(&transfer->way);
    bool is_ours = transfer->is_sent ? transfer->is_from_us : transfer->is_to_us;
    if (is_ours && !is_to_all(&transfer->way)) {
        put_control(&way, transfer->kind, (uint8_t[]){ABORT, reason, 0xff, 0xff, 0xff});
    }
}

/* ---- frames of the sender ---- */

static int send_request(struct transfer *transfer) {
    uint8_t front[5] = {TP_RTS, 0xff, 0xff, (uint8_t)transfer->total, (uint8_t)transfer->total};
    put_number(front + 1, transfer->size, 2);
    if (transfer->kind == TRANSFER_ETP) {
        front[0] = ETP_RTS;
        put_number(front + 1, transfer->size, 4);
    } else if (is_to_all(&transfer->way)) {
        front[0] = TP_BAM;
        front[4] = 0xff;
        transfer->sent = 0;
    }
    if (front[0] == transfer->last_sent) {
        return 0;
    }
    int error = put_control(&transfer->way, transfer->kind, front);
    if (error) {
        return error;
    }
    transfer->last_sent = front[0];
    if (front[0] == TP_BAM) {
        transfer_go_on(transfer, PAUSE_TO_ALL);
        transfer_wait(transfer, ECHO_TIME);
    } else {
        transfer_wait(transfer, REPLY_TIME);
    }
    return 0;
}

static int send_offset(struct transfer *transfer) {
    uint8_t front[5] = {ETP_OFFSET, (uint8_t)(transfer->last - transfer->confirmed)};
    transfer->offset = transfer->confirmed;
    put_number(front + 2, transfer->offset, 3);
    int error = put_control(&transfer->way, transfer->kind, front);
    if (!error) {
        transfer->last_sent = ETP_OFFSET;
        transfer_wait(transfer, REPLY_TIME);
        transfer->sent = transfer->confirmed;
    }
    return error;
}

/* Sends the next packet of a transfer. */
static int send_packet(struct transfer *transfer) {
    uint8_t data[CAN_MAX_DLEN];
    struct wire_way way = transfer->way;
    uint32_t at = transfer->sent * IN_PACKET;
    uint32_t length = MIN(transfer->filled - at, IN_PACKET);
    memset(data, 0xff, sizeof data);
    data[0] = (uint8_t)(transfer->sent - transfer->offset + 1);
    memcpy(data + 1, transfer->data + at, length);
    way.pgn = transfer->kind == TRANSFER_ETP ? ETP_DATA : TP_DATA;
    int error = host_put(&way, data, sizeof data, NULL);
    transfer->sent += !error;
    return error;
}

/* Sends the remaining packets of the block, as far as there is data and room. To all nodes, it sends only one packet at
 * a time. */
static int send_packets(struct transfer *transfer) {
    uint32_t end = is_to_all(&transfer->way) ? transfer->total : transfer->last, before = transfer->sent;
    int error = 0;
    if (transfer->sent * IN_PACKET >= transfer->filled) {
        return ENOBUFS;
    }
    while (!error && transfer->sent < end) {
        bool is_there = transfer->sent * IN_PACKET < transfer->filled;
        error = is_there ? send_packet(transfer) : ENOBUFS;
        if (error) {
            break;
        }
        transfer->last_sent = SOME_DATA;
        if (is_to_all(&transfer->way) && transfer->sent < transfer->total) {
            transfer_go_on(transfer, PAUSE_TO_ALL);
            break;
        }
    }
    if (transfer->sent > before) {
        transfer_wait(transfer, ECHO_TIME);
    }
    return error;
}

static int send_next_of_sender(struct transfer *transfer) {
    int error = 0;
    switch (transfer->last_heard) {
    case 0: return send_request(transfer);
    case ETP_CTS:
        error = transfer->last_sent == ETP_OFFSET ? 0 : send_offset(transfer);
        return error ? error : send_packets(transfer);
    case TP_CTS:
    case SOME_DATA:
    case ETP_OFFSET:
    case TP_BAM: return send_packets(transfer);
    default: return 0;
    }
}

/* ---- replies of the receiver ---- */

static int reply(struct transfer *transfer, const uint8_t front[5], bool is_marked) {
    struct wire_way way = back(&transfer->way);
    if (front[0] == transfer->last_sent) {
        return 0;
    }
    int error = put_control(&way, transfer->kind, front);
    if (!error) {
        transfer->last_sent = is_marked ? front[0] : transfer->last_sent;
        transfer_wait(transfer, REPLY_TIME);
    }
    return error;
}

static int send_clear(struct transfer *transfer) {
    uint32_t length = MIN(transfer->total - transfer->received, MIN(transfer->block, 255u));
    uint8_t front[5] = {TP_CTS, (uint8_t)length, (uint8_t)(transfer->received + 1), 0xff, 0xff};
    if (!members_want(&transfer->way)) {
        return ENOENT;
    }
    if (transfer->kind == TRANSFER_ETP) {
        front[0] = ETP_CTS;
        put_number(front + 2, transfer->received + 1, 3);
    }
    return reply(transfer, front, length > 0);
}

static int send_done(struct transfer *transfer) {
    uint8_t front[5] = {TP_DONE, 0xff, 0xff, (uint8_t)transfer->total, 0xff};
    put_number(front + 1, transfer->size, 2);
    if (!members_want(&transfer->way)) {
        return ENOENT;
    }
    if (transfer->kind == TRANSFER_ETP) {
        front[0] = ETP_DONE;
        put_number(front + 1, transfer->size, 4);
    }
    return reply(transfer, front, true);
}

static int send_next_of_receiver(struct transfer *transfer) {
    switch (transfer->last_heard) {
    case TP_RTS:
    case ETP_RTS: return send_clear(transfer);
    case ETP_CTS:
    case TP_CTS:
    case SOME_DATA:
    case ETP_OFFSET:
        if (transfer->kind == TRANSFER_TP && is_to_all(&transfer->way)) {
            return 0;
        }
        if (transfer->received >= transfer->total) {
            return send_done(transfer);
        }
        if (transfer->received >= transfer->last) {
            transfer->last_sent = 0;
            return send_clear(transfer);
        }
        return 0;
    default: return 0;
    }
}

/* ---- messages of one frame ---- */

static int send_simple(struct transfer *transfer) {
    transfer_wait(transfer, SIMPLE_TIME);
    int error = host_put(&transfer->way, transfer->data, transfer->size, &transfer->frame);
    if (!error) {
        transfer_notice(transfer, EVENT_BEGUN);
    }
    return error;
}

int transfer_send_next(struct transfer *transfer) {
    return transfer->kind == TRANSFER_SIMPLE ? send_simple(transfer)
           : transfer->is_sent               ? send_next_of_sender(transfer)
                                             : send_next_of_receiver(transfer);
}
