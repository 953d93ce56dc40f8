/* CAN_J1939: handles received frames of transfers, including frames that this host has sent. As in the kernel, a sent
 * frame counts only after it was on the bus. For a transfer between two sockets of one interface, this host has both
 * the sender and the receiver. */
#include "j1939_host.h"

#include <stddef.h>
#include <string.h>

/* How many milliseconds to wait for the next frame, depending on its kind. */
enum { REPLY_TIME = 1250, DATA_TIME = 750, HOLD_TIME = 550 };

static uint32_t group_of(const uint8_t *data) {
    uint32_t pgn = number_at(data + 5, 3);
    return has_destination(pgn) ? pgn & 0xffff00 : pgn;
}

/* Returns the abort reason for a command whose parameter group differs from that of the transfer. If the result is 0,
 * no abort is sent. */
static uint8_t reason_for_group(uint8_t command) {
    switch (command) {
    case TP_RTS:
    case ETP_RTS: return ABORT_BUSY;
    case TP_CTS:
    case ETP_CTS: return ABORT_CTS_PGN;
    case ETP_OFFSET: return ABORT_OFFSET_PGN;
    case TP_DONE:
    case ETP_DONE: return ABORT_OTHER;
    default: return 0;
    }
}

static bool is_of_other_group(const struct transfer *transfer, const struct heard *heard) {
    uint32_t pgn = group_of(heard->data);
    uint8_t reason = reason_for_group(heard->data[0]);
    if (transfer->way.pgn == pgn) {
        return false;
    }
    if (reason) {
        send_abort(heard, transfer->kind, reason, pgn);
    }
    return true;
}

static void cancel(struct transfer *transfer, uint8_t reason) {
    transfer_stop(transfer);
    transfer_cancel(transfer, reason);
}

/* ---- the start of a transfer ---- */

/* Returns the abort reason if a transfer of this size cannot begin, otherwise 0. */
static uint8_t reason_for_size(enum transfer_kind kind, uint32_t size) {
    if (kind == TRANSFER_ETP) {
        return size > ETP_LONGEST || size <= TP_LONGEST ? ABORT_FAULT : size > WIRE_LARGEST_J1939 ? ABORT_RESOURCE : 0;
    }
    return size > TP_LONGEST || size <= ONE_FRAME ? ABORT_FAULT : 0;
}

static struct transfer *begin(const struct heard *heard, enum transfer_kind kind) {
    static uint32_t keys;
    struct wire_way way = heard->way;
    way.pgn = group_of(heard->data);
    if (!members_want(&way)) {
        return NULL;
    }
    uint32_t size = number_at(heard->data + 1, kind == TRANSFER_ETP ? 4 : 2);
    uint8_t reason = reason_for_size(kind, size);
    struct transfer *transfer = reason ? NULL : transfer_receive(&way, kind, size);
    if (!transfer) {
        send_abort(heard, kind, reason ? reason : ABORT_RESOURCE, way.pgn);
        return NULL;
    }
    transfer->is_from_us = heard->is_from_us;
    transfer->is_to_us = heard->is_to_us;
    transfer->total = (size + IN_PACKET - 1) / IN_PACKET;
    transfer->block = 255;
    if (kind == TRANSFER_TP) {
        transfer->total = heard->data[3];
        transfer->block = MIN(heard->data[3], heard->data[4]);
    }
    transfer->key = keys++;
    transfer_notice(transfer, EVENT_OFFERED);
    if (!transfer_activate(transfer)) {
        transfer_forget(transfer);
        return NULL;
    }
    return transfer;
}

/* Handles a repeated request for an active transfer. Returns false if the request needs no further handling. */
static bool request_again(struct transfer *transfer, const struct heard *heard) {
    if (!transfer->is_sent) {
        if (is_of_other_group(transfer, heard)) {
            return false;
        }
        cancel(transfer, ABORT_BUSY);
    }
    if (transfer->last_heard) {
        cancel(transfer, ABORT_BUSY);
        if (transfer->is_sent || transfer->state == TRANSFER_ABORTING) {
            transfer_end(transfer);
        }
        return false;
    }
    transfer->way.from = heard->way.from;
    transfer->way.to = heard->way.to;
    return true;
}

static void take_request(const struct heard *heard, enum transfer_kind kind, bool is_sent) {
    struct transfer *transfer = transfer_find(&heard->way, kind, false, is_sent);
    if (transfer ? !request_again(transfer, heard) : is_sent || !(transfer = begin(heard, kind))) {
        return;
    }
    transfer->last_heard = heard->data[0];
    if (heard->data[0] == TP_BAM) {
        if (!is_sent) {
            transfer_wait(transfer, DATA_TIME);
        }
        return;
    }
    if (!is_sent) {
        transfer_go_on(transfer, 0);
    }
    transfer_wait(transfer, REPLY_TIME);
}

/* ---- commands for active transfers ---- */

static void take_clear(const struct heard *heard, enum transfer_kind kind, bool is_sent) {
    struct transfer *transfer = transfer_find(&heard->way, kind, true, is_sent);
    const uint8_t *data = heard->data;
    uint32_t packet = kind == TRANSFER_ETP ? number_at(data + 2, 3) : data[2];
    if (!transfer || is_of_other_group(transfer, heard)) {
        return;
    }
    if (transfer->last_heard == data[0]) {
        cancel(transfer, ABORT_DUPLICATE);
        return;
    }
    if (!packet || data[1] > transfer->block) {
        cancel(transfer, ABORT_FAULT);
        return;
    }
    transfer->confirmed = packet - 1;
    transfer_drop_old(transfer);
    transfer->last = MIN(transfer->confirmed + data[1], transfer->total);
    transfer->sent = transfer->confirmed;
    transfer->last_heard = data[0];
    if (!data[1]) {
        transfer_wait(transfer, HOLD_TIME);
        return;
    }
    transfer_wait(transfer, REPLY_TIME);
    if (transfer->is_sent) {
        if (transfer->confirmed) {
            transfer_notice(transfer, EVENT_BEGUN);
        }
        transfer_go_on(transfer, 0);
    }
}

static void take_offset(const struct heard *heard, bool is_sent) {
    struct transfer *transfer = transfer_find(&heard->way, TRANSFER_ETP, false, is_sent);
    if (transfer && !is_of_other_group(transfer, heard)) {
        transfer->offset = number_at(heard->data + 2, 3);
        transfer->last_heard = ETP_OFFSET;
        transfer_wait(transfer, DATA_TIME);
        if (!is_sent) {
            transfer_notice(transfer, EVENT_BLOCK);
        }
    }
}

static void take_done(const struct heard *heard, enum transfer_kind kind, bool is_sent) {
    struct transfer *transfer = transfer_find(&heard->way, kind, true, is_sent);
    if (transfer && !is_of_other_group(transfer, heard)) {
        transfer->confirmed = transfer->total;
        transfer_stop(transfer);
        transfer_complete(transfer, heard);
    }
}

/* Handles an abort, which may come from either end of the transfer. */
static void take_abort(const struct heard *heard, enum transfer_kind kind, bool is_sent) {
    for (int is_reverse = 0; is_reverse < 2; is_reverse++) {
        struct transfer *transfer = transfer_find(&heard->way, kind, is_reverse, is_sent);
        if (transfer && !is_of_other_group(transfer, heard)) {
            transfer_stop(transfer);
            transfer->error = errno_of_abort(heard->data[1]);
            if (transfer->owner) {
                transfer_tell_error(transfer);
            } else {
                transfer_notice(transfer, EVENT_BROKEN);
            }
            transfer_end(transfer);
        }
    }
}

static void take_command(const struct heard *heard, enum transfer_kind kind) {
    const bool is_ours = heard->is_from_us, is_for_us = heard->is_to_us, is_all = is_to_all(&heard->way);
    const bool is_extended = kind == TRANSFER_ETP;
    const uint8_t command = heard->data[0];
    if (command == (is_extended ? ETP_RTS : TP_RTS) || (command == TP_BAM && !is_extended)) {
        if ((command == TP_BAM) != is_all && !is_extended) {
            return;
        }
        if (is_ours) {
            take_request(heard, kind, true);
        }
        if (is_for_us || is_all) {
            take_request(heard, kind, false);
        }
        return;
    }
    /* A reply (CTS or DONE) that is addressed to this host belongs to a transfer that the host sends. Any other command
     * addressed to this host belongs to a transfer that the host receives. For commands that this host sent, it is the
     * other way round. */
    bool is_reply = command != ETP_OFFSET && command != ABORT;
    for (int side = 0; side < 2; side++) {
        bool is_sent = is_reply ? side : !side;
        if (!(side ? is_for_us : is_ours)) {
            continue;
        }
        if (command == (is_extended ? ETP_CTS : TP_CTS)) {
            take_clear(heard, kind, is_sent);
        } else if (command == (is_extended ? ETP_DONE : TP_DONE)) {
            take_done(heard, kind, is_sent);
        } else if (command == ETP_OFFSET && is_extended) {
            take_offset(heard, is_sent);
        } else if (command == ABORT && !is_all) {
            take_abort(heard, kind, is_sent);
        }
    }
}

/* ---- packets ---- */

/* Returns whether data packets may arrive now. */
static bool awaits_data(const struct transfer *transfer) {
    bool is_extended = transfer->kind == TRANSFER_ETP;
    switch (transfer->last_heard) {
    case SOME_DATA: return true;
    case ETP_OFFSET: return is_extended;
    case TP_BAM:
    case TP_CTS: return !is_extended;
    default: return false;
    }
}

/* Returns the index of a packet, starting at 0, or UINT32_MAX if there is no room for the packet. */
static uint32_t place_of(const struct transfer *transfer, const uint8_t *data) {
    int64_t packet = (int64_t)data[0] - 1 + transfer->offset;
    bool fits = packet >= 0 && packet <= transfer->total && transfer->received < transfer->total &&
                packet * IN_PACKET < transfer->filled;
    return fits ? (uint32_t)packet : UINT32_MAX;
}

static void take_packet(struct transfer *transfer, const struct heard *heard) {
    if (heard->length != CAN_MAX_DLEN) {
        cancel(transfer, ABORT_UNEXPECTED);
        return;
    }
    uint32_t packet = awaits_data(transfer) ? place_of(transfer, heard->data) : UINT32_MAX;
    if (packet == UINT32_MAX) {
        cancel(transfer, ABORT_FAULT);
        return;
    }
    uint32_t at = packet * IN_PACKET;
    if (!transfer->is_sent) {
        memcpy(transfer->data + at, heard->data + 1, MIN(transfer->size - at, IN_PACKET));
    }
    transfer->received += packet == transfer->received;
    bool has_all = transfer->received >= transfer->total;
    if (transfer->kind == TRANSFER_TP && is_to_all(&transfer->way)) {
        if (has_all) {
            transfer->last_heard = SOME_DATA;
            transfer_stop(transfer);
            transfer_complete(transfer, heard);
            return;
        }
        if (!transfer->is_sent) {
            transfer_wait(transfer, DATA_TIME);
        }
    } else if (transfer->received >= transfer->last) {
        transfer_wait(transfer, REPLY_TIME);
        if (!transfer->is_sent) {
            transfer_go_on(transfer, 0);
        }
    } else {
        transfer_wait(transfer, DATA_TIME);
    }
    transfer->last_heard = SOME_DATA;
}

static void take_data(const struct heard *heard, enum transfer_kind kind) {
    struct transfer *transfer = heard->is_from_us ? transfer_find(&heard->way, kind, false, true) : NULL;
    if (transfer) {
        take_packet(transfer, heard);
    }
    bool is_received = heard->is_to_us || is_to_all(&heard->way);
    transfer = is_received ? transfer_find(&heard->way, kind, false, false) : NULL;
    if (transfer) {
        take_packet(transfer, heard);
    }
}

bool transfers_take(const struct heard *heard) {
    if (!heard->is_from_us && !heard->is_to_us && !is_to_all(&heard->way)) {
        return false;
    }
    switch (heard->way.pgn) {
    case ETP_DATA: take_data(heard, TRANSFER_ETP); return true;
    case TP_DATA: take_data(heard, TRANSFER_TP); return true;
    case ETP_CONTROL:
    case TP_CONTROL:
        if (heard->length < CAN_MAX_DLEN) {
            return false;
        }
        take_command(heard, heard->way.pgn == ETP_CONTROL ? TRANSFER_ETP : TRANSFER_TP);
        return true;
    default: return false;
    }
}
