/* CAN_ISOTP: splits a message into frames, and sends them at the pace that the receiver requests. */
#include "isotp.h"

#include <errno.h>
#include <string.h>

enum { SINGLE = 0x00, FIRST = 0x10, CONSECUTIVE = 0x20 };
enum { CONTINUE, WAIT, OVERFLOW_ };
/* The maximum length of a message whose length field has 12 bits. */
#define SHORT_LENGTH 4095

/* A number that no frame has. It means that the frame is still waiting for room, or could not be sent. */
#define NO_FRAME UINT64_MAX

static struct {
    /* The sender waits for the first flow control frame (WAITS_FIRST), for another one (WAITS), for the echo of a frame
     * (SENDING), or for the end of a pause (PAUSES). */
    enum { IDLE, WAITS_FIRST, WAITS, SENDING, PAUSES } state;
    char data[ISOTP_LONGEST];
    size_t at, length;
    unsigned number, block,
        in_block;             /* the next sequence number; how many frames are in a block, and in this block so far */
    uint64_t frame;           /* the number of the frame whose echo is due */
    uint64_t gap, next;       /* the length of the pause before a frame, and when the pause ends */
    struct isotp_timer timer; /* the timer for the echo or for flow control */
} tx;

bool isotp_is_sending(void) {
    return tx.state != IDLE;
}

static void end(int error) {
    tx.state = IDLE;
    isotp_timer_stop(&tx.timer);
    isotp_send_done(error);
}

/* Starts the timer after a frame has entered the transmit queue. The frame's echo, or the reply to the frame, must
 * arrive in time. */
static void begin_waiting(void) {
    isotp_timer_start(&tx.timer, tx.state == SENDING ? ISOTP_ECHO_TIMEOUT : ISOTP_TIMEOUT);
}

/* Called when a frame that had waited for room was sent or could not be sent. If it could not be sent, its echo is
 * missing, which ends the message, as in the kernel. */
static void sent_late(const struct later *later, int error) {
    (void)later;
    tx.frame = error ? NO_FRAME : isotp_last_number();
    begin_waiting();
}

void isotp_send_abort(void) {
    tx.state = IDLE;
    isotp_timer_stop(&tx.timer);
    room_forget(sent_late);
}

/* Sends a frame of the message. The state is set before the frame is sent, because the reply may arrive at once. */
static int put(const struct canfd_frame *frame, int state) {
    tx.state = state;
    tx.frame = NO_FRAME;
    isotp_timer_stop(&tx.timer);
    int error = isotp_put(frame, sent_late);
    if (error == SENT_LATER) {
        return 0;
    }
    if (!error) {
        tx.frame = isotp_last_number();
    }
    begin_waiting();
    return error;
}

/* Sends the first or only frame of a message. If the frame is refused, the message is abandoned. */
static int put_first(const struct canfd_frame *frame, int state) {
    int error = put(frame, state);
    if (error) {
        isotp_send_abort();
    }
    return error;
}

/* Fills a frame with the next part of the message. The first `front` bytes are reserved for the protocol header. */
static void fill(struct canfd_frame *frame, unsigned front) {
    size_t part = MIN(tx.length - tx.at, (size_t)isotp.link.tx_dl - front);
    bool pads = isotp.options.flags & CAN_ISOTP_TX_PADDING;
    *frame = (struct canfd_frame){.can_id = isotp.tx_id, .len = (uint8_t)(front + part)};
    if (pads || frame->len > CAN_MAX_DLEN) {
        frame->len = (uint8_t)isotp_padded(frame->len);
        memset(frame->data, pads ? isotp.options.txpad_content : CAN_ISOTP_DEFAULT_PAD_CONTENT, frame->len);
    }
    frame->data[0] = isotp.options.ext_address;
    memcpy(frame->data + front, tx.data + tx.at, part);
    tx.at += part;
}

static int send_single(void) {
    unsigned address = isotp_address_size(), escape = tx.length > CAN_MAX_DLEN - 1 - address;
    struct canfd_frame frame;
    size_t length = tx.length;
    fill(&frame, address + 1 + escape);
    frame.data[address] = (uint8_t)(SINGLE | (escape ? 0 : length));
    if (escape) {
        frame.data[address + 1] = (uint8_t)length;
    }
    return put_first(&frame, SENDING);
}

static int send_first(void) {
    unsigned address = isotp_address_size(), front = address + (tx.length > SHORT_LENGTH ? 6 : 2);
    struct canfd_frame frame;
    fill(&frame, front);
    frame.data[address] = FIRST;
    if (tx.length > SHORT_LENGTH) {
        frame.data[address + 1] = 0;
        for (unsigned i = 0; i < 4; i++) {
            frame.data[address + 2 + i] = (uint8_t)(tx.length >> (24 - 8 * i));
        }
    } else {
        frame.data[address] |= (uint8_t)(tx.length >> 8);
        frame.data[address + 1] = (uint8_t)tx.length;
    }
    tx.number = 1;
    if (isotp.options.flags & CAN_ISOTP_CF_BROADCAST) {
        tx.gap = isotp.options.flags & CAN_ISOTP_FORCE_TXSTMIN ? isotp.tx_stmin : isotp.frame_txtime;
        tx.block = 0;
        return put_first(&frame, SENDING);
    }
    return put_first(&frame, WAITS_FIRST);
}

int isotp_send_start(const char *data, size_t length) {
    unsigned address = isotp_address_size(), escape = isotp.link.tx_dl > CAN_MAX_DLEN;
    size_t single = isotp.link.tx_dl - 1 - address - escape;
    if (!length || length > ISOTP_LONGEST) {
        return refused(EINVAL, "a message has 1 to 66000 bytes");
    }
    if (isotp.options.flags & CAN_ISOTP_SF_BROADCAST && length > single) {
        return refused(EINVAL, "to all, a message has one frame");
    }
    memcpy(tx.data, data, length);
    tx.at = 0;
    tx.length = length;
    return length <= single ? send_single() : send_first();
}

/* Returns the pause, in nanoseconds, that a receiver requests with STmin. A reserved value means the longest pause. */
static uint64_t separation(uint8_t stmin) {
    if (isotp.options.flags & CAN_ISOTP_FORCE_TXSTMIN) {
        return isotp.tx_stmin;
    }
    if (stmin > 0x7F && (stmin < 0xF1 || stmin > 0xF9)) {
        stmin = 0x7F;
    }
    return stmin <= 0x7F ? stmin * 1000000ull : (stmin - 0xF0) * 100000ull;
}

/* Sends the next consecutive frame. As in the kernel, a refused frame is not sent again, and its missing echo ends the
 * message. */
static void send_consecutive(void) {
    unsigned address = isotp_address_size();
    struct canfd_frame frame;
    fill(&frame, address + 1);
    frame.data[address] = (uint8_t)(CONSECUTIVE | (tx.number++ & 15));
    tx.in_block++;
    put(&frame, SENDING);
}

void isotp_send_flow_control(const struct canfd_frame *frame) {
    unsigned address = isotp_address_size();
    if ((tx.state != WAITS && tx.state != WAITS_FIRST) || !tx.timer.due) {
        return;
    }
    if (frame->len < address + 3 || !isotp_is_well_padded(frame, address + 3)) {
        end(EBADMSG);
        return;
    }
    if (tx.state == WAITS_FIRST) {
        tx.block = frame->data[address + 1];
        tx.gap = isotp.frame_txtime + separation(frame->data[address + 2]);
        tx.state = WAITS;
    }
    switch (frame->data[address] & 15) {
    case CONTINUE:
        tx.in_block = 0;
        send_consecutive();
        break;
    case WAIT: begin_waiting(); break;
    case OVERFLOW_: end(EMSGSIZE); break;
    default: end(EBADMSG);
    }
}

void isotp_send_echo(uint64_t number) {
    if (tx.state != SENDING || number != tx.frame) {
        return;
    }
    if (tx.at == tx.length) {
        end(0);
    } else if (tx.block && tx.in_block >= tx.block) {
        tx.state = WAITS;
        begin_waiting();
    } else if (tx.gap) {
        tx.state = PAUSES;
        isotp_timer_stop(&tx.timer);
        tx.next = clock_now() + tx.gap;
    } else {
        send_consecutive();
    }
}

uint64_t isotp_send_due(void) {
    if (tx.state == PAUSES && tx.next <= clock_now()) {
        send_consecutive();
    }
    if (isotp_timer_is_over(&tx.timer)) {
        end(ECOMM);
    }
    return tx.state == PAUSES ? tx.next : tx.timer.due;
}
