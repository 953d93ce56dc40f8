/* CAN_ISOTP: assembles received frames into messages, and sends flow control frames. */
#include "isotp.h"

#include <errno.h>
#include <string.h>

enum { FLOW_CONTROL = 0x30, CONTINUE = 0, OVERFLOW_ = 2 };

static struct {
    bool is_open;
    char data[ISOTP_LONGEST];
    size_t at, length;
    unsigned number, in_block, frame_length;
    uint64_t last_moment;
    struct isotp_timer timer; /* the timer for the next frame */
} rx;

bool isotp_is_receiving(void) {
    return rx.is_open;
}

static void deliver(const void *data, size_t length, uint64_t moment) {
    outbox_put(data, length, moment, bound_index, 0);
}

static void give_up(int error) {
    rx.is_open = false;
    isotp_timer_stop(&rx.timer);
    error_set(error);
}

/* Ignores the result of a flow control frame. As in the kernel, a frame that could not be sent is not reported. */
static void flow_control_sent(const struct later *later, int error) {
    (void)later;
    (void)error;
}

static void send_flow_control(unsigned status) {
    unsigned address = isotp_address_size();
    bool pads = isotp.options.flags & CAN_ISOTP_TX_PADDING;
    struct canfd_frame frame = {.can_id = isotp.tx_id, .len = (uint8_t)(pads ? CAN_MAX_DLEN : address + 3)};
    memset(frame.data, pads ? isotp.options.txpad_content : 0, CAN_MAX_DLEN);
    frame.data[0] = isotp.options.ext_address;
    frame.data[address] = (uint8_t)(FLOW_CONTROL | status);
    frame.data[address + 1] = isotp.flow.bs;
    frame.data[address + 2] = isotp.flow.stmin;
    rx.in_block = 0;
    rx.last_moment = 0;
    isotp_put(&frame, flow_control_sent);
    isotp_timer_start(&rx.timer, ISOTP_TIMEOUT);
}

static void receive_single(const struct canfd_frame *frame, uint64_t moment) {
    unsigned address = isotp_address_size(), front = address + 1, length = frame->data[address] & 15;
    rx.is_open = false;
    isotp_timer_stop(&rx.timer);
    if (frame->len > CAN_MAX_DLEN) {
        if (length) {
            return; /* A frame with more than 8 bytes stores its length in a separate byte. */
        }
        length = frame->data[front++];
    }
    if (!length || length + front > frame->len) {
        return;
    }
    if (isotp_is_well_padded(frame, front + length)) {
        deliver(frame->data + front, length, moment);
    } else {
        give_up(EBADMSG);
    }
}

static void receive_first(const struct canfd_frame *frame) {
    unsigned address = isotp_address_size(), front = address + 2;
    const uint8_t *data = frame->data + address;
    size_t length = (size_t)(data[0] & 15) << 8 | data[1];
    rx.is_open = false;
    isotp_timer_stop(&rx.timer);
    if (frame->len < CAN_MAX_DLEN || frame->len != isotp_padded(frame->len)) {
        return; /* A first frame is always full. */
    }
    if (!length) {
        length = (size_t)data[2] << 24 | (size_t)data[3] << 16 | (size_t)data[4] << 8 | data[5];
        front += 4;
    }
    if (length + front + (frame->len > CAN_MAX_DLEN) < frame->len) {
        return; /* The message would fit into a single frame. */
    }
    if (length > ISOTP_LONGEST) {
        if (!(isotp.options.flags & CAN_ISOTP_LISTEN_MODE)) {
            send_flow_control(OVERFLOW_);
        }
        isotp_timer_stop(&rx.timer);
        return;
    }
    rx.is_open = true;
    rx.frame_length = frame->len;
    rx.length = length;
    rx.at = MIN(length, (size_t)frame->len - front);
    rx.number = 1;
    rx.in_block = 0;
    rx.last_moment = 0;
    isotp_timer_start(&rx.timer, ISOTP_TIMEOUT);
    memcpy(rx.data, frame->data + front, rx.at);
    if (!(isotp.options.flags & CAN_ISOTP_LISTEN_MODE)) {
        send_flow_control(CONTINUE);
    }
}

static void receive_consecutive(const struct canfd_frame *frame, uint64_t moment) {
    unsigned address = isotp_address_size(), front = address + 1;
    if (!rx.is_open) {
        return;
    }
    if (isotp.options.flags & CAN_ISOTP_FORCE_RXSTMIN && moment - rx.last_moment < isotp.rx_stmin) {
        return;
    }
    rx.last_moment = moment;
    size_t left = rx.length - rx.at;
    if (frame->len > rx.frame_length || (frame->len < rx.frame_length && left > rx.frame_length - front)) {
        return; /* Only the last frame may be shorter than the first. */
    }
    if ((frame->data[address] & 15) != (rx.number++ & 15)) {
        give_up(EILSEQ);
        return;
    }
    size_t part = MIN(left, (size_t)frame->len - front);
    memcpy(rx.data + rx.at, frame->data + front, part);
    rx.at += part;
    isotp_timer_start(&rx.timer, ISOTP_TIMEOUT);
    if (rx.at < rx.length) {
        if (isotp.flow.bs && ++rx.in_block == isotp.flow.bs && !(isotp.options.flags & CAN_ISOTP_LISTEN_MODE)) {
            send_flow_control(CONTINUE);
        }
        return;
    }
    rx.is_open = false;
    isotp_timer_stop(&rx.timer);
    if (isotp_is_well_padded(frame, front + (unsigned)part)) {
        deliver(rx.data, rx.length, moment);
    } else {
        give_up(EBADMSG);
    }
}

void isotp_receive_frame(const struct canfd_frame *frame, uint64_t moment) {
    unsigned address = isotp_address_size();
    if (frame->len <= address || (address && frame->data[0] != isotp.options.rx_ext_address)) {
        return;
    }
    unsigned kind = frame->data[address] >> 4;
    if (isotp.options.flags & CAN_ISOTP_HALF_DUPLEX &&
        ((isotp_is_sending() && kind != 3) || (rx.is_open && kind == 3))) {
        return;
    }
    switch (kind) {
    case 0: receive_single(frame, moment); break;
    case 1: receive_first(frame); break;
    case 2: receive_consecutive(frame, moment); break;
    case 3: isotp_send_flow_control(frame); break;
    default: break;
    }
}

uint64_t isotp_receive_due(void) {
    if (isotp_timer_is_over(&rx.timer) && rx.is_open) {
        give_up(ETIMEDOUT);
    }
    return rx.timer.due;
}
