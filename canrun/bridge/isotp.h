/* Declarations for CAN_ISOTP (ISO 15765-2). The rules are the same as in net/can/isotp.c in the kernel. */
#ifndef ISOTP_H
#define ISOTP_H

#include "bridge.h"

#include <linux/can/isotp.h>

/* The maximum length of a message in bytes, as in the kernel. */
#define ISOTP_LONGEST 66000
/* How many seconds the other end may stay silent. A frame must also be sent on the bus within this time. */
#define ISOTP_TIMEOUT 1
#define ISOTP_ECHO_TIMEOUT 2

struct isotp {
    canid_t rx_id, tx_id;
    struct can_isotp_options options;
    struct can_isotp_fc_options flow;
    struct can_isotp_ll_options link;
    uint32_t frame_txtime;       /* nanoseconds */
    uint32_t tx_stmin, rx_stmin; /* nanoseconds */
};
extern struct isotp isotp;

/* Returns the flag of a socket that sends to all nodes without flow control: one of these two flags, or 0. */
#define ALL_BROADCAST (CAN_ISOTP_SF_BROADCAST | CAN_ISOTP_CF_BROADCAST)
uint32_t isotp_broadcast(void);
/* Returns how many bytes of a frame the address occupies: 0 or 1. */
unsigned isotp_address_size(void);
/* Returns the padded length of a frame that contains this many bytes. */
unsigned isotp_padded(unsigned length);
/* Returns whether a received frame is padded from this byte to its end as the options require. */
bool isotp_is_well_padded(const struct canfd_frame *frame, unsigned from);
/* Sends a frame. With --wait the frame may wait for room; the result is then SENT_LATER. */
int isotp_put(const struct canfd_frame *frame, void (*done)(const struct later *later, int error));
/* Returns the number of the frame that was sent last. */
uint64_t isotp_last_number(void);

/* ---- isotp_timer.c ---- */

struct isotp_timer {
    unsigned steps;  /* how many steps remain */
    uint64_t due;    /* when this step should end, by the clock; 0: the timer is off */
    unsigned rounds; /* how many queries were sent to the server after `due` */
};
void isotp_timer_start(struct isotp_timer *timer, unsigned seconds);
void isotp_timer_stop(struct isotp_timer *timer);
/* Returns whether the timer has just expired. */
bool isotp_timer_is_over(struct isotp_timer *timer);

/* ---- isotp_send.c ---- */

/* Starts to send a message. Returns an errno, or 0. The sender is busy until it calls isotp_send_done. */
int isotp_send_start(const char *data, size_t length);
bool isotp_is_sending(void);
/* Abandons the message without calling isotp_send_done. */
void isotp_send_abort(void);
/* Handles the echo of a frame of this socket. The echo shows that the frame with this number was sent on the bus. */
void isotp_send_echo(uint64_t number);
void isotp_send_flow_control(const struct canfd_frame *frame);
/* Sends the frames that are due. Returns the time on the clock when the next frame is due, or 0. */
uint64_t isotp_send_due(void);
/* Called when a message is finished: with 0 if the last frame was sent on the bus, otherwise with an errno. This
 * function is in isotp.c. */
void isotp_send_done(int error);

/* ---- isotp_receive.c ---- */

void isotp_receive_frame(const struct canfd_frame *frame, uint64_t moment);
bool isotp_is_receiving(void);
/* Abandons a message if its next frame has not arrived in time. Returns the time on the clock when the wait for that
 * frame ends, or 0. */
uint64_t isotp_receive_due(void);

#endif
