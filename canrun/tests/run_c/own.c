/* Frames that a socket has sent itself: which sockets receive them, which are marked with MSG_CONFIRM, and
 * MSG_DONTROUTE for all frames from the same interface (Documentation/networking/can.rst). */
#include "check.h"

/* How many identical frames the sockets send in turns. */
#define TURNS 40

static int flags_of_next(int fd, unsigned number) {
    struct can_frame frame;
    struct iovec part = {&frame, sizeof frame};
    struct msghdr message = {.msg_iov = &part, .msg_iovlen = 1};
    CHECK(comes(fd, PATIENCE));
    CHECK(recvmsg(fd, &message, 0) == sizeof frame && number_of(&frame) == number);
    return message.msg_flags;
}

/* Two sockets of one interface and a socket of another send identical frames. Each is attributed to its sender. */
static void take_turns(int self, int beside, int other) {
    int senders[TURNS];
    for (int i = 0; i < TURNS; i++) {
        senders[i] = i % 3 == 0 ? self : i % 3 == 1 ? beside : other;
        send_patiently(senders[i], 0x7, 7);
        /* Waits for each frame to arrive, so that the frames are sent in this order although the interfaces differ. */
        int own = senders[i] == self ? MSG_CONFIRM | MSG_DONTROUTE : senders[i] == beside ? MSG_DONTROUTE : 0;
        CHECK(flags_of_next(self, 7) == own);
        CHECK(senders[i] == beside || flags_of_next(beside, 7) == (own & MSG_DONTROUTE));
        CHECK(senders[i] == other || flags_of_next(other, 7) == 0);
    }
}

/* Two sockets of one interface send identical frames without waiting for each frame. The interface keeps the order. */
static void take_turns_at_once(int self, int beside) {
    for (int i = 0; i < TURNS; i++) {
        send_patiently(i % 5 < 2 ? self : beside, 0x7, 7);
    }
    for (int i = 0; i < TURNS; i++) {
        CHECK(flags_of_next(self, 7) == (i % 5 < 2 ? MSG_CONFIRM | MSG_DONTROUTE : MSG_DONTROUTE));
    }
}

int main(void) {
    int self = bound("can0"), beside = bound("can0"), other = bound("can1");
    set(self, CAN_RAW_RECV_OWN_MSGS, 1);
    for (unsigned i = 0; i < 5; i++) {
        send_patiently(self, 0x123, i);
        send_patiently(other, 0x123, 100 + i);
        CHECK(flags_of_next(beside, i) == MSG_DONTROUTE);
        CHECK(flags_of_next(beside, 100 + i) == 0);
        CHECK(flags_of_next(self, i) == (MSG_CONFIRM | MSG_DONTROUTE));
        CHECK(flags_of_next(self, 100 + i) == 0);
        CHECK(flags_of_next(other, i) == 0);
    }
    CHECK(!comes(other, QUIET)); /* It does not receive its own frames. */
    take_turns(self, beside, other);
    take_turns_at_once(self, beside);
    set(self, CAN_RAW_LOOPBACK, 0);
    int late = bound("can1");
    send_numbered(self, 0x123, 9);
    CHECK(flags_of_next(late, 9) == 0 && !comes(self, QUIET));
    return 0;
}
