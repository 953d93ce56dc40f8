/* A socket on all interfaces: at which interface a frame arrives, and on which interface a frame is sent. */
#include "check.h"

/* The interface of the second bus. */
#define OTHER "car0"

int main(void) {
    int any = bound(NULL), can0 = bound("can0"), car0 = bound(OTHER);
    struct sockaddr_can from, to = address_of(OTHER), own;
    socklen_t length = sizeof own;
    struct can_frame frame = frame_of(0x123, 0);
    CHECK(getsockname(any, (struct sockaddr *)&own, &length) == 0 && own.can_ifindex == 0);
    FAILS(write(any, &frame, sizeof frame), ENXIO);
    send_numbered(car0, 0x123, 1);
    CHECK(comes(any, PATIENCE));
    length = sizeof from;
    CHECK(recvfrom(any, &frame, sizeof frame, 0, (struct sockaddr *)&from, &length) == 16 && number_of(&frame) == 1);
    CHECK(from.can_ifindex == to.can_ifindex);
    /* The frame arrives at can0 by loopback, and at can1 from the bus. */
    send_numbered(can0, 0x123, 2);
    bool has_can0 = false, has_can1 = false;
    for (int i = 0; i < 2; i++) {
        char name[IFNAMSIZ];
        CHECK(comes(any, PATIENCE));
        CHECK(recvfrom(any, &frame, sizeof frame, 0, (struct sockaddr *)&from, &length) == 16 &&
              number_of(&frame) == 2);
        CHECK(if_indextoname((unsigned)from.can_ifindex, name));
        has_can0 |= !strcmp(name, "can0");
        has_can1 |= !strcmp(name, "can1");
    }
    CHECK(has_can0 && has_can1);
    frame = frame_of(0x124, 3);
    CHECK(sendto(any, &frame, sizeof frame, 0, (struct sockaddr *)&to, sizeof to) == 16);
    get(car0, 0x124, 3);
    CHECK(!comes(can0, QUIET));
    /* A socket that is bound to one interface can send on another, but does not receive there. */
    frame = frame_of(0x125, 4);
    CHECK(sendto(can0, &frame, sizeof frame, 0, (struct sockaddr *)&to, sizeof to) == 16);
    get(car0, 0x125, 4);
    send_numbered(car0, 0x126, 5);
    CHECK(!comes(can0, QUIET));
    return 0;
}
