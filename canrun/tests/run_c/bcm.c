/* The broadcast manager, as in Documentation/networking/can.rst and linux/can/bcm.h: cyclic frames, content filters,
 * timeouts, the throttle, replies to remote frames, and every errno. */
#include "check.h"

struct message {
    struct bcm_msg_head head;
    struct can_frame frames[4];
};

static int manager, raw;

static int opened(const char *name) {
    int fd = socket(PF_CAN, SOCK_DGRAM, CAN_BCM);
    struct sockaddr_can address = address_of(name);
    CHECK(fd >= 0 && connect(fd, (struct sockaddr *)&address, sizeof address) == 0);
    return fd;
}

static size_t size_of(unsigned frames) {
    return sizeof(struct bcm_msg_head) + frames * sizeof(struct can_frame);
}

static ssize_t give(struct message message) {
    return write(manager, &message, size_of(message.head.nframes));
}

static struct message expect(uint32_t opcode, canid_t id, uint32_t frames) {
    struct message message;
    CHECK(comes(manager, PATIENCE));
    ssize_t length = read(manager, &message, sizeof message);
    if (message.head.opcode != opcode || message.head.can_id != id || message.head.nframes != frames ||
        length != (ssize_t)size_of(frames)) {
        fprintf(stderr, "message %u of %X with %u frames, not %u of %X with %u\n", message.head.opcode,
                message.head.can_id, message.head.nframes, opcode, id, frames);
        exit(1);
    }
    return message;
}

static struct bcm_timeval ms(long milliseconds) {
    return (struct bcm_timeval){milliseconds / 1000, milliseconds % 1000 * 1000};
}

static double now(void) {
    struct timespec time;
    clock_gettime(CLOCK_MONOTONIC, &time);
    return (double)time.tv_sec * 1e3 + (double)time.tv_nsec / 1e6;
}

static void faults(void) {
    struct message one = {.head = {.opcode = TX_SETUP, .can_id = 0x100, .nframes = 1}};
    int loose = socket(PF_CAN, SOCK_DGRAM, CAN_BCM);
    CHECK(loose >= 0);
    FAILS(write(loose, &one, size_of(1)), ENOTCONN);
    FAILS(bind(loose, (struct sockaddr *)&(struct sockaddr_can){.can_family = AF_CAN}, sizeof(struct sockaddr_can)),
          EOPNOTSUPP);
    FAILS(setsockopt(loose, SOL_CAN_BASE + CAN_BCM, 1, &(int){1}, sizeof(int)), EOPNOTSUPP);
    CHECK(connect(loose, (struct sockaddr *)&(struct sockaddr_can){.can_family = AF_CAN},
                  sizeof(struct sockaddr_can)) == 0);
    FAILS(write(loose, &one, size_of(1)), ENODEV); /* A socket on all interfaces cannot send. */
    CHECK(close(loose) == 0);
    FAILS(write(manager, &one, 10), EINVAL);
    FAILS(write(manager, &one, size_of(1) - 1), EINVAL);
    one.head.nframes = 0;
    FAILS(give(one), EINVAL);
    one.head.opcode = 99;
    FAILS(give(one), EINVAL);
    one.head.opcode = TX_DELETE;
    FAILS(give(one), EINVAL);
    one.head.opcode = TX_READ;
    FAILS(give(one), EINVAL);
    one.head.opcode = TX_SEND;
    FAILS(give(one), EINVAL);
}

static void cyclic(void) {
    struct message task = {
        .head = {.opcode = TX_SETUP, .flags = SETTIMER | STARTTIMER, .can_id = 77, .nframes = 2, .ival2 = ms(20)},
        .frames = {frame_of(0x101, 1), frame_of(0x102, 2)}};
    double start = now();
    CHECK(give(task) == (ssize_t)size_of(2));
    for (int i = 0; i < 5; i++) {
        get(raw, 0x101, 1);
        get(raw, 0x102, 2);
    }
    CHECK(now() - start >= 9 * 20 - 5); /* The first frame is sent at once, then one every 20 ms. */
    /* The contents change, but the timer is not restarted. */
    struct message changed = {.head = {.opcode = TX_SETUP, .can_id = 77, .nframes = 2},
                              .frames = {frame_of(0x101, 3), frame_of(0x102, 4)}};
    CHECK(give(changed) == (ssize_t)size_of(2));
    struct can_frame frame;
    do {
        frame = got(raw);
    } while (number_of(&frame) < 3);
    CHECK(give((struct message){.head = {.opcode = TX_READ, .can_id = 77}}) == (ssize_t)size_of(0));
    struct message status = expect(TX_STATUS, 77, 2);
    CHECK(number_of(&status.frames[0]) == 3 && number_of(&status.frames[1]) == 4 && status.head.ival2.tv_usec == 20000);
    changed.head.nframes = 3;
    FAILS(give(changed), E2BIG);
    CHECK(give((struct message){.head = {.opcode = TX_DELETE, .can_id = 77}}) == (ssize_t)size_of(0));
    while (comes(raw, QUIET)) {
        got(raw);
    }
    FAILS(give((struct message){.head = {.opcode = TX_READ, .can_id = 77}}), EINVAL);
}

/* Sends three frames, 10 ms apart. Then the task stops, and the program receives a message about it. */
static void counted(void) {
    struct message task = {.head = {.opcode = TX_SETUP,
                                    .flags = SETTIMER | STARTTIMER | TX_COUNTEVT | TX_CP_CAN_ID,
                                    .can_id = 0x155,
                                    .nframes = 1,
                                    .count = 3,
                                    .ival1 = ms(10)},
                           .frames = {frame_of(0x7FF, 5)}};
    CHECK(give(task) > 0);
    expect(TX_EXPIRED, 0x155, 0);
    for (int i = 0; i < 3; i++) {
        get(raw, 0x155, 5); /* TX_CP_CAN_ID */
    }
    CHECK(!comes(raw, QUIET));
    CHECK(give((struct message){.head = {.opcode = TX_SEND, .nframes = 1}, .frames = {frame_of(0x123, 6)}}) ==
          (ssize_t)size_of(1));
    get(raw, 0x123, 6);
}

static void filtered(void) {
    struct can_frame mask = {.can_id = 0x201, .can_dlc = 8, .data = {0xFF}};
    CHECK(give((struct message){.head = {.opcode = RX_SETUP, .flags = RX_FILTER_ID, .can_id = 0x200}}) > 0);
    CHECK(give((struct message){.head = {.opcode = RX_SETUP, .can_id = 0x201, .nframes = 1}, .frames = {mask}}) > 0);
    send_numbered(raw, 0x200, 1);
    send_numbered(raw, 0x200, 1);
    send_numbered(raw, 0x201, 0x101); /* The first frame is new. */
    send_numbered(raw, 0x201, 0x201); /* The frame differs only in bits outside the mask. */
    send_numbered(raw, 0x201, 0x202);
    send_numbered(raw, 0x202, 9);
    struct message message;
    for (int i = 0; i < 2; i++) {
        message = expect(RX_CHANGED, 0x200, 1);
        CHECK(message.frames[0].can_id == 0x200 && number_of(&message.frames[0]) == 1);
    }
    message = expect(RX_CHANGED, 0x201, 1);
    CHECK(number_of(&message.frames[0]) == 0x101);
    message = expect(RX_CHANGED, 0x201, 1);
    CHECK(number_of(&message.frames[0]) == 0x202);
    CHECK(give((struct message){.head = {.opcode = RX_DELETE, .can_id = 0x200}}) > 0);
    CHECK(give((struct message){.head = {.opcode = RX_DELETE, .can_id = 0x201}}) > 0);
    send_numbered(raw, 0x200, 2);
    CHECK(!comes(manager, QUIET));
}

static void limits(void) {
    CHECK(give((struct message){.head = {.opcode = RX_SETUP,
                                         .flags = SETTIMER | RX_ANNOUNCE_RESUME,
                                         .can_id = 0x210,
                                         .nframes = 1,
                                         .ival1 = ms(50)},
                                .frames = {{.can_id = 0x210, .data = {0xFF}}}}) > 0);
    send_numbered(raw, 0x210, 1);
    expect(RX_CHANGED, 0x210, 1);
    expect(RX_TIMEOUT, 0x210, 0);
    send_numbered(raw, 0x210, 1); /* The frame has not changed, but comes after a timeout. */
    expect(RX_CHANGED, 0x210, 1);
    CHECK(give((struct message){.head = {.opcode = RX_DELETE, .can_id = 0x210}}) > 0);
    while (comes(manager, 0)) {
        expect(RX_TIMEOUT, 0x210, 0); /* On a slow machine there was a second timeout. */
    }
    /* The throttle allows at most one message in two seconds. */
    double start = now();
    CHECK(give((struct message){
              .head = {.opcode = RX_SETUP, .flags = SETTIMER | RX_FILTER_ID, .can_id = 0x211, .ival2 = ms(2000)}}) > 0);
    for (unsigned i = 0; i < 5; i++) {
        send_numbered(raw, 0x211, i);
    }
    struct message first = expect(RX_CHANGED, 0x211, 1), last = expect(RX_CHANGED, 0x211, 1);
    CHECK(number_of(&first.frames[0]) == 0 && number_of(&last.frames[0]) == 4 && now() - start >= 1999);
    CHECK(give((struct message){.head = {.opcode = RX_DELETE, .can_id = 0x211}}) > 0);
}

static void remote(void) {
    struct can_frame request = {.can_id = 0x220 | CAN_RTR_FLAG};
    CHECK(give((struct message){
              .head = {.opcode = RX_SETUP, .flags = RX_RTR_FRAME, .can_id = 0x220 | CAN_RTR_FLAG, .nframes = 1},
              .frames = {frame_of(0x220, 42)}}) > 0);
    CHECK(write(raw, &request, sizeof request) == sizeof request);
    get(raw, 0x220, 42);
}

/* On a socket for all interfaces, sendto names the interface, and recvfrom returns the interface of the frame. */
static void all_interfaces(void) {
    int all = opened(NULL);
    struct sockaddr_can to = address_of("can0"), from;
    socklen_t length = sizeof from;
    struct message task = {.head = {.opcode = TX_SEND, .nframes = 1}, .frames = {frame_of(0x123, 8)}}, message;
    CHECK(sendto(all, &task, size_of(1), 0, (struct sockaddr *)&to, sizeof to) == (ssize_t)size_of(1));
    get(raw, 0x123, 8);
    task.head = (struct bcm_msg_head){.opcode = RX_SETUP, .flags = RX_FILTER_ID, .can_id = 0x230};
    CHECK(sendto(all, &task, size_of(0), 0, (struct sockaddr *)&to, sizeof to) == (ssize_t)size_of(0));
    send_numbered(raw, 0x230, 1);
    CHECK(comes(all, PATIENCE) &&
          recvfrom(all, &message, sizeof message, 0, (struct sockaddr *)&from, &length) == (ssize_t)size_of(1));
    CHECK(from.can_ifindex == to.can_ifindex && message.head.opcode == RX_CHANGED);
}

int main(void) {
    manager = opened("can0");
    raw = bound("can1");
    faults();
    cyclic();
    counted();
    filtered();
    limits();
    remote();
    all_interfaces();
    return 0;
}
