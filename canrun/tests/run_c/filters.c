/* Filters follow the rule in linux/can.h: received & mask == id & mask, inverted by CAN_INV_FILTER. Some filter lists
 * are too long for one message to the server. */
#include "check.h"

#define MANY 200
static int writer, reader;

static void use(const struct can_filter *filters, size_t count) {
    CHECK(setsockopt(reader, SOL_CAN_RAW, CAN_RAW_FILTER, filters, (socklen_t)(count * sizeof *filters)) == 0);
}

/* Sends frames, and checks that exactly the expected ones arrive. The last frame always passes the filters. */
static void passes(const canid_t *sent, size_t count, const canid_t *expected, size_t expected_count) {
    for (size_t i = 0; i < count; i++) {
        struct can_frame frame = {.can_id = sent[i]};
        while (write(writer, &frame, sizeof frame) < 0) {
            CHECK(errno == ENOBUFS);
            usleep(1000);
        }
    }
    for (size_t i = 0; i < expected_count; i++) {
        struct can_frame frame = got(reader);
        if (frame.can_id != expected[i]) {
            fprintf(stderr, "%X instead of %X\n", frame.can_id, expected[i]);
            exit(1);
        }
    }
    CHECK(!comes(reader, QUIET));
}
#define PASSES(sent, ...) \
    passes(sent, sizeof sent / sizeof *sent, (canid_t[]){__VA_ARGS__}, sizeof(canid_t[]){__VA_ARGS__} / sizeof(canid_t))

#define EXTENDED(id) ((id) | CAN_EFF_FLAG)
#define REMOTE(id) ((id) | CAN_RTR_FLAG)
static const canid_t SENT[] = {
    0x123, 0x124, EXTENDED(0x123), REMOTE(0x123), EXTENDED(0x12345123), 0x7FF, REMOTE(EXTENDED(0x123))};

static void many(bool is_joined) {
    struct can_filter filters[MANY];
    canid_t sent[2 * MANY], expected[MANY];
    size_t count = 0;
    for (unsigned i = 0; i < MANY; i++) {
        filters[i] = (struct can_filter){EXTENDED(0x10000 + 2 * i) | (is_joined ? CAN_INV_FILTER : 0),
                                         CAN_EFF_FLAG | CAN_EFF_MASK};
    }
    for (unsigned i = 0; i < 2 * MANY; i++) {
        sent[i] = EXTENDED(0x10000 + i);
        if (i % 2 == is_joined) {
            expected[count++] = sent[i];
        }
    }
    set(reader, CAN_RAW_JOIN_FILTERS, is_joined);
    use(filters, MANY);
    /* The frame is sent on another interface of the bus, and the filters drop it when it comes back. */
    struct sockaddr_can to = address_of("can0");
    struct can_frame frame = {.can_id = is_joined ? filters[0].can_id & ~CAN_INV_FILTER : 0x7FF};
    CHECK(sendto(reader, &frame, sizeof frame, 0, (struct sockaddr *)&to, sizeof to) == sizeof frame);
    passes(sent, 2 * MANY, expected, count);
}

int main(void) {
    writer = bound("can0");
    reader = bound("can1");
    PASSES(SENT, 0x123, 0x124, EXTENDED(0x123), REMOTE(0x123), EXTENDED(0x12345123), 0x7FF, REMOTE(EXTENDED(0x123)));
    use((struct can_filter[]){{0x123, CAN_SFF_MASK}}, 1);
    PASSES(SENT, 0x123, EXTENDED(0x123), REMOTE(0x123), EXTENDED(0x12345123), REMOTE(EXTENDED(0x123)));
    use((struct can_filter[]){{0x123, CAN_EFF_FLAG | CAN_RTR_FLAG | CAN_SFF_MASK}}, 1);
    PASSES(SENT, 0x123);
    use((struct can_filter[]){{EXTENDED(0x123), CAN_EFF_FLAG | CAN_RTR_FLAG | CAN_EFF_MASK}}, 1);
    PASSES(SENT, EXTENDED(0x123));
    use((struct can_filter[]){{REMOTE(0), CAN_RTR_FLAG}}, 1);
    PASSES(SENT, REMOTE(0x123), REMOTE(EXTENDED(0x123)));
    use((struct can_filter[]){{0x123 | CAN_INV_FILTER, CAN_SFF_MASK}}, 1);
    PASSES(SENT, 0x124, 0x7FF);
    use((struct can_filter[]){{0x124, CAN_SFF_MASK}, {0x7FF, CAN_SFF_MASK}}, 2);
    PASSES(SENT, 0x124, 0x7FF);
    set(reader, CAN_RAW_JOIN_FILTERS, 1);
    use((struct can_filter[]){{0x100, 0x700}, {0x123 | CAN_INV_FILTER, CAN_SFF_MASK}}, 2);
    PASSES(SENT, 0x124);
    set(reader, CAN_RAW_JOIN_FILTERS, 0);
    many(false);
    many(true);
    use(NULL, 0);
    struct can_frame frame = {.can_id = 1};
    CHECK(write(writer, &frame, sizeof frame) == 16 && !comes(reader, QUIET));
    use((struct can_filter[]){{0, 0}}, 1);
    set(reader, CAN_RAW_JOIN_FILTERS, 0);
    PASSES(SENT, 0x123, 0x124, EXTENDED(0x123), REMOTE(0x123), EXTENDED(0x12345123), 0x7FF, REMOTE(EXTENDED(0x123)));
    return 0;
}
