/* Tests of the calls of libcanbusd. The expected values follow linux/can.h, linux/can/error.h and linux/can/raw.h.
 * Error counters and lengths of frames follow ISO 11898-1, and refusals follow docs/DEFINITIONS.md. */
#include <canbusd.h>

#include <linux/can.h>
#include <linux/can/error.h>
#include <linux/can/raw.h>
#include <stdio.h>
#include <stdlib.h>
#include <string.h>

static int failed;

static void expect(uint64_t found, uint64_t wanted, const char *what, int line) {
    if (found != wanted) {
        fprintf(stderr, "calls.c:%d: %s is %llu, not %llu\n", line, what, (unsigned long long)found,
                (unsigned long long)wanted);
        failed = 1;
    }
}

#define EQ(found, wanted) expect((uint64_t)(found), (uint64_t)(wanted), #found, __LINE__)

static canbusd *made(const char *names, canbusd_config config) {
    canbusd *bus = NULL;
    EQ(canbusd_new(names, &config, &bus), CANBUSD_OK);
    EQ(bus != NULL, 1);
    if (bus == NULL)
        exit(1);
    return bus;
}

static canbusd_config usual(void) {
    canbusd_config config = CANBUSD_CONFIG;
    return config;
}

static uint32_t opened(canbusd *bus, uint32_t iface) {
    uint32_t socket = 99;
    EQ(canbusd_open(bus, iface, 256, &socket), CANBUSD_OK);
    return socket;
}

/* The layout of a frame and the constants match the kernel's headers. */
static void is_as_linux(void) {
    EQ(sizeof(canbusd_frame), sizeof(struct canfd_frame));
    EQ(offsetof(canbusd_frame, len), offsetof(struct canfd_frame, len));
    EQ(offsetof(canbusd_frame, flags), offsetof(struct canfd_frame, flags));
    EQ(offsetof(canbusd_frame, data), offsetof(struct canfd_frame, data));
    EQ(CANBUSD_EXTENDED, CAN_EFF_FLAG);
    EQ(CANBUSD_REMOTE, CAN_RTR_FLAG);
    EQ(CANBUSD_ERROR, CAN_ERR_FLAG);
    EQ(CANBUSD_INVERTED, CAN_INV_FILTER);
    EQ(CANBUSD_BRS, CANFD_BRS);
    EQ(CANBUSD_ESI, CANFD_ESI);
    EQ(CANBUSD_FDF, 0x04);
    EQ(CANBUSD_ERR_FILTER, CAN_RAW_ERR_FILTER);
    EQ(CANBUSD_LOOPBACK, CAN_RAW_LOOPBACK);
    EQ(CANBUSD_RECV_OWN_MSGS, CAN_RAW_RECV_OWN_MSGS);
    EQ(CANBUSD_FD_FRAMES, CAN_RAW_FD_FRAMES);
    EQ(CANBUSD_JOIN_FILTERS, CAN_RAW_JOIN_FILTERS);
    EQ(sizeof(canbusd_filter), sizeof(struct can_filter));
}

static void a_frame_goes_over_the_bus(void) {
    canbusd *bus = made("can0,can1", usual());
    uint32_t ecu = opened(bus, 0), tester = opened(bus, 1);
    canbusd_frame frame = {.id = 0x123, .len = 2, .data = {0x11, 0x22}};
    canbusd_item item;
    canbusd_tried tried;
    uint64_t number = 99;
    EQ(canbusd_send(bus, ecu, &frame, &number), CANBUSD_OK);
    EQ(number, 0);
    EQ(canbusd_receive(bus, tester, &item), CANBUSD_NOTHING);
    EQ(canbusd_attempt(bus, 1234567, &tried), CANBUSD_OK);
    EQ(tried.outcome, CANBUSD_DONE);
    EQ(tried.iface, 0);
    EQ(tried.accepted, 1 << 1);
    EQ(tried.moment, 1234567);
    EQ(tried.off, 0);
    EQ(memcmp(&tried.frame, &frame, sizeof frame), 0);
    EQ(canbusd_receive(bus, tester, &item), CANBUSD_OK);
    EQ(memcmp(&item.frame, &frame, sizeof frame), 0);
    EQ(item.iface, 0);
    EQ(item.number, 0);
    EQ(item.moment, 1234567);
    /* A socket does not receive the frames that it sent. */
    EQ(canbusd_receive(bus, ecu, &item), CANBUSD_NOTHING);
    EQ(canbusd_attempt(bus, 1234567, &tried), CANBUSD_OK);
    EQ(tried.outcome, CANBUSD_IDLE);
    canbusd_free(bus);
}

/* A frame of each form that linux/can.h defines arrives unchanged. A frame of any other form is refused. */
static void frames_keep_their_shape(void) {
    static const uint8_t lengths[] = {0, 1, 2, 3, 4, 5, 6, 7, 8, 12, 16, 20, 24, 32, 48, 64};
    canbusd *bus = made("can0,can1", usual());
    uint32_t from = opened(bus, 0), to = opened(bus, 1);
    unsigned len, flags, ids;
    EQ(canbusd_set_option(bus, from, CANBUSD_FD_FRAMES, 1), CANBUSD_OK);
    EQ(canbusd_set_option(bus, to, CANBUSD_FD_FRAMES, 1), CANBUSD_OK);
    for (ids = 0; ids < 6; ids++)
        for (flags = 0; flags < 9; flags++)
            for (len = 0; len < 66; len++) {
                static const uint32_t id[] = {0x7FF,
                                              0x800,
                                              0x1FFFFFFFu | CAN_EFF_FLAG,
                                              0x123 | CAN_RTR_FLAG,
                                              0x123 | CAN_EFF_FLAG | CAN_RTR_FLAG,
                                              0x123 | CAN_ERR_FLAG};
                canbusd_frame frame = {.id = id[ids], .len = (uint8_t)len, .flags = (uint8_t)flags};
                canbusd_item item;
                int remote = (id[ids] & CAN_RTR_FLAG) != 0;
                int is_length = memchr(lengths, (int)len, sizeof lengths) != NULL;
                int good = flags == 0 ? len <= 8 : flags >= 4 && flags < 8 && !remote && is_length;
                unsigned i;
                good = good && id[ids] != 0x800 && !(id[ids] & CAN_ERR_FLAG);
                for (i = 0; i < len && i < 64 && !remote; i++)
                    frame.data[i] = (uint8_t)(i + 1);
                EQ(canbusd_send(bus, from, &frame, NULL), good ? CANBUSD_OK : CANBUSD_BAD_FRAME);
                if (!good)
                    continue;
                EQ(canbusd_attempt(bus, 0, NULL), CANBUSD_OK);
                EQ(canbusd_receive(bus, to, &item), CANBUSD_OK);
                EQ(memcmp(&item.frame, &frame, sizeof frame), 0);
            }
    canbusd_free(bus);
}

/* ISO 11898-1: a transmit error adds 8. So 16 errors in a row make an interface error passive, and 32 make it bus off.
 */
static void errors_count(void) {
    canbusd_config config = CANBUSD_CONFIG;
    canbusd *bus;
    uint32_t from, to;
    canbusd_frame frame = {.id = 1};
    canbusd_status status;
    canbusd_item item;
    canbusd_tried tried;
    int i;
    config.reporting = 1;
    bus = made("can0,can1", config);
    from = opened(bus, 0), to = opened(bus, 1);
    EQ(canbusd_set_option(bus, from, CANBUSD_ERR_FILTER, CAN_ERR_MASK), CANBUSD_OK);
    EQ(canbusd_inject(bus, "always global bit"), CANBUSD_OK);
    EQ(canbusd_send(bus, from, &frame, NULL), CANBUSD_OK);
    for (i = 1; i <= 32; i++) {
        EQ(canbusd_attempt(bus, (uint64_t)i, &tried), CANBUSD_OK);
        EQ(tried.outcome, CANBUSD_DESTROYED);
        EQ(tried.off, i == 32);
        EQ(canbusd_get_status(bus, 0, &status), CANBUSD_OK);
        EQ(status.tec, 8 * i);
        EQ(status.state, 8 * i < 96    ? CANBUSD_STATE_ACTIVE
                         : 8 * i < 128 ? CANBUSD_STATE_WARNING
                         : 8 * i < 256 ? CANBUSD_STATE_PASSIVE
                                       : CANBUSD_STATE_OFF);
    }
    EQ(status.lost, 1);
    EQ(canbusd_send(bus, from, &frame, NULL), CANBUSD_BUS_OFF);
    EQ(canbusd_receive(bus, from, &item), CANBUSD_OK);
    EQ(item.frame.id & CAN_ERR_FLAG, CAN_ERR_FLAG);
    EQ(item.frame.id & CAN_ERR_PROT, CAN_ERR_PROT);
    EQ(item.frame.len, CAN_ERR_DLC);
    EQ(canbusd_restart(bus, 1, 40), CANBUSD_NOT_BUS_OFF);
    EQ(canbusd_restart(bus, 0, 40), CANBUSD_OK);
    EQ(canbusd_end_rules(bus), CANBUSD_OK);
    EQ(canbusd_send(bus, from, &frame, NULL), CANBUSD_OK);
    EQ(canbusd_attempt(bus, 41, &tried), CANBUSD_OK);
    EQ(tried.outcome, CANBUSD_DONE);
    EQ(canbusd_down(bus, 0, 42), CANBUSD_OK);
    EQ(canbusd_send(bus, from, &frame, NULL), CANBUSD_DOWN);
    EQ(canbusd_get_status(bus, 0, &status), CANBUSD_OK);
    EQ(status.state, CANBUSD_STATE_DOWN);
    (void)to;
    canbusd_free(bus);
}

/* ISO 11898-1: a frame 555 without data has 44 bits, plus its stuff bits and 3 bits of intermission. At 500 kbit/s a
 * bit takes 2 microseconds. */
static void bits_take_time(void) {
    canbusd_config config = CANBUSD_CONFIG;
    canbusd *bus;
    uint32_t from, to;
    canbusd_frame frame = {.id = 0x555, .len = 0};
    canbusd_item item;
    canbusd_load load;
    uint64_t first = 0, made_here = 0;
    config.bitrate = 500000;
    bus = made("can0,can1", config);
    from = opened(bus, 0), to = opened(bus, 1);
    EQ(canbusd_send(bus, from, &frame, NULL), CANBUSD_OK);
    EQ(canbusd_send(bus, from, &frame, NULL), CANBUSD_OK);
    EQ(canbusd_run(bus, 1, &made_here), CANBUSD_OK);
    EQ(made_here, 1);
    EQ(canbusd_receive(bus, to, &item), CANBUSD_OK);
    first = item.moment;
    /* The frame has 44 bits, plus at most one stuff bit for every four bits. */
    EQ(first >= 88 && first <= 110, 1);
    EQ(canbusd_run(bus, 100000, &made_here), CANBUSD_OK);
    EQ(made_here, 1);
    EQ(canbusd_receive(bus, to, &item), CANBUSD_OK);
    EQ(item.moment, 2 * first + 6);
    EQ(canbusd_run(bus, 99999, NULL), CANBUSD_BAD_RUN);
    EQ(canbusd_get_load(bus, 100000, &load), CANBUSD_OK);
    EQ(load.bitrate, 500000);
    EQ(load.data_bitrate, 500000);
    EQ(load.micros, 2 * first + 12);
    canbusd_free(bus);
    bus = made("can0", usual());
    EQ(canbusd_run(bus, 1, NULL), CANBUSD_BAD_RUN);
    EQ(canbusd_get_load(bus, 0, &load), CANBUSD_OK);
    EQ(load.bitrate, 0);
    canbusd_free(bus);
}

static void filters_pass_what_matches(void) {
    canbusd *bus = made("can0,can1", usual());
    uint32_t from = opened(bus, 0), to = opened(bus, 1), id;
    canbusd_filter filters[513] = {{.id = 0x100, .mask = 0x700}, {.id = 0x7DF, .mask = CAN_SFF_MASK}};
    canbusd_filter invalid = {.id = 0, .mask = CAN_ERR_FLAG};
    canbusd_item item;
    canbusd_stats stats;
    unsigned got = 0;
    EQ(canbusd_set_filters(bus, to, filters, 2), CANBUSD_OK);
    EQ(canbusd_set_filters(bus, to, &invalid, 1), CANBUSD_BAD_FILTER);
    EQ(canbusd_set_filters(bus, to, filters, 513), CANBUSD_TOO_MANY_FILTERS);
    for (id = 0; id < 0x800; id++) {
        canbusd_frame frame = {.id = id};
        EQ(canbusd_send(bus, from, &frame, NULL), CANBUSD_OK);
        EQ(canbusd_attempt(bus, id, NULL), CANBUSD_OK);
        got += canbusd_receive(bus, to, &item) == CANBUSD_OK;
    }
    EQ(got, 257);
    EQ(canbusd_get_stats(bus, to, &stats), CANBUSD_OK);
    EQ(stats.queued, 257);
    EQ(stats.taken, 257);
    EQ(stats.dropped, 0);
    EQ(canbusd_set_filters(bus, to, NULL, 0), CANBUSD_OK);
    EQ(canbusd_send(bus, from, &(canbusd_frame){.id = 0x101}, NULL), CANBUSD_OK);
    EQ(canbusd_attempt(bus, 9999, NULL), CANBUSD_OK);
    EQ(canbusd_receive(bus, to, &item), CANBUSD_NOTHING);
    canbusd_free(bus);
}

static void limits_are_kept(void) {
    canbusd_config config = CANBUSD_CONFIG;
    canbusd *bus;
    uint32_t socket, sockets[64], i;
    canbusd_closed left;
    canbusd_item item;
    canbusd_frame frame = {.id = 5};
    config.limit = 80;
    config.tx_capacity = 2;
    bus = made("can0,can1", config);
    EQ(canbusd_open(bus, 2, 1, &socket), CANBUSD_NO_INTERFACE);
    EQ(canbusd_open(bus, 16, 1, &socket), CANBUSD_NO_INTERFACE);
    EQ(canbusd_open(bus, UINT32_MAX, 1, &socket), CANBUSD_NO_INTERFACE);
    EQ(canbusd_open(bus, 0, 0, &socket), CANBUSD_BAD_CAPACITY);
    EQ(canbusd_open(bus, 0, 65537, &socket), CANBUSD_BAD_CAPACITY);
    for (i = 0; i < 64; i++)
        EQ(canbusd_open(bus, i % 2, 1, &sockets[i]), CANBUSD_OK);
    EQ(canbusd_open(bus, 0, 1, &socket), CANBUSD_TOO_MANY_SOCKETS);
    EQ(canbusd_close(bus, sockets[63], &left), CANBUSD_OK);
    EQ(canbusd_close(bus, sockets[63], &left), CANBUSD_NO_SOCKET);
    EQ(canbusd_send(bus, sockets[63], &frame, NULL), CANBUSD_NO_SOCKET);
    EQ(canbusd_receive(bus, UINT32_MAX, &item), CANBUSD_NO_SOCKET);
    EQ(canbusd_send(bus, sockets[0], &frame, NULL), CANBUSD_OK);
    EQ(canbusd_send(bus, sockets[0], &frame, NULL), CANBUSD_OK);
    EQ(canbusd_send(bus, sockets[0], &frame, NULL), CANBUSD_NO_BUFFERS);
    frame.flags = CANBUSD_FDF;
    EQ(canbusd_send(bus, sockets[0], &frame, NULL), CANBUSD_FD_OFF);
    /* The loop fills the record up to its limit of 80 entries. The calls above have also added entries, except the
     * opens of interface 16 and of UINT32_MAX. */
    for (i = 0; canbusd_attempt(bus, i, NULL) == CANBUSD_OK; i++)
        ;
    EQ(canbusd_attempt(bus, 99, NULL), CANBUSD_RECORD_FULL);
    EQ(canbusd_send(bus, sockets[0], &frame, NULL), CANBUSD_RECORD_FULL);
    EQ(canbusd_open(bus, 0, 1, &socket), CANBUSD_RECORD_FULL);
    canbusd_free(bus);
}

static void misuse_is_defined(void) {
    canbusd_config config = CANBUSD_CONFIG, bad;
    canbusd *bus = (canbusd *)&config;
    uint32_t socket;
    canbusd_item item;
    canbusd_status status;
    canbusd_stats stats;
    canbusd_load load;
    canbusd_frame frame = {.id = 5};
    size_t len;
    char text[4];
    EQ(canbusd_new(NULL, &config, &bus), CANBUSD_NULL);
    EQ(bus == NULL, 1);
    EQ(canbusd_new("can0", NULL, &bus), CANBUSD_NULL);
    EQ(canbusd_new("can0", &config, NULL), CANBUSD_NULL);
    EQ(canbusd_new("", &config, &bus), CANBUSD_BAD_NAMES);
    EQ(canbusd_new("can0,can0", &config, &bus), CANBUSD_BAD_NAMES);
    EQ(canbusd_new("can0,,can1", &config, &bus), CANBUSD_BAD_NAMES);
    EQ(canbusd_new("a23456789012345x", &config, &bus), CANBUSD_BAD_NAMES);
    EQ(canbusd_new("\xff", &config, &bus), CANBUSD_BAD_NAMES);
    EQ(canbusd_new("0,1,2,3,4,5,6,7,8,9,a,b,c,d,e,f,g", &config, &bus), CANBUSD_BAD_NAMES);
#define BAD(field, value, code)                \
    bad = config;                              \
    bad.field = value;                         \
    EQ(canbusd_new("can0", &bad, &bus), code); \
    EQ(bus == NULL, 1)
    BAD(ack, 2, CANBUSD_BAD_CONFIG);
    BAD(reporting, 0x10000, CANBUSD_BAD_CONFIG);
    BAD(tx_capacity, 0, CANBUSD_BAD_CONFIG);
    BAD(tx_capacity, 1025, CANBUSD_BAD_CONFIG);
    BAD(limit, 0, CANBUSD_BAD_CONFIG);
    BAD(limit, 16777217, CANBUSD_BAD_CONFIG);
    BAD(auto_restart, 1000001, CANBUSD_BAD_CONFIG);
    BAD(bitrate, 1, CANBUSD_BAD_BIT_RATES);
    BAD(data_bitrate, 500000, CANBUSD_BAD_BIT_RATES);
    canbusd_free(NULL);
    EQ(canbusd_open(NULL, 0, 1, &socket), CANBUSD_NULL);
    EQ(canbusd_close(NULL, 0, NULL), CANBUSD_NULL);
    EQ(canbusd_set_filters(NULL, 0, NULL, 0), CANBUSD_NULL);
    EQ(canbusd_set_option(NULL, 0, 0, 0), CANBUSD_NULL);
    EQ(canbusd_send(NULL, 0, &frame, NULL), CANBUSD_NULL);
    EQ(canbusd_receive(NULL, 0, &item), CANBUSD_NULL);
    EQ(canbusd_attempt(NULL, 0, NULL), CANBUSD_NULL);
    EQ(canbusd_run(NULL, 0, NULL), CANBUSD_NULL);
    EQ(canbusd_restart(NULL, 0, 0), CANBUSD_NULL);
    EQ(canbusd_down(NULL, 0, 0), CANBUSD_NULL);
    EQ(canbusd_inject(NULL, ""), CANBUSD_NULL);
    EQ(canbusd_end_rules(NULL), CANBUSD_NULL);
    EQ(canbusd_get_status(NULL, 0, &status), CANBUSD_NULL);
    EQ(canbusd_get_stats(NULL, 0, &stats), CANBUSD_NULL);
    EQ(canbusd_get_load(NULL, 0, &load), CANBUSD_NULL);
    EQ(canbusd_record(NULL, text, 4, &len), CANBUSD_NULL);
    bus = made("can0", config);
    EQ(canbusd_open(bus, 0, 1, NULL), CANBUSD_NULL);
    EQ(canbusd_open(bus, 0, 1, &socket), CANBUSD_OK);
    EQ(canbusd_close(bus, 7, NULL), CANBUSD_NO_SOCKET);
    EQ(canbusd_set_filters(bus, socket, NULL, 1), CANBUSD_NULL);
    EQ(canbusd_set_option(bus, socket, 1, 0), CANBUSD_BAD_OPTION);
    EQ(canbusd_set_option(bus, socket, 7, 0), CANBUSD_BAD_OPTION);
    EQ(canbusd_send(bus, socket, NULL, NULL), CANBUSD_NULL);
    EQ(canbusd_receive(bus, socket, NULL), CANBUSD_NULL);
    EQ(canbusd_attempt(bus, 10000000000000000u, NULL), CANBUSD_BAD_MOMENT);
    EQ(canbusd_run(bus, UINT64_MAX, NULL), CANBUSD_BAD_MOMENT);
    EQ(canbusd_restart(bus, 0, UINT64_MAX), CANBUSD_BAD_MOMENT);
    EQ(canbusd_restart(bus, 1, 0), CANBUSD_NO_INTERFACE);
    EQ(canbusd_down(bus, 256, 0), CANBUSD_NO_INTERFACE);
    EQ(canbusd_inject(bus, NULL), CANBUSD_NULL);
    EQ(canbusd_inject(bus, "nonsense"), CANBUSD_BAD_RULE);
    EQ(canbusd_inject(bus, "always from can9 global bit"), CANBUSD_NO_INTERFACE);
    for (socket = 0; socket < 64; socket++)
        EQ(canbusd_inject(bus, "next 1 id 005 global bit"), CANBUSD_OK);
    EQ(canbusd_inject(bus, "next 1 id 005 global bit"), CANBUSD_TOO_MANY_RULES);
    EQ(canbusd_get_status(bus, 1, &status), CANBUSD_NO_INTERFACE);
    EQ(canbusd_get_stats(bus, 9, &stats), CANBUSD_NO_SOCKET);
    EQ(canbusd_get_load(bus, UINT64_MAX, &load), CANBUSD_BAD_MOMENT);
    EQ(canbusd_record(bus, NULL, 4, &len), CANBUSD_NULL);
    EQ(canbusd_record(bus, NULL, 0, &len), CANBUSD_OK);
    EQ(len > 4, 1);
    EQ(canbusd_record(bus, text, 4, &len), CANBUSD_OK);
    EQ(strcmp(canbusd_strerror(CANBUSD_NO_BUFFERS), "no buffers"), 0);
    EQ(strcmp(canbusd_strerror(UINT32_MAX), "no such code"), 0);
    canbusd_free(bus);
}

/* A refused call leaves its output parameters unchanged. */
static void refused_calls_leave_their_results(void) {
    canbusd_config config = CANBUSD_CONFIG;
    canbusd *bus;
    struct results {
        uint32_t socket;
        uint64_t number, made;
        size_t len;
        canbusd_closed left;
        canbusd_item item;
        canbusd_tried tried;
        canbusd_status status;
        canbusd_stats stats;
        canbusd_load load;
    } found, before;
    config.limit = 1;
    bus = made("can0", config);
    memset(&before, 0x5A, sizeof before);
    memcpy(&found, &before, sizeof found);
    EQ(canbusd_open(bus, 1, 1, &found.socket), CANBUSD_NO_INTERFACE);
    EQ(canbusd_open(bus, 16, 1, &found.socket), CANBUSD_NO_INTERFACE);
    EQ(canbusd_close(bus, 0, &found.left), CANBUSD_RECORD_FULL);
    EQ(canbusd_send(bus, 0, &(canbusd_frame){.id = 1}, &found.number), CANBUSD_RECORD_FULL);
    EQ(canbusd_send(bus, 0, &(canbusd_frame){.len = 9}, &found.number), CANBUSD_BAD_FRAME);
    EQ(canbusd_receive(bus, 0, &found.item), CANBUSD_RECORD_FULL);
    EQ(canbusd_attempt(bus, 0, &found.tried), CANBUSD_RECORD_FULL);
    EQ(canbusd_attempt(bus, UINT64_MAX, &found.tried), CANBUSD_BAD_MOMENT);
    EQ(canbusd_run(bus, 1, &found.made), CANBUSD_BAD_RUN);
    EQ(canbusd_get_status(bus, 1, &found.status), CANBUSD_NO_INTERFACE);
    EQ(canbusd_get_stats(bus, 0, &found.stats), CANBUSD_NO_SOCKET);
    EQ(canbusd_get_load(bus, UINT64_MAX, &found.load), CANBUSD_BAD_MOMENT);
    EQ(canbusd_record(bus, NULL, 1, &found.len), CANBUSD_NULL);
    EQ(memcmp(&found, &before, sizeof found), 0);
    canbusd_free(bus);
    bus = made("can0", usual());
    EQ(canbusd_open(bus, 0, 1, &found.socket), CANBUSD_OK);
    EQ(canbusd_receive(bus, found.socket, &found.item), CANBUSD_NOTHING);
    EQ(memcmp(&found.item, &before.item, sizeof found.item), 0);
    canbusd_free(bus);
}

/* Each error code has a message that no other code has. */
static void codes_have_their_texts(void) {
    uint32_t code, other;
    for (code = CANBUSD_OK; code <= CANBUSD_TOO_LONG; code++) {
        EQ(strcmp(canbusd_strerror(code), "no such code") != 0, 1);
        for (other = CANBUSD_OK; other < code; other++)
            EQ(strcmp(canbusd_strerror(code), canbusd_strerror(other)) != 0, 1);
    }
    EQ(strcmp(canbusd_strerror(CANBUSD_TOO_LONG + 1), "no such code"), 0);
}

static void buses_do_not_grow(void) {
    int i;
    for (i = 0; i < 100000; i++) {
        canbusd_config config = CANBUSD_CONFIG;
        canbusd *bus;
        uint32_t socket;
        config.limit = 100;
        bus = made("can0,can1", config);
        EQ(canbusd_open(bus, 0, 16, &socket), CANBUSD_OK);
        canbusd_free(bus);
    }
}

/* Writes the record of a short run, which the test audits. */
static void writes_its_record(const char *path) {
    canbusd_config config = CANBUSD_CONFIG;
    canbusd *bus;
    uint32_t from, to;
    char *text;
    size_t len = 0;
    FILE *file;
    canbusd_item item;
    config.bitrate = 500000;
    bus = made("can0,can1", config);
    from = opened(bus, 0), to = opened(bus, 1);
    EQ(canbusd_inject(bus, "next 1 lastbit"), CANBUSD_OK);
    EQ(canbusd_send(bus, from, &(canbusd_frame){.id = 0x7E8, .len = 3, .data = {2, 0x41, 0}}, NULL), CANBUSD_OK);
    EQ(canbusd_run(bus, 1000000, NULL), CANBUSD_OK);
    while (canbusd_receive(bus, to, &item) == CANBUSD_OK)
        ;
    EQ(canbusd_close(bus, to, NULL), CANBUSD_OK);
    EQ(canbusd_record(bus, NULL, 0, &len), CANBUSD_OK);
    text = malloc(len);
    EQ(canbusd_record(bus, text, len, &len), CANBUSD_OK);
    file = fopen(path, "wb");
    if (file == NULL || fwrite(text, 1, len, file) != len || fclose(file) != 0)
        failed = 1;
    free(text);
    canbusd_free(bus);
}

int main(int argc, char **argv) {
    is_as_linux();
    a_frame_goes_over_the_bus();
    frames_keep_their_shape();
    errors_count();
    bits_take_time();
    filters_pass_what_matches();
    limits_are_kept();
    misuse_is_defined();
    refused_calls_leave_their_results();
    codes_have_their_texts();
    buses_do_not_grow();
    if (argc == 2)
        writes_its_record(argv[1]);
    return failed;
}
