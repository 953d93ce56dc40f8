/* A unit test of ecu.c: it runs the same code as the target, on a bus inside the test. */
#include "ecu.h"

#include <canbusd.h>
#include <stdio.h>
#include <stdlib.h>
#include <string.h>

#define CHECK(what)                                                    \
    do {                                                               \
        if (!(what)) {                                                 \
            fprintf(stderr, "%s:%d: %s\n", __FILE__, __LINE__, #what); \
            exit(1);                                                   \
        }                                                              \
    } while (0)

static canbusd *bus;
static uint32_t ecu, tester;
static uint64_t now;

/* The functions of the ECU's driver, on interface 0. */
static bool send_frame(void *self, uint32_t id, const uint8_t *data, uint8_t len) {
    canbusd_frame frame = {.id = id, .len = len};
    (void)self;
    memcpy(frame.data, data, len);
    return canbusd_send(bus, ecu, &frame, NULL) == CANBUSD_OK;
}

static bool receive_frame(void *self, uint32_t *id, uint8_t *data, uint8_t *len) {
    canbusd_item item;
    (void)self;
    if (canbusd_receive(bus, ecu, &item) != CANBUSD_OK)
        return false;
    *id = item.frame.id;
    *len = item.frame.len;
    memcpy(data, item.frame.data, 8);
    return true;
}

static bool is_off(void *self) {
    canbusd_status status;
    (void)self;
    return canbusd_get_status(bus, 0, &status) == CANBUSD_OK && status.state == CANBUSD_STATE_OFF;
}

static void restart(void *self) {
    (void)self;
    canbusd_restart(bus, 0, now);
}

static uint32_t errors(void *self) {
    canbusd_status status;
    (void)self;
    canbusd_get_status(bus, 0, &status);
    return status.tec;
}

static const can_driver driver = {NULL, send_frame, receive_frame, is_off, restart, errors};

/* Runs the bus for a millisecond, and calls the ECU once. */
static void pass_millisecond(void) {
    now += 1000;
    CHECK(canbusd_run(bus, now, NULL) == CANBUSD_OK);
    ecu_step(&driver, 55);
}

static void ask(void) {
    CHECK(canbusd_send(bus, tester, &(canbusd_frame){.id = 0x7DF, .len = 8, .data = {2, 0x01, 0x0D}}, NULL) ==
          CANBUSD_OK);
}

static void is_answered(void) {
    canbusd_item item;
    CHECK(canbusd_receive(bus, tester, &item) == CANBUSD_OK);
    CHECK(item.frame.id == 0x7E8 && item.frame.data[3] == 55);
}

int main(void) {
    canbusd_config config = CANBUSD_CONFIG;
    config.bitrate = 500000;
    CHECK(canbusd_new("ecu,tester", &config, &bus) == CANBUSD_OK);
    CHECK(canbusd_open(bus, 0, 64, &ecu) == CANBUSD_OK && canbusd_open(bus, 1, 64, &tester) == CANBUSD_OK);

    ask();
    pass_millisecond();
    pass_millisecond();
    is_answered();

    /* After 32 faults in its answer the ECU is bus off. It restarts, and answers the next request. */
    CHECK(canbusd_inject(bus, "next 32 from ecu global bit") == CANBUSD_OK);
    ask();
    for (int i = 0; i < 20 && !is_off(NULL); i++) {
        now += 1000;
        CHECK(canbusd_run(bus, now, NULL) == CANBUSD_OK);
        if (!is_off(NULL))
            ecu_step(&driver, 55);
    }
    CHECK(is_off(NULL) && errors(NULL) == 256);
    pass_millisecond();
    CHECK(!is_off(NULL) && errors(NULL) == 0);
    ask();
    pass_millisecond();
    pass_millisecond();
    is_answered();

    canbusd_free(bus);
    puts("ok");
    return 0;
}
