/* Measures what calls of libcanbusd cost, in nanoseconds of processor time: the minimum of five rounds.
 *
 *     cc -O2 -I../libcanbusd library.c ../libcanbusd/out/libcanbusd.a -o library && ./library */
#include <canbusd.h>

#include <stdio.h>
#include <stdlib.h>
#include <time.h>

enum { ROUNDS = 5, COUNT = 1000000 };

static double now(void) {
    struct timespec t;
    clock_gettime(CLOCK_PROCESS_CPUTIME_ID, &t);
    return t.tv_sec * 1e9 + t.tv_nsec;
}

static canbusd *bus;
static uint32_t from, to;

static void start(void) {
    canbusd_config config = CANBUSD_CONFIG;
    config.limit = 4 * COUNT;
    config.tx_capacity = 1024;
    if (canbusd_new("can0,can1", &config, &bus) || canbusd_open(bus, 0, 65536, &from) ||
        canbusd_open(bus, 1, 65536, &to))
        exit(1);
}

int main(void) {
    double best[5] = {1e18, 1e18, 1e18, 1e18, 1e18};
    static const char *const names[] = {"send", "attempt", "receive", "send, attempt and receive",
                                        "a bus made and freed"};
    canbusd_frame frame = {.id = 0x123, .len = 2, .data = {0x11, 0x22}};
    canbusd_item item;
    int round, i, k;
    for (round = 0; round < ROUNDS; round++) {
        double spent[5] = {0, 0, 0, 0, 0}, begin;
        start();
        for (i = 0; i < COUNT; i += 1000) {
            begin = now();
            for (k = 0; k < 1000; k++)
                if (canbusd_send(bus, from, &frame, NULL))
                    return 1;
            spent[0] += now() - begin, begin = now();
            for (k = 0; k < 1000; k++)
                if (canbusd_attempt(bus, (uint64_t)i, NULL))
                    return 1;
            spent[1] += now() - begin, begin = now();
            for (k = 0; k < 1000; k++)
                if (canbusd_receive(bus, to, &item))
                    return 1;
            spent[2] += now() - begin;
        }
        canbusd_free(bus);
        start();
        begin = now();
        for (i = 0; i < COUNT; i++)
            if (canbusd_send(bus, from, &frame, NULL) || canbusd_attempt(bus, (uint64_t)i, NULL) ||
                canbusd_receive(bus, to, &item))
                return 1;
        spent[3] = now() - begin;
        canbusd_free(bus);
        begin = now();
        for (i = 0; i < COUNT / 10; i++) {
            canbusd_config config = CANBUSD_CONFIG;
            config.limit = 1000;
            if (canbusd_new("can0,can1", &config, &bus))
                return 1;
            canbusd_free(bus);
        }
        spent[4] = (now() - begin) * 10;
        for (k = 0; k < 5; k++)
            if (spent[k] < best[k])
                best[k] = spent[k];
    }
    for (k = 0; k < 5; k++)
        printf("%-26s %6.0f ns\n", names[k], best[k] / COUNT);
    return 0;
}
