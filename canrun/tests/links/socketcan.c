/* All functions of libsocketcan. */
#include "links.h"

#include <libsocketcan.h>

/* Prints the result of a call, but no errno, because the library itself prints the reason. */
#define LIB(...) say(" %d", (int)(__VA_ARGS__))
#define GETS(name, ...) CASE(lib_##name, reset(), ({ __VA_ARGS__; }))
#define CAN2(call, field) LIB(call("can2", &got)), say(" %u", (unsigned)(field))
GETS(state, int got = -1; CAN2(can_get_state, got))
GETS(state_none, int got = -1; LIB(can_get_state("can9", &got)))
GETS(state_of_vcan, int got = -1; LIB(can_get_state("vcan0", &got)))
GETS(restart_ms, __u32 got = 7; CAN2(can_get_restart_ms, got))
GETS(bittiming, struct can_bittiming got = {0}; CAN2(can_get_bittiming, got.bitrate))
GETS(ctrlmode, struct can_ctrlmode got = {0}; CAN2(can_get_ctrlmode, got.flags &CAN_CTRLMODE_LOOPBACK))
GETS(clock, struct can_clock got = {0}; LIB(can_get_clock("can2", &got)))
GETS(clock_frequency, struct can_clock got = {0}; CAN2(can_get_clock, got.freq))
GETS(bittiming_const, struct can_bittiming_const got = {.brp_inc = 7}; LIB(can_get_bittiming_const("can2", &got)))
GETS(counters, struct can_berr_counter got = {7, 7}; CAN2(can_get_berr_counter, got.txerr + got.rxerr))
GETS(device_stats, struct can_device_stats got = {7, 7, 7, 7, 7, 7};
     CAN2(can_get_device_stats, got.bus_off + got.restarts + got.bus_error + got.error_warning + got.error_passive))
GETS(device_stats_none, struct can_device_stats got = {0}; LIB(can_get_device_stats("can9", &got)))
static void link_stats(const char *name) {
    struct {
        struct rtnl_link_stats64 counts;
        char more[256];
    } got = {.counts = {.rx_errors = 7}};
    LIB(can_get_link_stats(name, &got.counts));
    say(" %d", (int)got.counts.rx_errors);
}
CASE(lib_link_stats, reset(), link_stats("can2"))
CASE(lib_link_stats_of_lo, link_stats("lo"))
CASE(lib_start, reset(), LIB(can_do_start("can2")))
CASE(lib_stop, reset(), LIB(can_do_stop("can2")), reset())
CASE(lib_stop_and_start, reset(), LIB(can_do_stop("can2")), LIB(can_do_start("can2")),
     device_value("can2", IFLA_CAN_STATE))
CASE(lib_start_none, LIB(can_do_start("can9")))
CASE(lib_restart, reset(), LIB(can_do_restart("can2")))
CASE(lib_restart_none, LIB(can_do_restart("can9")))
CASE(lib_set_restart_ms, reset(), LIB(can_do_stop("can2")), LIB(can_set_restart_ms("can2", 150)),
     LIB(can_do_start("can2")), device_value("can2", IFLA_CAN_RESTART_MS), reset())
CASE(lib_restart_with_ms, reset(), LIB(can_do_stop("can2")), LIB(can_set_restart_ms("can2", 150)),
     LIB(can_do_start("can2")), LIB(can_do_restart("can2")), reset())
CASE(lib_set_bitrate, reset(), LIB(can_do_stop("can2")), LIB(can_set_bitrate("can2", 500000)),
     LIB(can_do_start("can2")), rate_of("can2"))
CASE(lib_set_other_bitrate, reset(), LIB(can_do_stop("can2")), LIB(can_set_bitrate("can2", 125000)), reset())
CASE(lib_set_sample_point, reset(), LIB(can_do_stop("can2")), LIB(can_set_bitrate_samplepoint("can2", 500000, 875)),
     LIB(can_do_start("can2")), rate_of("can2"))
CASE(lib_set_bittiming, reset(), LIB(can_do_stop("can2")),
     LIB(can_set_bittiming(
         "can2", &(struct can_bittiming){.tq = 125, .prop_seg = 6, .phase_seg1 = 7, .phase_seg2 = 2, .sjw = 1})),
     LIB(can_do_start("can2")), rate_of("can2"))
CASE(lib_set_ctrlmode_none, reset(), LIB(can_do_stop("can2")),
     LIB(can_set_ctrlmode("can2", &(struct can_ctrlmode){0, 0})), LIB(can_do_start("can2")))
CASE(lib_set_ctrlmode_delay, reset(), LIB(can_do_stop("can2")),
     LIB(can_set_ctrlmode("can2", &(struct can_ctrlmode){CAN_CTRLMODE_TDC_AUTO, CAN_CTRLMODE_TDC_AUTO})), reset())
CASE(lib_set_up, reset(), LIB(can_set_restart_ms("can2", 150)), reset())
