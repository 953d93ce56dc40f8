/* Which frames a CAN_RAW socket receives with its filters. */
#include "probe.h"

/* Appends a filter for the last frame of the set to a list of filters. */
#define AND_LAST \
    { LAST, CAN_SFF_MASK | CAN_EFF_FLAG }
#define PASSES(name, ...) \
    CASE(name, a = raw("can1"), b = raw("can0"), FILTER(a, __VA_ARGS__, AND_LAST), put_set(b), take_to(a, LAST))
PASSES(one, {0x123, CAN_SFF_MASK})
PASSES(one_and_kind, {0x123, CAN_SFF_MASK | CAN_EFF_FLAG})
PASSES(one_and_no_remote, {0x123, CAN_SFF_MASK | CAN_EFF_FLAG | CAN_RTR_FLAG})
PASSES(remote, {0x123 | CAN_RTR_FLAG, CAN_SFF_MASK | CAN_EFF_FLAG | CAN_RTR_FLAG})
PASSES(remote_any, {CAN_RTR_FLAG, CAN_RTR_FLAG})
PASSES(extended, {0x123 | CAN_EFF_FLAG, CAN_EFF_MASK | CAN_EFF_FLAG})
PASSES(extended_no_remote, {0x123 | CAN_EFF_FLAG, CAN_EFF_MASK | CAN_EFF_FLAG | CAN_RTR_FLAG})
PASSES(extended_any, {CAN_EFF_FLAG, CAN_EFF_FLAG})
PASSES(standard_any, {0, CAN_EFF_FLAG})
PASSES(extended_high_bits, {0x12345123 | CAN_EFF_FLAG, CAN_EFF_MASK | CAN_EFF_FLAG})
PASSES(extended_without_flag, {0x12345123, CAN_EFF_MASK})
PASSES(high_bits_and_kind, {0x12345123, CAN_EFF_MASK | CAN_EFF_FLAG})
PASSES(high_bits_kind_and_remote, {0x12345123, 0xDFFFFFFF})
PASSES(high_bits_inverted, {0x12345123 | CAN_INV_FILTER, 0xDFFFFFFF})
PASSES(id_outside_of_mask, {0x7FF, 0x0F0})
PASSES(family, {0x120, 0x7F0})
PASSES(all, {0, 0})
PASSES(all_inverted, {CAN_INV_FILTER, 0})
PASSES(inverted, {0x123 | CAN_INV_FILTER, CAN_SFF_MASK})
PASSES(inverted_and_kind, {0x123 | CAN_INV_FILTER, CAN_SFF_MASK | CAN_EFF_FLAG})
PASSES(inverted_extended, {0x123 | CAN_EFF_FLAG | CAN_INV_FILTER, CAN_EFF_MASK | CAN_EFF_FLAG})
PASSES(two, {0x123, CAN_SFF_MASK | CAN_EFF_FLAG}, {0x124, CAN_SFF_MASK | CAN_EFF_FLAG})
PASSES(twice_the_same, {0x123, CAN_SFF_MASK | CAN_EFF_FLAG}, {0x123, CAN_SFF_MASK | CAN_EFF_FLAG})
PASSES(twice_overlapping, {0x123, CAN_SFF_MASK}, {0x120, 0x7F0})
PASSES(inverted_mask_flag, {0x123, CAN_SFF_MASK | CAN_INV_FILTER})
PASSES(error_flag_in_mask, {0x123, CAN_SFF_MASK | CAN_ERR_FLAG})
PASSES(error_flag, {0x123 | CAN_ERR_FLAG, CAN_SFF_MASK | CAN_ERR_FLAG})

#define JOINED(name, ...)                                                                          \
    CASE(name, a = raw("can1"), b = raw("can0"), DO(set(a, SOL_CAN_RAW, CAN_RAW_JOIN_FILTERS, 1)), \
         FILTER(a, __VA_ARGS__), put_set(b), take(a, 1))
JOINED(joined_one, {LAST, CAN_SFF_MASK})
JOINED(joined_two, {0x7F0, 0x7F0}, {LAST, CAN_SFF_MASK})
JOINED(joined_inverted, {0x123 | CAN_INV_FILTER, CAN_SFF_MASK}, {LAST, CAN_SFF_MASK})
JOINED(joined_same, {LAST, CAN_SFF_MASK}, {LAST, CAN_SFF_MASK})
JOINED(joined_never, {0x123, CAN_SFF_MASK}, {0x124, CAN_SFF_MASK})

CASE(none, a = raw("can1"), b = raw("can0"), DO(setsockopt(a, SOL_CAN_RAW, CAN_RAW_FILTER, NULL, 0)), put_set(b),
     take(a, 0))
CASE(none_then_some, a = raw("can1"), b = raw("can0"), setsockopt(a, SOL_CAN_RAW, CAN_RAW_FILTER, NULL, 0),
     FILTER(a, AND_LAST), put_set(b), take_to(a, LAST))
CASE(before_bind, a = socket(PF_CAN, SOCK_RAW, CAN_RAW), FILTER(a, {0x124, 0x7FF}, AND_LAST),
     DO(bind(a, TO(at("can1")))), b = raw("can0"), put_set(b), take_to(a, LAST))
CASE(kept_by_bind, a = raw("vcan0"), FILTER(a, {0x124, 0x7FF}, AND_LAST), DO(bind(a, TO(at("can1")))), b = raw("can0"),
     put_set(b), take_to(a, LAST))
CASE(of_all_interfaces, a = raw(NULL), FILTER(a, {0x124, 0x7FF}, AND_LAST), b = raw("vcan0"), put_set(b),
     take_to(a, LAST))
CASE(of_own, a = raw("can0"), set(a, SOL_CAN_RAW, CAN_RAW_RECV_OWN_MSGS, 1), FILTER(a, {0x124, 0x7FF}, AND_LAST),
     put_set(a), take_to(a, LAST))
CASE(of_fd_frames, a = raw("can1"), b = raw("can0"), with_fd(a), with_fd(b), FILTER(a, {0x124, 0x7FF}),
     put_fd(b, FD(0x123, 0, 1)), put_fd(b, FD(0x124, 0, 1)), take(a, 1))
CASE(queued_stay, a = raw("can1"), b = raw("can0"), PUT(b, 0x123), until(a, POLLIN), FILTER(a, AND_LAST), PUT(b, 0x124),
     take(a, 1))
CASE(remote_of_set, a = raw("can1"), b = raw("can0"), FILTER(a, {0x123 | CAN_RTR_FLAG, 0x7FF | CAN_RTR_FLAG}, AND_LAST),
     put_set(b), take_to(a, LAST))

/* The option itself. */
static const struct can_filter many[CAN_RAW_FILTER_MAX + 1];
#define OPTION(name, length)                                                                  \
    CASE(name, a = raw("can0"), DO(setsockopt(a, SOL_CAN_RAW, CAN_RAW_FILTER, many, length)), \
         get_length(a, SOL_CAN_RAW, CAN_RAW_FILTER, sizeof many))
OPTION(option_0, 0)
OPTION(option_7, 7)
OPTION(option_8, 8)
OPTION(option_12, 12)
OPTION(option_24, 24)
OPTION(option_512, CAN_RAW_FILTER_MAX * 8)
OPTION(option_513, sizeof many)
OPTION(option_minus_1, -1)
CASE(option_usual, a = raw("can0"), get(a, SOL_CAN_RAW, CAN_RAW_FILTER, 8))
CASE(option_read, a = raw("can0"), FILTER(a, {0x123, 0xDFFFFFFF}, {0x124 | CAN_INV_FILTER, 0x7FF}),
     get(a, SOL_CAN_RAW, CAN_RAW_FILTER, 40))
CASE(option_read_short, a = raw("can0"), FILTER(a, {0x123, 0x7FF}, {0x124, 0x7FF}),
     get(a, SOL_CAN_RAW, CAN_RAW_FILTER, 10))
CASE(option_read_0, a = raw("can0"), get(a, SOL_CAN_RAW, CAN_RAW_FILTER, 0))
CASE(option_read_none, a = raw("can0"), setsockopt(a, SOL_CAN_RAW, CAN_RAW_FILTER, NULL, 0),
     get(a, SOL_CAN_RAW, CAN_RAW_FILTER, 40))
CASE(option_unbound, a = socket(PF_CAN, SOCK_RAW, CAN_RAW), FILTER(a, {0x123, 0x7FF}),
     get(a, SOL_CAN_RAW, CAN_RAW_FILTER, 40))
