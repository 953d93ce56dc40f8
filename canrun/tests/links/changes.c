/* Changes of a link, and the events that they cause. */
#include "links.h"

#define TO_CAN2 indexed(new_link(0), "can2")
#define CHANGES(name, ...) CASE(name, reset(), a = route(0), answers(a, __VA_ARGS__), next(a))
CHANGES(up_again, flags(TO_CAN2, IFF_UP, IFF_UP))
CHANGES(up_by_name, flags(with_name(new_link(0), "can2"), IFF_UP, IFF_UP))
CHANGES(up_by_setlink, flags(indexed(message_of(RTM_SETLINK, NLM_F_ACK), "can2"), IFF_UP, IFF_UP))
CHANGES(up_without_ack, flags(indexed(message_of(RTM_NEWLINK, 0), "can2"), IFF_UP, IFF_UP))
CHANGES(nothing, TO_CAN2)
CHANGES(nothing_of_kind, kind(TO_CAN2, "can"))
CHANGES(down, flags(TO_CAN2, 0, IFF_UP))
CASE(down_and_up, reset(), a = route(0), answers(a, flags(TO_CAN2, 0, IFF_UP)),
     answers(a, flags(TO_CAN2, IFF_UP, IFF_UP)), head_of("can2"), device_value("can2", IFLA_CAN_STATE))
CASE(down_is_down, reset(), a = route(0), answers(a, flags(TO_CAN2, 0, IFF_UP)), head_of("can2"),
     device_value("can2", IFLA_CAN_STATE), reset())
CHANGES(restart, device(TO_CAN2, "can", IFLA_CAN_RESTART, &(uint32_t){1}, 4))
CHANGES(restart_by_setlink,
        device(indexed(message_of(RTM_SETLINK, NLM_F_ACK), "can2"), "can", IFLA_CAN_RESTART, &(uint32_t){1}, 4))
CASE(restart_with_restart_ms, reset(), a = route(0), answers(a, flags(TO_CAN2, 0, IFF_UP)),
     answers(a, flags(restart_ms(TO_CAN2, 100), IFF_UP, IFF_UP)),
     answers(a, device(TO_CAN2, "can", IFLA_CAN_RESTART, &(uint32_t){1}, 4)), reset())
CHANGES(restart_ms_up, restart_ms(TO_CAN2, 100))
CASE(restart_ms_down, reset(), a = route(0), answers(a, flags(TO_CAN2, 0, IFF_UP)),
     answers(a, restart_ms(TO_CAN2, 250)), answers(a, flags(TO_CAN2, IFF_UP, IFF_UP)),
     device_value("can2", IFLA_CAN_RESTART_MS), reset(), device_value("can2", IFLA_CAN_RESTART_MS))
CASE(rate_down, reset(), a = route(0), answers(a, flags(TO_CAN2, 0, IFF_UP)), answers(a, bit_rate(TO_CAN2, 500000)),
     answers(a, flags(TO_CAN2, IFF_UP, IFF_UP)), rate_of("can2"))
CASE(rate_and_up, reset(), a = route(0), answers(a, flags(TO_CAN2, 0, IFF_UP)),
     answers(a, flags(bit_rate(TO_CAN2, 500000), IFF_UP, IFF_UP)), rate_of("can2"), head_of("can2"))
CASE(rate_other, reset(), a = route(0), answers(a, flags(TO_CAN2, 0, IFF_UP)), answers(a, bit_rate(TO_CAN2, 250000)),
     rate_of("can2"), reset())
CHANGES(rate_up, bit_rate(TO_CAN2, 500000))
CASE(rate_odd, reset(), a = route(0), answers(a, flags(TO_CAN2, 0, IFF_UP)), answers(a, bit_rate(TO_CAN2, 7)), reset())
CASE(modes_none, reset(), a = route(0), answers(a, flags(TO_CAN2, 0, IFF_UP)), answers(a, modes(TO_CAN2, 0, 0)),
     reset())
#define MODE(name, mask, value)                                                                                       \
    CASE(name, reset(), a = route(0), answers(a, flags(TO_CAN2, 0, IFF_UP)), answers(a, modes(TO_CAN2, mask, value)), \
         reset())
MODE(mode_loopback, CAN_CTRLMODE_LOOPBACK, CAN_CTRLMODE_LOOPBACK)
MODE(mode_no_loopback, CAN_CTRLMODE_LOOPBACK, 0)
MODE(mode_not_in_mask, 0, CAN_CTRLMODE_LOOPBACK)
MODE(mode_fd, CAN_CTRLMODE_FD, CAN_CTRLMODE_FD)
MODE(mode_no_fd, CAN_CTRLMODE_FD, 0)
MODE(mode_reporting, CAN_CTRLMODE_BERR_REPORTING, CAN_CTRLMODE_BERR_REPORTING)
MODE(mode_no_reporting, CAN_CTRLMODE_BERR_REPORTING, 0)
MODE(mode_automatic_delay, CAN_CTRLMODE_TDC_AUTO, CAN_CTRLMODE_TDC_AUTO)
CHANGES(kind_other, kind(TO_CAN2, "vcan"))
CHANGES(kind_other_data, device(TO_CAN2, "vcan", IFLA_CAN_RESTART_MS, &(uint32_t){1}, 4))
CHANGES(kind_none_data, device(TO_CAN2, "nokind", IFLA_CAN_RESTART_MS, &(uint32_t){1}, 4))
CHANGES(data_of_vcan, device(indexed(new_link(0), "vcan0"), "can", IFLA_CAN_RESTART_MS, &(uint32_t){1}, 4))
CHANGES(delete, indexed(message_of(RTM_DELLINK, NLM_F_ACK), "can2"))
CHANGES(delete_by_name, with_name(message_of(RTM_DELLINK, NLM_F_ACK), "can2"))
CHANGES(delete_none, with_name(message_of(RTM_DELLINK, NLM_F_ACK), "can9"))
CHANGES(none_by_name, flags(with_name(new_link(0), "can9"), IFF_UP, IFF_UP))
CHANGES(none_by_setlink, flags(with_name(message_of(RTM_SETLINK, NLM_F_ACK), "can9"), IFF_UP, IFF_UP))
CHANGES(create_known, kind(with_name(new_link(NLM_F_CREATE | NLM_F_EXCL), "can2"), "can"))
CHANGES(create_known_vcan, kind(with_name(new_link(NLM_F_CREATE | NLM_F_EXCL), "vcan0"), "vcan"))
CHANGES(create_card, kind(with_name(new_link(NLM_F_CREATE | NLM_F_EXCL), "can9"), "can"))
CHANGES(create_without_excl, flags(with_name(new_link(NLM_F_CREATE), "can2"), IFF_UP, IFF_UP))
CHANGES(rename, with_name(TO_CAN2, "can8"))
CHANGES(rename_to_itself, with_name(TO_CAN2, "can2"))
CHANGES(mtu, number(TO_CAN2, IFLA_MTU, 1500))
CHANGES(address, text(TO_CAN2, IFLA_ADDRESS, "abcdef"))
CHANGES(master_none, number(TO_CAN2, IFLA_MASTER, 12345))

CASE(events_none, reset(), a = route(RTMGRP_LINK), events_of(a, "can2"))
CASE(events_of_up_again, reset(), a = route(RTMGRP_LINK), b = route(0), tells(b, flags(TO_CAN2, IFF_UP, IFF_UP)),
     events_of(a, "can2"))
CASE(events_of_nothing, reset(), a = route(RTMGRP_LINK), b = route(0), tells(b, TO_CAN2), events_of(a, "can2"))
CASE(events_of_other_group, reset(), a = route(RTMGRP_NEIGH), b = route(0), tells(b, flags(TO_CAN2, 0, IFF_UP)),
     tells(b, flags(TO_CAN2, IFF_UP, IFF_UP)), events_of(a, "can2"))
CASE(events_by_membership, reset(), a = route(0), b = route(0),
     SETS(a, SOL_NETLINK, NETLINK_ADD_MEMBERSHIP, &(int){RTNLGRP_LINK}, sizeof(int)), tells(b, TO_CAN2),
     events_of(a, "can2"))
CASE(events_of_down, reset(), a = route(RTMGRP_LINK), b = route(0), tells(b, flags(TO_CAN2, 0, IFF_UP)),
     events_of(a, "can2"), reset())

/* Fills in a request for ioctl. */
static struct ifreq *request_of(const char *name, int flags) {
    static struct ifreq one;
    one = (struct ifreq){.ifr_flags = (short)flags};
    strcpy(one.ifr_name, name);
    return &one;
}
CASE(ioctl_up, reset(), a = socket(AF_INET, SOCK_DGRAM, 0),
     DO(ioctl(a, SIOCSIFFLAGS, request_of("can2", IFF_UP | IFF_NOARP))), head_of("can2"))
CASE(ioctl_down, reset(), a = socket(AF_INET, SOCK_DGRAM, 0), DO(ioctl(a, SIOCSIFFLAGS, request_of("can2", IFF_NOARP))),
     reset())
CASE(ioctl_none, a = socket(AF_INET, SOCK_DGRAM, 0), DO(ioctl(a, SIOCSIFFLAGS, request_of("can9", IFF_UP))))
static void flags_by_ioctl(const char *name) {
    struct ifreq one = *request_of(name, 0);
    DO(ioctl(a, SIOCGIFFLAGS, &one));
    say(" %X", (unsigned short)one.ifr_flags);
}
CASE(ioctl_flags, reset(), a = socket(AF_INET, SOCK_DGRAM, 0), flags_by_ioctl("can2"))
