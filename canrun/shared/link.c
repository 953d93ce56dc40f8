/* Describes an interface of the server in a netlink message: see link.h. */
#include "link.h"

#include <linux/can.h>
#include <linux/can/netlink.h>
#include <linux/if_arp.h>
#include <string.h>

/* Flags from linux/if.h that net/if.h does not define, and operational states from RFC 2863. */
#define FLAG_LOWER_UP 0x10000
#define FLAG_ECHO 0x40000
#define OPERATES_DOWN 2
#define OPERATES_UP 6
/* Every bus carries FD frames. This file does not know whether the bus reports each bus error (--report). */
#define MODES CAN_CTRLMODE_FD
/* The kernel's default queueing discipline for a device with a queue: frames are sent in the order of the writes. */
#define QUEUEING "pfifo_fast"

bool link_has_carrier(const struct link_facts *facts) {
    return !facts->is_known || (facts->state != CAN_STATE_BUS_OFF && facts->state != CAN_STATE_STOPPED);
}

uint32_t link_flags(const struct link_facts *facts) {
    bool is_up = !facts->is_known || facts->state != CAN_STATE_STOPPED;
    return IFF_NOARP | FLAG_ECHO | (is_up ? IFF_UP : 0) | (link_has_carrier(facts) ? IFF_RUNNING | FLAG_LOWER_UP : 0);
}

static struct nlattr *put(struct link_message *message, uint16_t type, const void *data, size_t length) {
    struct nlattr *one = (void *)((char *)message + message->head.nlmsg_len);
    *one = (struct nlattr){(uint16_t)(sizeof *one + length), type};
    memset(one + 1, 0, NLMSG_ALIGN(length));
    if (length) {
        memcpy(one + 1, data, length);
    }
    message->head.nlmsg_len += (uint32_t)(sizeof *one + NLMSG_ALIGN(length));
    return one;
}

static void put_number(struct link_message *message, uint16_t type, uint32_t number) {
    put(message, type, &number, sizeof number);
}

static void put_byte(struct link_message *message, uint16_t type, uint8_t number) {
    put(message, type, &number, sizeof number);
}

static void put_text(struct link_message *message, uint16_t type, const char *text) {
    put(message, type, text, strlen(text) + 1);
}

/* Ends a nested attribute. */
static void end(struct link_message *message, struct nlattr *nest) {
    nest->nla_len = (uint16_t)((char *)message + message->head.nlmsg_len - (char *)nest);
}

static void put_rate(struct link_message *message, uint16_t type, uint32_t rate) {
    struct can_bittiming timing = {.bitrate = rate};
    if (rate) {
        put(message, type, &timing, sizeof timing);
    }
}

/* Adds a list with this bit rate as the only possible one. */
static void put_only_rate(struct link_message *message, uint16_t type, uint32_t rate) {
    if (rate) {
        put_number(message, type, rate);
    }
}

static void put_counts(struct link_message *message, const struct link_facts *facts) {
    const struct can_device_stats counts = {.bus_error = facts->bus_errors,
                                            .error_warning = facts->warnings,
                                            .error_passive = facts->passives,
                                            .bus_off = facts->offs,
                                            .arbitration_lost = facts->lost_arbitrations,
                                            .restarts = facts->restarts};
    if (facts->has_counts) {
        put(message, IFLA_INFO_XSTATS, &counts, sizeof counts);
    }
}

/* Writes the attributes in the order of the kernel's can_fill_info. The clock frequency is 0, as for a device with
 * fixed bit rates and no bit timing. */
static void put_device(struct link_message *message, const struct link_facts *facts) {
    const struct can_ctrlmode modes = {.flags = MODES};
    const struct can_berr_counter counters = {facts->tec, facts->rec};
    const struct can_clock clock = {0};
    struct nlattr *data = put(message, IFLA_INFO_DATA, NULL, 0);
    put_rate(message, IFLA_CAN_BITTIMING, facts->bitrate);
    put(message, IFLA_CAN_CLOCK, &clock, sizeof clock);
    put_number(message, IFLA_CAN_STATE, facts->state);
    put(message, IFLA_CAN_CTRLMODE, &modes, sizeof modes);
    put_number(message, IFLA_CAN_RESTART_MS, facts->restart_ms);
    put(message, IFLA_CAN_BERR_COUNTER, &counters, sizeof counters);
    put_rate(message, IFLA_CAN_DATA_BITTIMING, facts->data_bitrate);
    put_only_rate(message, IFLA_CAN_BITRATE_CONST, facts->bitrate);
    put_only_rate(message, IFLA_CAN_DATA_BITRATE_CONST, facts->data_bitrate);
    put_number(message, IFLA_CAN_BITRATE_MAX, 0);
    struct nlattr *more = put(message, IFLA_CAN_CTRLMODE_EXT, NULL, 0);
    put_number(message, IFLA_CAN_CTRLMODE_SUPPORTED, MODES);
    end(message, more);
    end(message, data);
}

/* Writes the counts of sent and lost frames. The server counts neither bytes nor received frames. */
static void put_stats(struct link_message *message, const struct link_facts *facts) {
    const struct rtnl_link_stats64 counts = {
        .tx_packets = facts->done, .tx_dropped = facts->lost + facts->refused, .tx_errors = facts->lost};
    const struct rtnl_link_stats short_counts = {.tx_packets = (uint32_t)counts.tx_packets,
                                                 .tx_dropped = (uint32_t)counts.tx_dropped,
                                                 .tx_errors = (uint32_t)counts.tx_errors};
    put(message, IFLA_STATS64, &counts, sizeof counts);
    put(message, IFLA_STATS, &short_counts, sizeof short_counts);
}

static void put_interface(struct link_message *message, int index, const struct link_facts *facts, uint32_t queue) {
    char name[IFNAMSIZ];
    interface_name(index, name);
    put_text(message, IFLA_IFNAME, name);
    if (queue) {
        put_number(message, IFLA_TXQLEN, queue);
    }
    put_byte(message, IFLA_OPERSTATE, link_has_carrier(facts) ? OPERATES_UP : OPERATES_DOWN);
    put_byte(message, IFLA_LINKMODE, 0);
    put_number(message, IFLA_MTU, CANFD_MTU);
    put_number(message, IFLA_MIN_MTU, 0);
    put_number(message, IFLA_MAX_MTU, 0);
    put_number(message, IFLA_GROUP, 0);
    put_number(message, IFLA_PROMISCUITY, 0);
    put_number(message, IFLA_NUM_TX_QUEUES, 1);
    put_number(message, IFLA_NUM_RX_QUEUES, 1);
    put_byte(message, IFLA_CARRIER, link_has_carrier(facts));
    put_text(message, IFLA_QDISC, QUEUEING);
}

void link_write(struct link_message *message, int index, const struct link_facts *facts, uint32_t queue) {
    message->head =
        (struct nlmsghdr){.nlmsg_len = offsetof(struct link_message, attributes), .nlmsg_type = RTM_NEWLINK};
    message->link = (struct ifinfomsg){.ifi_type = ARPHRD_CAN, .ifi_index = index, .ifi_flags = link_flags(facts)};
    put_interface(message, index, facts, queue);
    if (facts->is_known) {
        put_stats(message, facts);
    }
    struct nlattr *info = put(message, IFLA_LINKINFO, NULL, 0);
    put_text(message, IFLA_INFO_KIND, "can");
    if (facts->is_known) {
        put_counts(message, facts);
        put_device(message, facts);
    }
    end(message, info);
}
