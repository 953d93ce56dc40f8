/* Messages of NETLINK_ROUTE: requests, answers, and reads of the answers. */
#include "links.h"

#define GET(flags) get_link(flags)
#define ASKS(name, ...) CASE(name, a = route(0), answers(a, __VA_ARGS__), next(a))
ASKS(get_by_name, with_name(GET(0), "can2"))
ASKS(get_by_index, indexed(GET(0), "can2"))
ASKS(get_by_both, with_name(indexed(GET(0), "can2"), "can3"))
ASKS(get_by_other_name, text(GET(0), IFLA_ALT_IFNAME, "can2"))
ASKS(get_by_name_without_end, text(GET(0), IFLA_IFNAME, "can2"))
ASKS(get_unknown_name, with_name(GET(0), "can9"))
ASKS(get_long_name, with_name(GET(0), "sixteen_letters_"))
ASKS(get_empty_name, with_name(GET(0), ""))
ASKS(get_with_ack, with_name(GET(NLM_F_ACK), "can2"))
ASKS(get_unknown_with_ack, with_name(GET(NLM_F_ACK), "can9"))
ASKS(get_with_mask, number(with_name(GET(0), "can2"), IFLA_EXT_MASK, 9))
ASKS(get_lo, with_name(GET(0), "lo"))
ASKS(get_vcan, with_name(GET(0), "vcan0"))
CASE(get_negative_index, a = route(0), b = 0, answers(a, ({
                                                          struct asked *one = get_link(0);
                                                          one->link.ifi_index = -5;
                                                          one;
                                                      })))
CASE(get_without_request, a = route(0), answers(a, ({
                                                    struct asked *one = with_name(get_link(0), "can2");
                                                    one->head.nlmsg_flags = 0;
                                                    one;
                                                })))

#define VALUE(name, type) CASE(name, value("can2", type))
VALUE(value_name, IFLA_IFNAME)
VALUE(value_queue, IFLA_TXQLEN)
VALUE(value_operates, IFLA_OPERSTATE)
VALUE(value_mode, IFLA_LINKMODE)
VALUE(value_mtu, IFLA_MTU)
VALUE(value_least_mtu, IFLA_MIN_MTU)
VALUE(value_largest_mtu, IFLA_MAX_MTU)
VALUE(value_group, IFLA_GROUP)
VALUE(value_promiscuity, IFLA_PROMISCUITY)
VALUE(value_tx_queues, IFLA_NUM_TX_QUEUES)
VALUE(value_rx_queues, IFLA_NUM_RX_QUEUES)
VALUE(value_carrier, IFLA_CARRIER)
VALUE(value_discipline, IFLA_QDISC)
VALUE(value_link, IFLA_LINK)
VALUE(value_master, IFLA_MASTER)
VALUE(value_address, IFLA_ADDRESS)
VALUE(value_alias, IFLA_IFALIAS)
VALUE(value_statistics, IFLA_STATS64)
VALUE(value_short_statistics, IFLA_STATS)
CASE(value_of_sent, value("can3", IFLA_STATS64))
CASE(head, head_of("can2"))
CASE(head_of_vcan, head_of("vcan0"))

#define DEVICE(name, type) CASE(name, device_value("can2", type))
DEVICE(device_state, IFLA_CAN_STATE)
DEVICE(device_restart_ms, IFLA_CAN_RESTART_MS)
DEVICE(device_counters, IFLA_CAN_BERR_COUNTER)
DEVICE(device_modes, IFLA_CAN_CTRLMODE)
DEVICE(device_termination, IFLA_CAN_TERMINATION)
DEVICE(device_delay, IFLA_CAN_TDC)
DEVICE(device_most_rate, IFLA_CAN_BITRATE_MAX)
CASE(device_rate, rate_of("can2"))
CASE(device_rate_of_other, rate_of("can3"))
CASE(device_of_vcan, device_value("vcan0", IFLA_CAN_STATE))

#define DUMPS(name, ...) CASE(name, a = route(0), dumps(a, __VA_ARGS__))
DUMPS(dump, GET(NLM_F_DUMP), "can2")
DUMPS(dump_again, (dumps(a, GET(NLM_F_DUMP), "can2"), GET(NLM_F_DUMP)), "can3")
DUMPS(dump_of_kernel, GET(NLM_F_DUMP), "lo")
DUMPS(dump_of_none, GET(NLM_F_DUMP), "can9")
DUMPS(dump_root, GET(NLM_F_ROOT), "can2")
DUMPS(dump_match, GET(NLM_F_MATCH), "can2")
DUMPS(dump_with_ack, GET(NLM_F_DUMP | NLM_F_ACK), "can2")
DUMPS(dump_of_name, with_name(GET(NLM_F_DUMP), "can2"), "can3")
DUMPS(dump_of_index, indexed(GET(NLM_F_DUMP), "can2"), "can3")
DUMPS(dump_of_kind, kind(GET(NLM_F_DUMP), "can"), "can2")
DUMPS(dump_of_kind_without_lo, kind(GET(NLM_F_DUMP), "can"), "lo")
DUMPS(dump_of_vxcan, kind(GET(NLM_F_DUMP), "vxcan"), "can2")
DUMPS(dump_of_master, number(GET(NLM_F_DUMP), IFLA_MASTER, 1), "can2")
CASE(dump_short, a = route(0),
     dumps(a, ({
               struct asked *one = get_link(NLM_F_DUMP);
               one->head.nlmsg_len = sizeof one->head + sizeof(struct rtgenmsg);
               one;
           }),
           "can2"))
CASE(dump_of_bridges, a = route(0),
     dumps(a, ({
               struct asked *one = get_link(NLM_F_DUMP);
               one->link.ifi_family = AF_BRIDGE;
               one;
           }),
           "can2"))

/* Sends two messages in one datagram. */
static void two(int fd, struct asked *one, struct asked *other) {
    struct iovec parts[] = {{one, NLMSG_ALIGN(one->head.nlmsg_len)}, {other, other->head.nlmsg_len}};
    say(" %d", (int)writev(fd, parts, 2) == (int)(parts[0].iov_len + parts[1].iov_len));
}
#define SKIPS_SEQUENCE(fd) (next(fd), next(fd), next(fd))
CASE(two_questions, a = route(0), two(a, with_name(GET(0), "can2"), with_name(GET(0), "can3")), SKIPS_SEQUENCE(a))
CASE(two_of_both, a = route(0), two(a, with_name(GET(0), "lo"), with_name(GET(0), "can3")), SKIPS_SEQUENCE(a))
CASE(two_of_both_reversed, a = route(0), two(a, with_name(GET(0), "can2"), with_name(GET(0), "lo")), SKIPS_SEQUENCE(a))
CASE(one_after_other, a = route(0), tells(a, with_name(GET(0), "can2")), tells(a, with_name(GET(0), "can3")),
     SKIPS_SEQUENCE(a))

#define READS(name, ...) CASE(name, a = route(0), tells(a, with_name(GET(0), "can2")), __VA_ARGS__)
static void peek(int fd) {
    char room[4096];
    ssize_t length = recv(fd, NULL, 0, MSG_PEEK | MSG_TRUNC);
    say(" %d", recv(fd, room, sizeof room, 0) == length && length > 500);
}
READS(read_peeked, peek(a), next(a))
static void cut(int fd, int flags) {
    char room[100];
    struct iovec part = {room, sizeof room};
    struct msghdr message = {.msg_iov = &part, .msg_iovlen = 1};
    ssize_t length = recvmsg(fd, &message, flags);
    say(" %d %X %u", length > 100 ? 101 : (int)length, message.msg_flags, ((struct nlmsghdr *)room)->nlmsg_type);
}
READS(read_cut, cut(a, 0), next(a))
READS(read_cut_whole_length, cut(a, MSG_TRUNC), next(a))
READS(read_cut_peeked, cut(a, MSG_PEEK), next(a))
static void sender(int fd) {
    char room[4096];
    struct sockaddr_nl from = {.nl_pid = 7, .nl_groups = 7};
    socklen_t length = sizeof from;
    say(" %d", recvfrom(fd, room, sizeof room, 0, (struct sockaddr *)&from, &length) > 0);
    say(" %u %d %u %u", length, from.nl_family, from.nl_pid, from.nl_groups);
}
READS(read_sender, sender(a))
READS(read_read, say(" %d", read(a, (char[4096]){0}, 4096) > 500))
static void pieces(int fd) {
    struct nlmsghdr head;
    char room[4096];
    struct iovec parts[] = {{&head, sizeof head}, {room, sizeof room}};
    ssize_t length = readv(fd, parts, 2);
    say(" %d %d", length == (ssize_t)head.nlmsg_len, head.nlmsg_type);
}
READS(read_pieces, pieces(a))
static void many(int fd) {
    static char room[3][4096];
    struct mmsghdr all[3] = {{{0}, 0}};
    struct iovec parts[3];
    for (int i = 0; i < 3; i++) {
        parts[i] = (struct iovec){room[i], sizeof room[i]};
        all[i].msg_hdr = (struct msghdr){.msg_iov = &parts[i], .msg_iovlen = 1};
    }
    int count = recvmmsg(fd, all, 3, MSG_DONTWAIT, NULL);
    say(" %d", count);
    for (int i = 0; i < count; i++) {
        say(" %d", all[i].msg_len == ((struct nlmsghdr *)room[i])->nlmsg_len);
    }
}
READS(read_many, tells(a, with_name(GET(0), "can3")), many(a))
READS(read_by_copy, b = dup(a), next(b), next(a))
static void in_child(int fd) {
    pid_t child = fork();
    if (child == 0) {
        char room[4096];
        _exit(read(fd, room, sizeof room) > 500 ? 1 : 2);
    }
    int status = 0;
    waitpid(child, &status, 0);
    say(" %d", WEXITSTATUS(status));
}
READS(read_in_child, in_child(a), next(a))
READS(poll_ready, events(a, POLLIN | POLLOUT | POLLERR))
CASE(poll_idle, a = route(0), events(a, POLLIN | POLLOUT | POLLERR))
CASE(read_idle, a = route(0), DO(recv(a, (char[16]){0}, 16, MSG_DONTWAIT)))
CASE(read_idle_timeout, a = route(0),
     SETS(a, SOL_SOCKET, SO_RCVTIMEO, &((struct timeval){0, 20000}), sizeof(struct timeval)),
     DO(recv(a, (char[16]){0}, 16, 0)))
CASE(write_write, a = route(0), b = 0,
     say(" %d", write(a, with_name(GET(0), "can2"), NLMSG_LENGTH(sizeof(struct ifinfomsg)) + 12) == 44), next(a),
     next(a))
CASE(write_to_kernel, a = route(0),
     DO(sendto(a, with_name(GET(0), "can2"), 44, 0, (struct sockaddr *)&(struct sockaddr_nl){.nl_family = AF_NETLINK},
               sizeof(struct sockaddr_nl))),
     SKIPS_SEQUENCE(a))
CASE(write_nowhere, a = route(0), DO(send(a, nowhere, 44, 0)))
CASE(write_short, a = route(0), DO(send(a, with_name(GET(0), "can2"), 10, 0)), next(a))
CASE(unbound, OPEN(a = socket(AF_NETLINK, SOCK_DGRAM, NETLINK_ROUTE)), answers(a, with_name(GET(0), "can2")))
CASE(other_protocol, OPEN(a = socket(AF_NETLINK, SOCK_DGRAM, NETLINK_GENERIC)),
     DO(send(a, with_name(GET(0), "can2"), 44, 0)), say(" %d", recv(a, (char[512]){0}, 512, MSG_DONTWAIT) > 0))
CASE(option_explains, a = route(0), SETS(a, SOL_NETLINK, NETLINK_EXT_ACK, &(int){1}, sizeof(int)),
     answers(a, with_name(GET(0), "can9")), answers(a, with_name(GET(0), "can2")))
CASE(option_caps, a = route(0), SETS(a, SOL_NETLINK, NETLINK_CAP_ACK, &(int){1}, sizeof(int)),
     answers(a, with_name(GET(0), "can2")), answers(a, with_name(GET(NLM_F_ACK), "can2")), next(a))
CASE(option_strict, a = route(0), SETS(a, SOL_NETLINK, NETLINK_GET_STRICT_CHK, &(int){1}, sizeof(int)),
     answers(a, with_name(GET(0), "can2")), dumps(a, GET(NLM_F_DUMP), "can2"))
CASE(small_buffer, a = route(0), SETS(a, SOL_SOCKET, SO_RCVBUF, &(int){2500}, sizeof(int)),
     dumps(a, GET(NLM_F_DUMP), "can2"), answers(a, with_name(GET(0), "can2")))
