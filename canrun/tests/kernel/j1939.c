/* CAN_J1939: addresses, options, and messages of one frame. a and c are J1939 sockets; b is a raw socket on can1. */
#include "j1939.h"

CASE(as_raw, OPEN(socket(PF_CAN, SOCK_RAW, CAN_J1939)))
CASE(facts, a = j1939(), get(a, SOL_SOCKET, SO_TYPE, 4), get(a, SOL_SOCKET, SO_PROTOCOL, 4),
     get(a, SOL_SOCKET, SO_DOMAIN, 4), get(a, SOL_SOCKET, SO_BROADCAST, 4), get(a, SOL_SOCKET, SO_PRIORITY, 4))
#define BIND(name, ...) CASE(name, a = j1939(), DO(bind(a, WAY(__VA_ARGS__))))
BIND(bind_address, "can0", 0, NO_GROUP, OWN)
BIND(bind_nothing, "can0", 0, NO_GROUP, ALL)
BIND(bind_idle, "can0", 0, NO_GROUP, J1939_IDLE_ADDR)
BIND(bind_name, "can0", OWN_NAME, NO_GROUP, ALL)
BIND(bind_group, "can0", 0, GROUP, OWN)
BIND(bind_group_with_destination, "can0", 0, GROUP + 1, OWN)
BIND(bind_group_to_all, "can0", 0, GROUP_TO_ALL, OWN)
BIND(bind_group_too_high, "can0", 0, 0x50001, OWN)
BIND(bind_all, NULL, 0, NO_GROUP, OWN)
CASE(bind_12345, a = j1939(), DO(bind(a, TO((&(struct sockaddr_can){AF_CAN, 12345, {{0}}})))))
CASE(bind_short, a = j1939(), DO(bind(a, (struct sockaddr *)way("can0", 0, NO_GROUP, OWN), 23)),
     DO(bind(a, (struct sockaddr *)way("can0", 0, NO_GROUP, OWN), 24)))
CASE(bind_inet, a = j1939(), DO(bind(a, TO((&(struct sockaddr_can){AF_INET, 1, {{0}}})))))
CASE(bind_to_lo, a = j1939(), DO(bind(a, WAY("lo", 0, NO_GROUP, OWN))))
CASE(bind_nowhere, a = j1939(), DO(bind(a, (struct sockaddr *)nowhere, 24)))
CASE(bind_twice, a = node(OWN), DO(bind(a, WAY("can0", 0, NO_GROUP, OTHER))), name_of(a), b = line(),
     send_to(a, THIRD, GROUP, 1), take(b, 1))
CASE(bind_other_interface, a = node(OWN), DO(bind(a, WAY("can1", 0, NO_GROUP, OWN))))
CASE(bind_group_stays, a = j1939(), DO(bind(a, WAY("can0", 0, GROUP, OWN))), DO(bind(a, WAY("can0", 0, NO_GROUP, OWN))),
     b = line(), HEARS(b, 0x19248090, 1), HEARS(b, 0x19238090, 2), receive(a))

static void says_name(int fd, bool is_peer, socklen_t room) {
    struct sockaddr_can can = {0};
    socklen_t length = room;
    errno = 0;
    result(is_peer ? getpeername(fd, (struct sockaddr *)&can, &length)
                   : getsockname(fd, (struct sockaddr *)&can, &length));
    say("/%u:%d,%llX,%X,%X", length, can.can_ifindex != 0, (unsigned long long)can.can_addr.j1939.name,
        can.can_addr.j1939.pgn, can.can_addr.j1939.addr);
}
CASE(name_unbound, a = j1939(), says_name(a, false, 24), says_name(a, true, 24))
CASE(name_bound, a = named(OWN_NAME, OWN), says_name(a, false, 24), says_name(a, true, 24))
CASE(name_short, a = node(OWN), says_name(a, false, 8), says_name(a, false, 100))
CASE(name_connected, a = node(OWN), DO(connect(a, WAY("can0", OTHER_NAME, GROUP, OTHER))), says_name(a, false, 24),
     says_name(a, true, 24))

CASE(connect_unbound, a = j1939(), DO(connect(a, WAY("can0", 0, NO_GROUP, OTHER))))
CASE(connect_other_interface, a = node(OWN), DO(connect(a, WAY("can1", 0, NO_GROUP, OTHER))))
CASE(connect_no_interface, a = node(OWN), DO(connect(a, WAY(NULL, 0, NO_GROUP, OTHER))))
CASE(connect_to_all, a = node(OWN), DO(connect(a, WAY("can0", 0, NO_GROUP, ALL))), broadcast(a),
     DO(connect(a, WAY("can0", 0, NO_GROUP, ALL))))
CASE(connect_group_with_destination, a = node(OWN), DO(connect(a, WAY("can0", 0, GROUP + 1, OTHER))))
CASE(connect_short, a = node(OWN), DO(connect(a, (struct sockaddr *)way("can0", 0, GROUP, OTHER), 20)))
CASE(connect_inet, a = node(OWN), DO(connect(a, TO((&(struct sockaddr_can){AF_INET, 1, {{0}}})))))
CASE(connected_writes, a = node(OWN), b = line(), DO(connect(a, WAY("can0", 0, GROUP, OTHER))), DO(write(a, "x", 1)),
     take(b, 1))
CASE(connected_sends_elsewhere, a = node(OWN), b = line(), DO(connect(a, WAY("can0", 0, GROUP, OTHER))),
     send_to(a, THIRD, NO_GROUP, 2), take(b, 1))
CASE(connected_receives, a = node(OWN), b = line(), DO(connect(a, WAY("can0", 0, NO_GROUP, OTHER))),
     HEARS(b, 0x192380A0, 1), HEARS(b, 0x19238090, 2), receive(a), receive_none(a))

#define J1939(option) SOL_CAN_J1939, SO_J1939_##option
CASE(options_usual, a = j1939(), get(a, J1939(PROMISC), 4), get(a, J1939(SEND_PRIO), 4), get(a, J1939(ERRQUEUE), 4),
     get(a, J1939(FILTER), 4), get(a, SOL_CAN_J1939, 9, 4))
CASE(options_flags, a = j1939(), DO(set(a, J1939(PROMISC), 1)), get(a, J1939(PROMISC), 4),
     DO(set(a, J1939(PROMISC), 5)), DO(set(a, J1939(PROMISC), 0)), get(a, J1939(PROMISC), 4),
     DO(set(a, J1939(PROMISC), -1)), get(a, J1939(PROMISC), 4), DO(set(a, J1939(ERRQUEUE), 7)),
     get(a, J1939(ERRQUEUE), 4), DO(set(a, J1939(ERRQUEUE), 0)))
CASE(options_priority, a = j1939(), DO(set(a, J1939(SEND_PRIO), 3)), get(a, J1939(SEND_PRIO), 4),
     get(a, SOL_SOCKET, SO_PRIORITY, 4), DO(set(a, J1939(SEND_PRIO), 8)), DO(set(a, J1939(SEND_PRIO), -1)),
     DO(set(a, J1939(SEND_PRIO), 0)), get(a, J1939(SEND_PRIO), 4))
CASE(options_socket_priority, a = j1939(), DO(set(a, SOL_SOCKET, SO_PRIORITY, 5)), get(a, J1939(SEND_PRIO), 4),
     DO(set(a, SOL_SOCKET, SO_PRIORITY, 0)), get(a, J1939(SEND_PRIO), 4))
CASE(options_lengths, a = j1939(), SETS(a, J1939(PROMISC), "abcdefgh", 3), SETS(a, J1939(PROMISC), "abcdefgh", 8),
     SETS(a, J1939(SEND_PRIO), "abc", 2), get(a, J1939(PROMISC), 3), get(a, J1939(PROMISC), 0),
     get(a, J1939(PROMISC), 9), SETS(a, J1939(PROMISC), nowhere, 4))
CASE(options_unknown, a = j1939(), DO(set(a, SOL_CAN_J1939, 0, 1)), DO(set(a, SOL_CAN_J1939, 5, 1)),
     DO(set(a, SOL_CAN_RAW, 1, 1)), get(a, SOL_CAN_RAW, 1, 4))
static char *text(size_t length) {
    static char room[20000];
    return length <= sizeof room ? room : NULL;
}
CASE(options_filters, a = j1939(), SETS(a, J1939(FILTER), nowhere, 32), SETS(a, J1939(FILTER), text(16416), 31),
     SETS(a, J1939(FILTER), text(16416), 64), SETS(a, J1939(FILTER), text(16416), 16384),
     SETS(a, J1939(FILTER), text(16416), 16416), SETS(a, J1939(FILTER), null, 32), SETS(a, J1939(FILTER), null, 0))
CASE(options_send_buffer, a = j1939(), get(a, SOL_SOCKET, SO_SNDBUF, 4), DO(set(a, SOL_SOCKET, SO_SNDBUF, 1)),
     get(a, SOL_SOCKET, SO_SNDBUF, 4), DO(set(a, SOL_SOCKET, SO_SNDBUF, 10000)), get(a, SOL_SOCKET, SO_SNDBUF, 4))

CASE(send_unbound, a = j1939(), DO(write(a, "x", 1)), send_to(a, OTHER, GROUP, 1))
CASE(send_without_address, a = node(ALL), send_to(a, OTHER, GROUP, 1))
CASE(send_to_nobody, a = node(OWN), DO(write(a, "x", 1)), send_to(a, ALL, GROUP, 1))
CASE(send_to_all, a = broadcast(node(OWN)), b = line(), send_to(a, ALL, GROUP, 1), send_to(a, ALL, GROUP_TO_ALL, 2),
     DO(write(a, "x", 1)), take(b, 3))
CASE(send_group_to_all, a = node(OWN), b = line(), send_to(a, OTHER, GROUP_TO_ALL, 2), take(b, 1))
CASE(send_no_group, a = node(OWN), b = line(), send_to(a, OTHER, NO_GROUP, 2), take(b, 1))
CASE(send_short_address, a = node(OWN), DO(sendto(a, "x", 1, 0, (struct sockaddr *)way("can0", 0, GROUP, OTHER), 23)))
CASE(send_inet, a = node(OWN), DO(sendto(a, "x", 1, 0, TO((&(struct sockaddr_can){AF_INET, 1, {{0}}})))))
CASE(send_other_interface, a = node(OWN), DO(sendto(a, "x", 1, 0, WAY("can1", 0, GROUP, OTHER))))
CASE(send_any_interface, a = node(OWN), b = line(), DO(sendto(a, "x", 1, 0, WAY(NULL, 0, GROUP, OTHER))), take(b, 1))
CASE(send_group_with_destination, a = node(OWN), send_to(a, OTHER, GROUP + 1, 1))
CASE(send_transport, a = node(OWN), send_to(a, OTHER, 0xEC00, 8), send_to(a, OTHER, 0xEB00, 8),
     send_to(a, OTHER, 0xC800, 8), send_to(a, OTHER, 0xC700, 8))
CASE(send_too_long_to_all, a = broadcast(node(OWN)), send_to(a, ALL, GROUP_TO_ALL, 1786))
CASE(send_nowhere, a = node(OWN), DO(sendto(a, nowhere, 4, 0, WAY("can0", 0, GROUP, OTHER))))
#define SENDS(length) CASE(send_##length, a = node(OWN), b = line(), send_to(a, OTHER, GROUP, length), take(b, 1))
SENDS(0)
SENDS(1)
SENDS(3)
SENDS(8)
CASE(send_priority, a = node(OWN), b = line(), DO(set(a, J1939(SEND_PRIO), 2)), send_to(a, OTHER, GROUP, 1), take(b, 1))
CASE(send_to_own, a = node(OWN), b = line(), send_to(a, OWN, GROUP, 1), take(b, 1), receive_none(a))
CASE(send_from_idle, a = node(J1939_IDLE_ADDR), b = line(), send_to(a, OTHER, GROUP, 1), take(b, 1))
CASE(send_several_in_order, a = node(OWN), b = line(), send_to(a, OTHER, GROUP, 1), send_to(a, OTHER, GROUP, 2),
     send_to(a, THIRD, GROUP, 3), take(b, 3))
CASE(send_after_close, a = node(OWN), b = line(), send_to(a, OTHER, GROUP, 1), close(a), take(b, 1))

#define HEARD(name, own, ...) CASE(name, a = own, b = line(), __VA_ARGS__)
HEARD(get_one, node(OWN), HEARS(b, 0x19238090, 1, 2, 3), receive(a))
HEARD(get_8, node(OWN), HEARS(b, 0x0C238090, 1, 2, 3, 4, 5, 6, 7, 8), receive(a))
HEARD(get_other_address, node(OWN), HEARS(b, 0x1923A090, 1), receive_none(a))
HEARD(get_to_all, node(OWN), HEARS(b, 0x18FE1290, 1), HEARS(b, 0x1923FF90, 1), receive_none(a))
HEARD(get_to_all_broadcast, broadcast(node(OWN)), HEARS(b, 0x18FE1290, 1), HEARS(b, 0x1923FF90, 2), receive(a),
      receive(a))
HEARD(get_promiscuous, node(OWN), DO(set(a, J1939(PROMISC), 1)), HEARS(b, 0x1923A090, 1), HEARS(b, 0x18FE1290, 2),
      receive(a), receive(a))
HEARD(get_without_address, node(ALL), HEARS(b, 0x1923A090, 1), HEARS(b, 0x18FE1290, 2), receive_none(a), broadcast(a),
      HEARS(b, 0x18FE1290, 3), receive(a))
HEARD(get_unbound, broadcast(j1939()), HEARS(b, 0x18FE1290, 1), receive_none(a))
HEARD(get_group, j1939(), DO(bind(a, WAY("can0", 0, GROUP, OWN))), HEARS(b, 0x19248090, 1), HEARS(b, 0x19238090, 2),
      receive(a), receive_none(a))
HEARD(get_empty, node(OWN), put(b, EMPTY(0x19238090 | CAN_EFF_FLAG)), HEARS(b, 0x19238090, 7), receive(a), receive(a))
HEARD(get_remote, node(OWN), put(b, EMPTY(0x19238090 | CAN_EFF_FLAG | CAN_RTR_FLAG)), receive_none(a))
HEARD(get_from_no_address, broadcast(node(OWN)), HEARS(b, 0x18FE12FF, 1), receive_none(a))
HEARD(get_from_idle, node(OWN), HEARS(b, 0x192380FE, 1), receive(a))
HEARD(get_standard, broadcast(node(OWN)), PUT(b, 0x123), receive_none(a))
HEARD(get_fd, broadcast(node(OWN)), with_fd(b), put_fd(b, FD(0x18FE1290 | CAN_EFF_FLAG, 0, 1, 2)), receive_none(a))
HEARD(get_cut, node(OWN), HEARS(b, 0x19238090, 1, 2, 3), receive_into(a, 2, 300, 24), receive_none(a))
HEARD(get_short_name, node(OWN), HEARS(b, 0x19238090, 1), receive_into(a, 9, 300, 10))
HEARD(get_short_control, node(OWN), HEARS(b, 0x19238090, 1), receive_into(a, 9, 24, 24), HEARS(b, 0x19238090, 1),
      receive_into(a, 9, 36, 24), HEARS(b, 0x19238090, 1), receive_into(a, 9, 10, 24), HEARS(b, 0x19238090, 1),
      receive_into(a, 9, 41, 24))
HEARD(get_stamped, node(OWN), DO(set(a, SOL_SOCKET, SO_TIMESTAMP, 1)), HEARS(b, 0x19238090, 1), receive(a))
HEARD(get_flags, node(OWN), HEARS(b, 0x19238090, 1, 2), until(a, POLLIN), DO(recv(a, (char[9]){0}, 9, MSG_PEEK)),
      DO(recv(a, (char[9]){0}, 9, MSG_TRUNC)), DO(recv(a, (char[9]){0}, 9, MSG_WAITALL)),
      DO(recv(a, (char[9]){0}, 9, MSG_CMSG_CLOEXEC)), DO(recv(a, (char[9]){0}, 9, MSG_OOB)),
      DO(recv(a, (char[9]){0}, 1, 0)), DO(recv(a, (char[9]){0}, 9, MSG_DONTWAIT)))
HEARD(get_read, node(OWN), HEARS(b, 0x19238090, 1, 2), until(a, POLLIN), DO(read(a, (char[9]){0}, 9)), glance(a))
HEARD(get_nowhere, node(OWN), HEARS(b, 0x19238090, 1, 2), until(a, POLLIN), DO(read(a, nowhere, 9)), glance(a))
CASE(get_own_interface, a = node(OWN), c = node(OTHER), send_to(a, OTHER, GROUP, 3), receive(c), receive_none(a))
CASE(get_raw_of_own_interface, a = node(OWN), b = raw("can0"), HEARS(b, 0x19238090, 1), receive(a))
CASE(get_by_two, a = node(OWN), c = node(OWN), b = line(), HEARS(b, 0x19238090, 1), receive(a), receive(c))
CASE(get_of_same_address, a = node(OWN), c = node(OWN), send_to(a, OWN, GROUP, 1), receive(c), receive_none(a))
CASE(get_other_interface, a = node(OWN), c = node_on("can1", OTHER), send_to(a, OTHER, GROUP, 3), receive(c))
CASE(get_events, a = node(OWN), b = line(), events(a, POLLIN | POLLOUT), HEARS(b, 0x19238090, 1), until(a, POLLIN),
     events(a, POLLIN | POLLOUT))

#define FILTERED(name, ...) CASE(name, a = broadcast(node(OWN)), b = line(), __VA_ARGS__)
FILTERED(filter_group, KEEPS(a, {.pgn = GROUP, .pgn_mask = 0x3FFFF}), HEARS(b, 0x19248090, 1), HEARS(b, 0x19238090, 2),
         receive(a), receive_none(a))
FILTERED(filter_address, KEEPS(a, {.addr = OTHER, .addr_mask = 0xFF}), HEARS(b, 0x192380A0, 1), HEARS(b, 0x19238090, 2),
         receive(a), receive_none(a))
FILTERED(filter_two, KEEPS(a, {.addr = OTHER, .addr_mask = 0xFF}, {.pgn = 0x12400, .pgn_mask = 0x3FFFF}),
         HEARS(b, 0x192380A0, 1), HEARS(b, 0x192480A0, 2), HEARS(b, 0x19238090, 3), receive(a), receive(a),
         receive_none(a))
FILTERED(filter_past_mask, KEEPS(a, {.addr = OTHER | 1, .addr_mask = 0xF0}), HEARS(b, 0x192380A0, 1),
         HEARS(b, 0x19238095, 2), receive(a), receive_none(a))
FILTERED(filter_name, KEEPS(a, {.name = OTHER_NAME, .name_mask = ~0ull}), HEARS(b, 0x19238090, 1), receive_none(a),
         other_claims(b, OTHER_NAME, OTHER), receive(a), pass(300), HEARS(b, 0x19238090, 2), receive(a))
FILTERED(filter_none_again, KEEPS(a, {.addr = OTHER, .addr_mask = 0xFF}), SETS(a, J1939(FILTER), null, 0),
         HEARS(b, 0x192380A0, 1), receive(a))
FILTERED(filter_promiscuous, DO(set(a, J1939(PROMISC), 1)), KEEPS(a, {.addr = OTHER, .addr_mask = 0xFF}),
         HEARS(b, 0x1923A0A0, 1), HEARS(b, 0x1923A090, 2), receive(a), receive_none(a))
