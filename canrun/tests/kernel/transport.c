/* CAN_J1939: messages of several frames. a and c are J1939 sockets on can0, at the addresses OWN and OTHER. b is a raw
 * socket on can1 that sends the frames of the node OTHER. */
#include "j1939.h"

#define SENDER a = node(OWN), b = line()
#define RTS(length) SENDER, send_to(a, OTHER, GROUP, length), take(b, 1)
#define CTS(number, first) CONTROLS(b, 0x11, number, first, 0xFF, 0xFF, 0, 0x23, 1)
#define DONE(length, total) CONTROLS(b, 0x13, length, 0, total, 0xFF, 0, 0x23, 1)
#define ABORTS(reason) CONTROLS(b, 0xFF, reason, 0xFF, 0xFF, 0xFF, 0, 0x23, 1)
CASE(send_9, RTS(9))
CASE(send_whole, RTS(9), CTS(2, 1), take(b, 2), DONE(9, 2), pass(50), send_to(a, OTHER, GROUP, 1), take(b, 1))
CASE(send_1785, SENDER, send_to(a, OTHER, GROUP, 1785), take(b, 1), CTS(255, 1), take_last(b, 255), DONE(0xF9, 255))
CASE(send_in_blocks, RTS(30), CTS(2, 1), take(b, 2), CTS(2, 3), take(b, 2), CTS(1, 5), take(b, 1), DONE(30, 5))
CASE(send_again, RTS(30), CTS(3, 1), take(b, 3), CTS(5, 1), take(b, 5))
CASE(send_on_hold, RTS(16), CTS(0, 1), take(b, 0), CTS(3, 1), take(b, 0))
CASE(send_cts_twice, RTS(30), CTS(2, 1), take(b, 2), CTS(2, 3), take(b, 2))
CASE(send_cts_of_nothing, RTS(16), CTS(3, 0), take(b, 1))
CASE(send_cts_too_many, RTS(16), CTS(4, 1), take(b, 1))
CASE(send_cts_past_end, RTS(16), CTS(3, 3), take(b, 1))
CASE(send_cts_of_other_group, RTS(16), CONTROLS(b, 0x11, 3, 1, 0xFF, 0xFF, 0, 0x24, 1), take(b, 1))
CASE(send_cts_of_other_node, RTS(16), HEARS(b, 0x18EC80A0, 0x11, 3, 1, 0xFF, 0xFF, 0, 0x23, 1), take(b, 0))
CASE(send_extended_cts, RTS(16), EXTENDED_CONTROLS(b, 0x15, 3, 1, 0, 0, 0, 0x23, 1), take(b, 0))
CASE(send_no_cts, RTS(16), pass(1400), take(b, 1), error_of(a), error_of(a))
CASE(send_no_cts_written, RTS(16), pass(1400), send_to(a, OTHER, GROUP, 1), send_to(a, OTHER, GROUP, 1), take(b, 1))
CASE(send_no_cts_read, RTS(16), pass(1400), DO(recv(a, (char[9]){0}, 9, 0)), glance(a))
CASE(send_no_cts_events, RTS(16), pass(1400), events(a, POLLIN | POLLOUT), error_of(a), events(a, POLLIN | POLLOUT))
CASE(send_no_done, RTS(9), CTS(2, 1), take(b, 2), pass(1400), take(b, 1), error_of(a))
#define ABORTED(reason) CASE(send_aborted_##reason, RTS(16), ABORTS(reason), pass(50), error_of(a))
ABORTED(1)
ABORTED(2)
ABORTED(3)
ABORTED(4)
ABORTED(5)
ABORTED(6)
ABORTED(7)
ABORTED(8)
ABORTED(9)
ABORTED(250)
ABORTED(99)
CASE(send_aborted_other_group, RTS(16), CONTROLS(b, 0xFF, 1, 0xFF, 0xFF, 0xFF, 0, 0x24, 1), pass(50), error_of(a))
CASE(send_aborted_next, RTS(16), send_to(a, OTHER, GROUP, 3), ABORTS(2), take(b, 1))
CASE(send_next_waits, RTS(9), send_to(a, OTHER, GROUP, 3), take(b, 0), CTS(2, 1), take(b, 2), DONE(9, 2), take(b, 1))
CASE(send_to_two, SENDER, c = node(THIRD), send_to(a, OTHER, GROUP, 9), send_to(c, OTHER, GROUP, 9), take(b, 2))
CASE(send_same_by_two, SENDER, c = node(OWN), send_to(a, OTHER, GROUP, 9), take(b, 1), send_to(c, OTHER, GROUP, 9),
     send_to(c, OTHER, GROUP, 3), take(b, 1))
CASE(send_rts_back, RTS(9), CONTROLS(b, 0x10, 9, 0, 2, 2, 0, 0x23, 1), take(b, 1), CTS(2, 1), take(b, 2),
     packets(b, 1, 2), take(b, 1), receive(a))
CASE(send_no_wait, SENDER, send_flags(a, OTHER, GROUP, 16, MSG_DONTWAIT), take(b, 1))
CASE(send_priority, SENDER, DO(set(a, SOL_CAN_J1939, SO_J1939_SEND_PRIO, 3)), send_to(a, OTHER, GROUP, 9), take(b, 1))
CASE(send_group_to_all, SENDER, send_to(a, OTHER, GROUP_TO_ALL, 9), take(b, 1))

#define TO_ALL a = broadcast(node(OWN)), b = line()
CASE(bam_9, TO_ALL, send_to(a, ALL, GROUP_TO_ALL, 9), take(b, 3))
CASE(bam_30, TO_ALL, send_to(a, ALL, GROUP, 30), take(b, 6), pass(100), error_of(a))
CASE(bam_two, TO_ALL, send_to(a, ALL, GROUP_TO_ALL, 9), send_to(a, ALL, GROUP_TO_ALL, 10), take(b, 6))
#define BAM(length, total) HEARS(b, 0x18ECFF90, 0x20, length, 0, total, 0xFF, 0x12, 0xFE, 0)
#define BAM_DATA(number) HEARS(b, 0x18EBFF90, number, 1, 2, 3, 4, 5, 6, 7)
CASE(bam_get, TO_ALL, BAM(10, 2), BAM_DATA(1), BAM_DATA(2), receive(a))
CASE(bam_get_without_broadcast, SENDER, BAM(10, 2), BAM_DATA(1), BAM_DATA(2), receive_none(a))
CASE(bam_get_promiscuous, SENDER, DO(set(a, SOL_CAN_J1939, SO_J1939_PROMISC, 1)), BAM(10, 2), BAM_DATA(1), BAM_DATA(2),
     receive(a))
CASE(bam_get_order, TO_ALL, BAM(20, 3), BAM_DATA(2), BAM_DATA(1), BAM_DATA(3), pass(900), receive_none(a))
CASE(bam_get_late, TO_ALL, BAM(10, 2), BAM_DATA(1), pass(900), BAM_DATA(2), receive_none(a))
CASE(bam_get_again, TO_ALL, BAM(10, 2), BAM_DATA(1), BAM(10, 2), BAM_DATA(1), BAM_DATA(2), receive_none(a))
CASE(bam_to_one, SENDER, CONTROLS(b, 0x20, 10, 0, 2, 0xFF, 0x12, 0xFE, 0), packets(b, 1, 2), take(b, 0))
CASE(bam_own_interface, TO_ALL, c = broadcast(node(OTHER)), send_to(a, ALL, GROUP_TO_ALL, 20), receive(c),
     receive_none(a))
CASE(bam_short_data, TO_ALL, BAM(10, 2), HEARS(b, 0x18EBFF90, 1, 2), BAM_DATA(1), BAM_DATA(2), receive_none(a))

/* Aborts every active transfer. A transfer that is still active when the last socket is closed would disturb the next
 * case. */
#define ENDS ABORTS(3), EXTENDED_CONTROLS(b, 0xFF, 3, 0xFF, 0xFF, 0xFF, 0, 0x23, 1), pass(20)
#define REQUESTS(length, total, most) CONTROLS(b, 0x10, length, 0, total, most, 0, 0x23, 1)
CASE(get_whole, SENDER, REQUESTS(10, 2, 2), take(b, 1), packets(b, 1, 2), take(b, 1), receive(a))
CASE(get_in_blocks, SENDER, REQUESTS(30, 5, 2), take(b, 1), packets(b, 1, 2), take(b, 1), packets(b, 3, 2), take(b, 1),
     packets(b, 5, 1), take(b, 1), receive(a))
CASE(get_other_address, SENDER, HEARS(b, 0x18ECA090, 0x10, 10, 0, 2, 2, 0, 0x23, 1), take(b, 0))
CASE(get_promiscuous, SENDER, DO(set(a, SOL_CAN_J1939, SO_J1939_PROMISC, 1)),
     HEARS(b, 0x18ECA090, 0x10, 10, 0, 2, 2, 0, 0x23, 1), take(b, 0), receive(a), receive_none(a))
CASE(get_unwanted_group, a = j1939(), DO(bind(a, WAY("can0", 0, 0x12400, OWN))), b = line(), REQUESTS(10, 2, 2),
     take(b, 0))
CASE(get_by_second_socket, a = j1939(), DO(bind(a, WAY("can0", 0, 0x12400, OWN))), c = node(OWN), b = line(),
     REQUESTS(10, 2, 2), take(b, 1), packets(b, 1, 2), take(b, 1), receive(c), receive_none(a))
CASE(get_by_both, SENDER, c = node(OWN), REQUESTS(10, 2, 2), take(b, 1), packets(b, 1, 2), take(b, 1), receive(c),
     receive(a))
CASE(get_8, SENDER, REQUESTS(8, 2, 2), take(b, 1))
CASE(get_1786, SENDER, CONTROLS(b, 0x10, 0xFA, 6, 255, 255, 0, 0x23, 1), take(b, 1))
CASE(get_wrong_total, SENDER, REQUESTS(10, 3, 3), take(b, 1), packets(b, 1, 2), take(b, 0), packets(b, 3, 1),
     take(b, 1))
CASE(get_at_most_0, SENDER, REQUESTS(10, 2, 0), take(b, 1), take(b, 0), ENDS)
CASE(get_no_data, SENDER, REQUESTS(10, 2, 2), take(b, 1), pass(1400), take(b, 1), receive_none(a), error_of(a))
CASE(get_rest_missing, SENDER, REQUESTS(20, 3, 3), take(b, 1), packets(b, 1, 2), pass(900), take(b, 1), receive_none(a))
CASE(get_packet_missing, SENDER, REQUESTS(20, 3, 3), take(b, 1), packets(b, 1, 1), packets(b, 3, 1), take(b, 0), ENDS)
CASE(get_packet_twice, SENDER, REQUESTS(20, 3, 3), take(b, 1), packets(b, 1, 1), packets(b, 1, 3), take(b, 1),
     receive(a))
CASE(get_packet_0, SENDER, REQUESTS(20, 3, 3), take(b, 1), packets(b, 0, 1), take(b, 1))
CASE(get_packet_9, SENDER, REQUESTS(20, 3, 3), take(b, 1), packets(b, 9, 1), take(b, 1))
CASE(get_short_packet, SENDER, REQUESTS(20, 3, 3), take(b, 1), HEARS(b, 0x18EB8090, 1, 2, 3), take(b, 1))
CASE(get_packets_of_nothing, SENDER, packets(b, 1, 2), take(b, 0), receive_none(a))
CASE(get_packet_after_end, SENDER, REQUESTS(10, 2, 2), take(b, 1), packets(b, 1, 2), take(b, 1), packets(b, 3, 1),
     take(b, 0))
CASE(get_short_control, SENDER, CONTROLS(b, 0x10, 10, 0, 2), take(b, 0))
CASE(get_odd_control, SENDER, CONTROLS(b, 0x30, 10, 0, 2, 2, 0, 0x23, 1), take(b, 0))
CASE(get_request_again, SENDER, REQUESTS(10, 2, 2), take(b, 1), REQUESTS(10, 2, 2), take(b, 1), REQUESTS(10, 2, 2),
     take(b, 1), ENDS)
CASE(get_request_of_other_group, SENDER, REQUESTS(10, 2, 2), take(b, 1), CONTROLS(b, 0x10, 10, 0, 2, 2, 0, 0x24, 1),
     take(b, 1), packets(b, 1, 2), take(b, 1), receive(a))
CASE(get_request_to_all, TO_ALL, HEARS(b, 0x18ECFF90, 0x10, 10, 0, 2, 2, 0, 0x23, 1), take(b, 0))
CASE(get_aborted, SENDER, REQUESTS(10, 2, 2), take(b, 1), ABORTS(3), packets(b, 1, 2), take(b, 0), receive_none(a),
     error_of(a))
CASE(get_from_two, SENDER, REQUESTS(10, 2, 2), HEARS(b, 0x18EC80A0, 0x10, 11, 0, 2, 2, 0, 0x23, 1), take(b, 2),
     packets(b, 1, 1), HEARS(b, 0x18EB80A0, 1, 2, 2, 2, 2, 2, 2, 2), packets(b, 2, 1),
     HEARS(b, 0x18EB80A0, 2, 3, 3, 3, 3, 3, 3, 3), take(b, 2), receive(a), receive(a))
CASE(get_by_priority, SENDER, HEARS(b, 0x1CEC8090, 0x10, 10, 0, 2, 2, 0, 0x23, 1), take(b, 1), packets(b, 1, 2),
     take(b, 1), receive(a))

#define ASKS(length, more) EXTENDED_CONTROLS(b, 0x14, length, more, 0, 0, 0, 0x23, 1)
#define CLEARS(number, first) EXTENDED_CONTROLS(b, 0x15, number, first, 0, 0, 0, 0x23, 1)
CASE(extended_send, SENDER, send_to(a, OTHER, GROUP, 1786), take(b, 1), CLEARS(255, 1), take_last(b, 256), CLEARS(1, 0),
     take(b, 1))
CASE(extended_send_whole, SENDER, send_to(a, OTHER, GROUP, 1800), take(b, 1), CLEARS(200, 1), take_last(b, 201),
     CLEARS(58, 201), take_last(b, 59), EXTENDED_CONTROLS(b, 0x17, 8, 7, 0, 0, 0, 0x23, 1), pass(50),
     send_to(a, OTHER, GROUP, 1), take(b, 1))
CASE(extended_send_aborted, SENDER, send_to(a, OTHER, GROUP, 1800), take(b, 1),
     EXTENDED_CONTROLS(b, 0xFF, 2, 0xFF, 0xFF, 0xFF, 0, 0x23, 1), pass(50), error_of(a))
CASE(extended_get, SENDER, ASKS(0xFA, 6), take(b, 1), EXTENDED_CONTROLS(b, 0x16, 255, 0, 0, 0, 0, 0x23, 1),
     extended_packets(b, 1, 255), take(b, 1), EXTENDED_CONTROLS(b, 0x16, 1, 255, 0, 0, 0, 0x23, 1),
     extended_packets(b, 1, 1), take(b, 1), receive(a))
CASE(extended_get_too_short, SENDER, ASKS(0xF9, 6), take(b, 1))
CASE(extended_get_without_offset, SENDER, ASKS(0xFA, 6), take(b, 1), extended_packets(b, 1, 1), take(b, 1))
CASE(extended_get_offset_of_other_group, SENDER, ASKS(0xFA, 6), take(b, 1),
     EXTENDED_CONTROLS(b, 0x16, 255, 0, 0, 0, 0, 0x24, 1), take(b, 1), ENDS)
CASE(extended_get_too_long, SENDER, EXTENDED_CONTROLS(b, 0x14, 0, 0, 0, 8, 0, 0x23, 1), take(b, 1))

/* Both ends of a transfer are on one interface. */
#define BOTH a = node(OWN), c = node(OTHER)
#define BOTH_SEND(length) CASE(both_##length, BOTH, send_to(a, OTHER, GROUP, length), receive(c), error_of(a))
BOTH_SEND(9)
BOTH_SEND(100)
BOTH_SEND(1785)
BOTH_SEND(1786)
BOTH_SEND(10000)
BOTH_SEND(20000)
CASE(both_ways, BOTH, send_to(a, OTHER, GROUP, 100), send_to(c, OWN, GROUP, 200), receive(c), receive(a))
CASE(both_interfaces, a = node(OWN), c = node_on("can1", OTHER), send_to(a, OTHER, GROUP, 3000), receive(c))
CASE(both_several, BOTH, send_to(a, OTHER, GROUP, 9), send_to(a, OTHER, GROUP, 5), send_to(a, OTHER, GROUP, 20),
     receive(c), receive(c), receive(c))
CASE(both_cut, BOTH, send_to(a, OTHER, GROUP, 100), receive_into(c, 10, 300, 24), receive_none(c))
CASE(both_in_pieces, BOTH,
     DO(sendmsg(a,
                &(struct msghdr){.msg_name = way("can0", 0, GROUP, OTHER),
                                 .msg_namelen = 24,
                                 .msg_iov = (struct iovec[]){{"\1\2\3", 3}, {"", 0}, {"\4\5\6\7\10\11\12\13", 8}},
                                 .msg_iovlen = 3},
                0)),
     receive(c))

/* Sends segments until SO_SNDBUF is used up. The waiting segments count towards SO_SNDBUF. */
static void flood_segments(int fd, int number, int flags) {
    int done = 0;
    while (done < number && sendto(fd, "12345678", 8, flags, WAY("can0", 0, GROUP, OTHER)) == 8) {
        done++;
    }
    say(" %d %s", done, done < number ? strerrorname_np(errno) : "all");
}
CASE(room_behind_transfer, SENDER, send_to(a, OTHER, GROUP, 9), flood_segments(a, 1000, MSG_DONTWAIT))
CASE(room_events, SENDER, send_to(a, OTHER, GROUP, 9), take(b, 1), flood_segments(a, 100, MSG_DONTWAIT),
     events(a, POLLOUT), flood_segments(a, 50, MSG_DONTWAIT), events(a, POLLOUT), CTS(2, 1), take(b, 2), DONE(9, 2),
     take_last(b, 150), until(a, POLLOUT), events(a, POLLOUT))
CASE(room_events_of_long, SENDER, send_flags(a, OTHER, GROUP, 100000, MSG_DONTWAIT), events(a, POLLIN | POLLOUT))
CASE(room_small, SENDER, DO(set(a, SOL_SOCKET, SO_SNDBUF, 3000)), send_to(a, OTHER, GROUP, 9),
     flood_segments(a, 1000, MSG_DONTWAIT))
CASE(room_of_long, SENDER, send_flags(a, OTHER, GROUP, 100000, MSG_DONTWAIT),
     send_flags(a, OTHER, GROUP, 100, MSG_DONTWAIT), send_flags(a, OTHER, GROUP, 12535, MSG_DONTWAIT), take(b, 1))
CASE(room_waits, SENDER, DO(set(a, SOL_SOCKET, SO_SNDBUF, 3000)), send_to(a, OTHER, GROUP, 9), flood_segments(a, 7, 0),
     BESIDE(100, ABORTS(2)), flood_segments(a, 1, 0))
CASE(room_interrupted, SENDER, signals(0), DO(set(a, SOL_SOCKET, SO_SNDBUF, 3000)), send_to(a, OTHER, GROUP, 9),
     flood_segments(a, 7, 0), soon(), flood_segments(a, 1, 0), caught())
CASE(close_waits, SENDER, send_to(a, OTHER, GROUP, 9), take(b, 1), BESIDE(100, CTS(2, 1), pass(50), DONE(9, 2)),
     lasts_from(), close(a), lasted(100), take(b, 2))
CASE(close_interrupted, SENDER, signals(0), send_to(a, OTHER, GROUP, 9), take(b, 1), soon(), lasts_from(), close(a),
     lasted(1000), CTS(2, 1), take(b, 0))
CASE(close_waits_for_abort, SENDER, send_to(a, OTHER, GROUP, 9), take(b, 1), lasts_from(), close(a), lasted(1500),
     take(b, 1))
