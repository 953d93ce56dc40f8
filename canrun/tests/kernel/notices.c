/* CAN_J1939: the error queue. a and c are J1939 sockets on can0, at the addresses OWN and OTHER; b is a raw socket on
 * can1. */
#include "j1939.h"

#define STAMPS                                                                                                   \
    (SOF_TIMESTAMPING_SOFTWARE | SOF_TIMESTAMPING_TX_ACK | SOF_TIMESTAMPING_TX_SCHED | SOF_TIMESTAMPING_OPT_ID | \
     SOF_TIMESTAMPING_OPT_STATS | SOF_TIMESTAMPING_OPT_TSONLY | SOF_TIMESTAMPING_OPT_CMSG)
#define RECEIVED (SOF_TIMESTAMPING_SOFTWARE | SOF_TIMESTAMPING_RX_SOFTWARE | SOF_TIMESTAMPING_OPT_ID)
#define QUEUED(flags) a = node(OWN), b = line(), notices(a, flags)
#define CTS(number, first) CONTROLS(b, 0x11, number, first, 0xFF, 0xFF, 0, 0x23, 1)
#define DONE(length, total) CONTROLS(b, 0x13, length, 0, total, 0xFF, 0, 0x23, 1)
#define ABORTS(reason) CONTROLS(b, 0xFF, reason, 0xFF, 0xFF, 0xFF, 0, 0x23, 1)
CASE(none, a = node(OWN), DO(recv(a, (char[9]){0}, 9, MSG_ERRQUEUE)), QUEUED(STAMPS),
     DO(recv(a, (char[9]){0}, 9, MSG_ERRQUEUE)))
CASE(short_message, QUEUED(STAMPS), send_to(a, OTHER, GROUP, 5), pass(50), notice(a), notice(a), notice_none(a))
CASE(short_to_all, QUEUED(STAMPS), broadcast(a), send_to(a, ALL, GROUP, 8), pass(50), notice(a), notice(a))
CASE(short_no_flags, QUEUED(0), send_to(a, OTHER, GROUP, 5), notice_none(a))
CASE(short_ack_only, QUEUED(SOF_TIMESTAMPING_TX_ACK), send_to(a, OTHER, GROUP, 5), notice(a), notice_none(a))
CASE(short_queue_off, a = node(OWN), set(a, SOL_SOCKET, SO_TIMESTAMPING, STAMPS), send_to(a, OTHER, GROUP, 5),
     notice_none(a))
CASE(short_no_id, QUEUED(STAMPS & ~SOF_TIMESTAMPING_OPT_ID), send_to(a, OTHER, GROUP, 5), pass(50),
     send_to(a, OTHER, GROUP, 5), pass(50), notice(a), notice(a), notice(a))
CASE(short_no_software, QUEUED(STAMPS & ~SOF_TIMESTAMPING_SOFTWARE), send_to(a, OTHER, GROUP, 5), pass(50), notice(a))
CASE(numbers, QUEUED(STAMPS), send_to(a, OTHER, GROUP, 1), pass(30), notice(a), notice(a), send_to(a, OTHER, GROUP, 2),
     pass(30), notice(a), notice(a), send_to_name(a, OTHER_NAME, GROUP, 1), send_to(a, OTHER, GROUP, 3), pass(30),
     notice(a), notice(a))
CASE(numbers_before_id, a = node(OWN), send_to(a, OTHER, GROUP, 1), pass(30), b = line(), notices(a, STAMPS),
     send_to(a, OTHER, GROUP, 1), pass(30), notice(a), notice(a))
CASE(turned_off, QUEUED(STAMPS), send_to(a, OTHER, GROUP, 5), pass(50), DO(set(a, SOL_CAN_J1939, SO_J1939_ERRQUEUE, 0)),
     notice_none(a), DO(recv(a, (char[9]){0}, 9, MSG_ERRQUEUE)))
CASE(small_room, QUEUED(STAMPS), send_to(a, OTHER, GROUP, 5), pass(50), notice_into(a, 5, 100), notice_into(a, 8, 64))
CASE(whole_events, QUEUED(STAMPS), events(a, POLLIN | POLLOUT), send_to(a, OTHER, GROUP, 5), pass(50),
     events(a, POLLIN | POLLOUT), events(a, 0), notice(a), events(a, 0), notice(a), events(a, 0))
CASE(select_queue_events, QUEUED(STAMPS), set(a, SOL_SOCKET, SO_SELECT_ERR_QUEUE, 1), send_to(a, OTHER, GROUP, 5),
     pass(50), events(a, POLLPRI), notice(a), notice(a), events(a, POLLPRI))
CASE(waits, QUEUED(STAMPS), BESIDE(100, pass(1)), send_to(a, OTHER, GROUP, 9), take(b, 1), BESIDE(100, CTS(2, 1)),
     pass(200), take(b, 2), BESIDE(100, DONE(9, 2)), notice(a), notice_none(a))
CASE(with_messages, QUEUED(STAMPS), send_to(a, OTHER, GROUP, 5), HEARS(b, 0x19238090, 1), pass(50), events(a, POLLIN),
     notice(a), receive(a), events(a, POLLIN), notice(a), events(a, POLLIN))

CASE(transfer, QUEUED(STAMPS), send_to(a, OTHER, GROUP, 20), take(b, 1), CTS(2, 1), take(b, 2), CTS(1, 3), take(b, 1),
     DONE(20, 3), notice(a), notice(a), notice_none(a))
CASE(transfer_aborted, QUEUED(STAMPS), send_to(a, OTHER, GROUP, 20), take(b, 1), CTS(2, 1), take(b, 2), ABORTS(2),
     notice(a), error_of(a), notice_none(a))
CASE(transfer_timeout, QUEUED(STAMPS), send_to(a, OTHER, GROUP, 20), take(b, 1), notice(a), error_of(a), take(b, 1))
CASE(transfer_failed_no_flags, QUEUED(0), send_to(a, OTHER, GROUP, 20), take(b, 1), ABORTS(3), notice(a))
CASE(transfer_to_all, QUEUED(STAMPS), broadcast(a), send_to(a, ALL, GROUP, 20), take(b, 4), notice(a), notice_none(a))
CASE(transfer_twice, QUEUED(STAMPS), c = node(OWN), send_to(c, OTHER, GROUP, 20), take(b, 1),
     send_to(a, OTHER, GROUP, 20), pass(50), notice_none(a))
CASE(transfer_next, QUEUED(STAMPS), send_to(a, OTHER, GROUP, 20), send_to(a, OTHER, GROUP, 4), take(b, 1), ABORTS(2),
     take(b, 1), notice(a), notice(a), notice(a))
CASE(extended, QUEUED(STAMPS), c = node(OTHER), send_to(a, OTHER, GROUP, 2000), receive(c), pass(50), notice(a),
     notice(a), notice_none(a))

/* Aborts every active transfer. A transfer that is still active when the last socket is closed would disturb the next
 * case. */
#define ENDS ABORTS(3), EXTENDED_CONTROLS(b, 0xFF, 3, 0xFF, 0xFF, 0xFF, 0, 0x23, 1), pass(20)
#define GETS(length, total, most) CONTROLS(b, 0x10, length, 0, total, most, 0, 0x23, 1), take(b, 1)
CASE(received, QUEUED(RECEIVED), GETS(10, 2, 2), notice(a), packets(b, 1, 2), take(b, 1), receive(a), notice_none(a))
CASE(received_twice, QUEUED(RECEIVED), GETS(10, 2, 2), notice(a), packets(b, 1, 2), take(b, 1), DONE(10, 2),
     GETS(11, 2, 2), notice(a), ENDS)
CASE(received_aborted, QUEUED(RECEIVED), GETS(10, 2, 2), notice(a), ABORTS(5), notice(a), notice(a), notice_none(a))
CASE(received_timeout, QUEUED(RECEIVED), GETS(10, 2, 2), notice(a), notice(a), notice(a), take(b, 1))
CASE(received_no_flags, QUEUED(0), GETS(10, 2, 2), notice_none(a), ENDS)
CASE(received_by_two, QUEUED(RECEIVED), c = node(OWN), notices(c, RECEIVED), GETS(10, 2, 2), notice(a), notice(c), ENDS)
CASE(received_to_all, QUEUED(RECEIVED), broadcast(a), HEARS(b, 0x18ECFF90, 0x20, 10, 0, 2, 0xFF, 0x12, 0xFE, 0),
     notice(a), HEARS(b, 0x18EBFF90, 1, 1, 2, 3, 4, 5, 6, 7), HEARS(b, 0x18EBFF90, 2, 1, 2, 3, 4, 5, 6, 7), receive(a))
CASE(received_extended, QUEUED(RECEIVED), EXTENDED_CONTROLS(b, 0x14, 0xFA, 6, 0, 0, 0, 0x23, 1), take(b, 1), notice(a),
     EXTENDED_CONTROLS(b, 0x16, 255, 0, 0, 0, 0, 0x23, 1), notice(a), ENDS)
