/* Duplicates of a socket, and the effects of closing it. */
#include "probe.h"

CASE(closed_write, a = raw("can0"), DO(close(a)), DO(write(a, FRAME(0x123, 1), 16)), DO(read(a, (char[16]){0}, 16)),
     DO(close(a)))
CASE(closed_options, a = raw("can0"), close(a), DO(set(a, SOL_CAN_RAW, CAN_RAW_LOOPBACK, 1)),
     DO(bind(a, TO(at("can0")))))
CASE(dup_writes, a = raw("can0"), b = raw("can1"), c = dup(a), close(a), PUT(c, 0x123), take(b, 1))
CASE(dup_reads, a = raw("can1"), b = raw("can0"), c = dup(a), PUT(b, 0x123), PUT(b, 0x124), take_to(a, 0x123),
     take_to(c, 0x124))
CASE(dup_options, a = raw("can0"), c = dup(a), set(c, SOL_CAN_RAW, CAN_RAW_RECV_OWN_MSGS, 1), PUT(a, 0x123), take(a, 1))
CASE(dup_flags, a = raw("can0"), c = dup(a), fcntl(c, F_SETFL, O_NONBLOCK), DO(read(a, (char[16]){0}, 16)))
CASE(dup2_over, a = raw("can0"), b = raw("vcan0"), c = raw("can1"), d = raw("vcan0"), DO(dup2(b, a) == a),
     PUT(a, 0x123), take(d, 1), take(c, 0))
CASE(dup2_to_itself, a = raw("can0"), DO(dup2(a, a) == a), b = raw("can1"), PUT(a, 0x123), take(b, 1))
CASE(dup3_cloexec, a = raw("can0"), DO(dup3(a, 40, O_CLOEXEC)), DO(fcntl(40, F_GETFD)), b = raw("can1"), PUT(40, 0x123),
     take(b, 1))
CASE(dupfd, a = raw("can0"), DO(fcntl(a, F_DUPFD, 50)), b = raw("can1"), PUT(50, 0x123), take(b, 1))
CASE(reused_number, a = raw("can0"), close(a), b = open("/dev/null", O_RDWR), DO(write(b, FRAME(0x123, 1), 16)),
     DO(setsockopt(b, SOL_CAN_RAW, CAN_RAW_LOOPBACK, &(int){1}, 4)), DO(bind(b, TO(at("can0")))))
CASE(fork_writes, a = raw("can0"), b = raw("can1"), BESIDE(0, PUT(a, 0x123)), take(b, 1))
CASE(fork_shares_options, a = raw("can0"), BESIDE(0, set(a, SOL_CAN_RAW, CAN_RAW_RECV_OWN_MSGS, 1)), wait(NULL),
     PUT(a, 0x123), take(a, 1))
CASE(fork_shares_filters, a = raw("can1"), b = raw("can0"), BESIDE(0, FILTER(a, {LAST, 0x7FF})), wait(NULL),
     PUT(b, 0x123), PUT(b, LAST), take_to(a, LAST))
CASE(fork_closes, a = raw("can0"), b = raw("can1"), BESIDE(0, close(a)), wait(NULL), PUT(a, 0x123), take(b, 1))
CASE(fork_binds, a = socket(PF_CAN, SOCK_RAW, CAN_RAW), BESIDE(0, bind(a, TO(at("can0")))), wait(NULL), name_of(a))
CASE(fork_reads_one, a = raw("can1"), b = raw("can0"), PUT(b, 0x123), PUT(b, 0x124), pass(50),
     BESIDE(0, (void)!read(a, (char[16]){0}, 16)), wait(NULL), take(a, 1))
CASE(passed_on, a = raw("can1"), b = raw("can0"), passed(a), PUT(b, 0x123), take(d, 1))
CASE(unread_is_gone, a = raw("can1"), b = raw("can0"), PUT(b, 0x123), until(a, POLLIN), close(a), a = raw("can1"),
     take(a, 0))
CASE(sent_before_close, a = raw("can0"), b = raw("can1"), PUT(a, 0x123), close(a), take(b, 1))
CASE(many_at_once, many_sockets(20))
CASE(one_after_other, one_after_other(30))
CASE(raw_mode, a = raw("can0"), mode_of(a))
CASE(seek, a = raw("can0"), DO(lseek(a, 0, SEEK_SET)))
CASE(truncate, a = raw("can0"), DO(ftruncate(a, 0)))
CASE(positioned_read, a = raw("can0"), DO(pread(a, (char[16]){0}, 16, 0)))
CASE(positioned_write, a = raw("can0"), DO(pwrite(a, FRAME(0x123, 1), 16, 0)))
CASE(synchronized, a = raw("can0"), DO(fsync(a)))
CASE(mapped, a = raw("can0"), DO(mmap(NULL, 4096, PROT_READ, MAP_SHARED, a, 0)))

/* ISO-TP sockets that are closed while a message is being transferred. */
CASE(isotp_again, a = tp(RX, TX, 0), DO(close(a)), a = tp(RX, TX, 0), b = peer(), DO(write(a, "x", 1)), take(b, 1))
CASE(isotp_same_ids_twice, a = tp(RX, TX, 0), b = tp(RX, TX, 0), c = peer(), SAYS(c, 1, 7), message(a), message(b))
CASE(isotp_close_waits, b = peer(), a = tp(RX, TX, 0), DO(write(a, "0123456789", 10)), take(b, 1), lasts_from(),
     DO(close(a)), lasted(300), SAYS(b, 0x30, 0, 0), take(b, 0))
CASE(isotp_close_gives_up, b = peer(), a = tp(RX, TX, 0), DO(write(a, "0123456789", 10)), take(b, 1), signals(0),
     soon(), DO(close(a)), SAYS(b, 0x30, 0, 0), take(b, 0))
CASE(isotp_close_idle, a = tp(RX, TX, 0), b = peer(), DO(write(a, "x", 1)), take(b, 1), lasts_from(), DO(close(a)),
     lasted(300))
CASE(isotp_close_receiving, a = tp(RX, TX, 0), b = peer(), SAYS(b, 0x10, 20, 1, 2, 3, 4, 5, 6), take(b, 1),
     lasts_from(), DO(close(a)), lasted(300))
CASE(isotp_dup2_over, a = tp(RX, TX, 0), b = peer(), c = open("/dev/null", O_RDWR), DO(write(a, "0123456789", 10)),
     take(b, 1), lasts_from(), DO(dup2(c, a) == a), lasted(300))
CASE(bcm_end_stops, a = bcm("can0"), b = raw("can1"), FILTER(b, {0x155, 0x7FF}),
     TELL(a, ONE(0x155, 1), .opcode = TX_SETUP, .flags = SETTIMER | STARTTIMER, .nframes = 1, .ival2 = {100, 0},
          .can_id = 0x155),
     take(b, 1), DO(close(a)), take(b, 0))
CASE(bcm_end_by_dup, a = bcm("can0"), b = raw("can1"), FILTER(b, {0x156, 0x7FF}), c = dup(a), close(a),
     TELL(c, ONE(0x156, 1), .opcode = TX_SEND, .nframes = 1), take(b, 1))
