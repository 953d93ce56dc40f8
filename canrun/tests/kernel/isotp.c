/* CAN_ISOTP: options, addresses, and the frames of messages. a is the socket on can0, b is its peer on can1. */
#include "probe.h"

#define OPTIONS(...) (&(struct can_isotp_options){__VA_ARGS__})
#define SET_OPTIONS(...) SETS(a, SOL_CAN_ISOTP, CAN_ISOTP_OPTS, OPTIONS(__VA_ARGS__), sizeof(struct can_isotp_options))
CASE(options_usual, a = isotp(), get(a, SOL_CAN_ISOTP, CAN_ISOTP_OPTS, 12))
CASE(options_set, a = isotp(), SET_OPTIONS(.flags = 3, .frame_txtime = 7, .ext_address = 1, .txpad_content = 2),
     get(a, SOL_CAN_ISOTP, CAN_ISOTP_OPTS, 12))
CASE(options_no_time, a = isotp(), SET_OPTIONS(.frame_txtime = 0), get(a, SOL_CAN_ISOTP, CAN_ISOTP_OPTS, 12))
CASE(options_time_zero, a = isotp(), SET_OPTIONS(.frame_txtime = CAN_ISOTP_FRAME_TXTIME_ZERO),
     get(a, SOL_CAN_ISOTP, CAN_ISOTP_OPTS, 12))
CASE(options_unknown_flags, a = isotp(), SET_OPTIONS(.flags = 0xFFFFF000), get(a, SOL_CAN_ISOTP, CAN_ISOTP_OPTS, 12))
CASE(options_broadcasts, a = isotp(), SET_OPTIONS(.flags = CAN_ISOTP_SF_BROADCAST | CAN_ISOTP_CF_BROADCAST),
     SET_OPTIONS(.flags = CAN_ISOTP_SF_BROADCAST), SET_OPTIONS(.flags = CAN_ISOTP_CF_BROADCAST))
CASE(options_lengths, a = isotp(), SETS(a, SOL_CAN_ISOTP, CAN_ISOTP_OPTS, OPTIONS(0), 11),
     SETS(a, SOL_CAN_ISOTP, CAN_ISOTP_OPTS, OPTIONS(0), 0), get(a, SOL_CAN_ISOTP, CAN_ISOTP_OPTS, 5),
     get(a, SOL_CAN_ISOTP, CAN_ISOTP_OPTS, 40), get(a, SOL_CAN_ISOTP, CAN_ISOTP_OPTS, 0))
CASE(options_bound, a = tp(RX, TX, 0), SET_OPTIONS(.flags = 1))
CASE(flow_options, a = isotp(), get(a, SOL_CAN_ISOTP, CAN_ISOTP_RECV_FC, 3),
     SETS(a, SOL_CAN_ISOTP, CAN_ISOTP_RECV_FC, (&(struct can_isotp_fc_options){1, 2, 3}), 3),
     get(a, SOL_CAN_ISOTP, CAN_ISOTP_RECV_FC, 3),
     SETS(a, SOL_CAN_ISOTP, CAN_ISOTP_RECV_FC, (&(struct can_isotp_fc_options){1, 2, 3}), 2))
CASE(stmin_options, a = isotp(), get(a, SOL_CAN_ISOTP, CAN_ISOTP_TX_STMIN, 4),
     SETS(a, SOL_CAN_ISOTP, CAN_ISOTP_TX_STMIN, &(uint32_t){5}, 4), get(a, SOL_CAN_ISOTP, CAN_ISOTP_TX_STMIN, 4),
     SETS(a, SOL_CAN_ISOTP, CAN_ISOTP_TX_STMIN, &(uint32_t){5}, 2),
     SETS(a, SOL_CAN_ISOTP, CAN_ISOTP_RX_STMIN, &(uint32_t){6}, 4), get(a, SOL_CAN_ISOTP, CAN_ISOTP_RX_STMIN, 4))
CASE(link_usual, a = isotp(), get(a, SOL_CAN_ISOTP, CAN_ISOTP_LL_OPTS, 3))
CASE(option_99, a = isotp(), DO(set(a, SOL_CAN_ISOTP, 99, 1)), get(a, SOL_CAN_ISOTP, 99, 4))
#define LINK(name, ...)                                                                               \
    CASE(name, a = isotp(),                                                                           \
         SETS(a, SOL_CAN_ISOTP, CAN_ISOTP_LL_OPTS, (&(struct can_isotp_ll_options){__VA_ARGS__}), 3), \
         get(a, SOL_CAN_ISOTP, CAN_ISOTP_LL_OPTS, 3))
LINK(link_classic, 16, 8, 0)
LINK(link_classic_7, 16, 7, 0)
LINK(link_classic_12, 16, 12, 0)
LINK(link_fd_8, 72, 8, 0)
LINK(link_fd_9, 72, 9, 0)
LINK(link_fd_12, 72, 12, 1)
LINK(link_fd_64, 72, 64, 5)
LINK(link_fd_65, 72, 65, 0)
LINK(link_mtu_0, 0, 8, 0)
LINK(link_mtu_17, 17, 8, 0)
LINK(link_classic_flags, 16, 8, 1)
CASE(link_bound, a = tp(RX, TX, 0),
     SETS(a, SOL_CAN_ISOTP, CAN_ISOTP_LL_OPTS, (&(struct can_isotp_ll_options){16, 8, 0}), 3))

#define BIND(name, rx, tx) CASE(name, a = isotp(), DO(bind(a, TO(ids(rx, tx)))))
BIND(bind_same, 0x123, 0x123)
BIND(bind_zero, 0, 0)
BIND(bind_tx_zero, 0x123, 0)
BIND(bind_rx_zero, 0, 0x123)
BIND(bind_800, 0x800, 0x123)
BIND(bind_tx_800, 0x123, 0x800)
BIND(bind_mixed, 0x123, 0x123 | CAN_EFF_FLAG)
BIND(bind_extended, 0x18DA00F1 | CAN_EFF_FLAG, 0x18DAF100 | CAN_EFF_FLAG)
BIND(bind_extended_rtr, 0x123 | CAN_RTR_FLAG, 0x124 | CAN_RTR_FLAG)
BIND(bind_error_flag, 0x123 | CAN_ERR_FLAG, 0x124)
CASE(bind_short, a = isotp(), DO(bind(a, (struct sockaddr *)ids(RX, TX), 15)),
     DO(bind(a, (struct sockaddr *)ids(RX, TX), 16)))
CASE(bind_twice, a = tp(RX, TX, 0), DO(bind(a, TO(ids(RX, TX)))), DO(bind(a, TO(ids(0x444, 0x445)))))
CASE(bind_all, a = isotp(), DO(bind(a, (struct sockaddr *)&(struct sockaddr_can){AF_CAN, .can_addr.tp = {RX, TX}}, 16)))
CASE(bind_12345, a = isotp(),
     DO(bind(a, (struct sockaddr *)&(struct sockaddr_can){AF_CAN, 12345, .can_addr.tp = {RX, TX}}, 16)))
CASE(bind_inet, a = isotp(),
     DO(bind(a, (struct sockaddr *)&(struct sockaddr_can){AF_INET, .can_addr.tp = {RX, TX}}, 16)))
CASE(bind_odd_sf_broadcast, a = tp(0, TX, CAN_ISOTP_SF_BROADCAST), b = peer(), DO(write(a, "ab", 2)), take(b, 1))

CASE(unbound_write, a = isotp(), DO(write(a, "x", 1)))
CASE(unbound_read, a = isotp(), glance(a), DO(read(a, (char[9]){0}, 9)))
CASE(send_to, a = tp(RX, TX, 0), b = peer(), DO(sendto(a, "x", 1, 0, TO(ids(RX, TX)))), take(b, 1))
#define SENDS(name, flags, text, frames) \
    CASE(name, a = tp(RX, TX, flags), b = peer(), DO(write(a, text, sizeof text - 1)), take(b, frames))
SENDS(send_0, 0, "", 0)
SENDS(send_1, 0, "a", 1)
SENDS(send_7, 0, "abcdefg", 1)
SENDS(send_1_padded, CAN_ISOTP_TX_PADDING, "a", 1)
SENDS(send_6_extended, CAN_ISOTP_EXTEND_ADDR, "abcdef", 1)
SENDS(send_1_extended_padded, CAN_ISOTP_EXTEND_ADDR | CAN_ISOTP_TX_PADDING, "a", 1)
SENDS(send_8, 0, "abcdefgh", 1)
SENDS(send_7_extended, CAN_ISOTP_EXTEND_ADDR, "abcdefg", 1)
SENDS(send_listening, CAN_ISOTP_LISTEN_MODE, "a", 1)
SENDS(send_half_duplex, CAN_ISOTP_HALF_DUPLEX, "a", 1)
SENDS(send_sf_broadcast, CAN_ISOTP_SF_BROADCAST, "ab", 1)
SENDS(send_sf_broadcast_long, CAN_ISOTP_SF_BROADCAST, "abcdefgh", 0)
SENDS(send_cf_broadcast, CAN_ISOTP_CF_BROADCAST, "0123456789abcdef", 3)
CASE(send_dontwait, a = tp(RX, TX, 0), b = peer(), DO(write(a, "0123456789", 10)), DO(send(a, "x", 1, MSG_DONTWAIT)),
     DO(send(a, "", 0, MSG_DONTWAIT)), take(b, 1))
CASE(send_4095, a = tp(RX, TX, 0), b = peer(), long_message(a, 4095), take(b, 1))
CASE(send_4096, a = tp(RX, TX, 0), b = peer(), long_message(a, 4096), take(b, 1))
CASE(send_8300, a = tp(RX, TX, 0), b = peer(), long_message(a, 8300), take(b, 1))
CASE(send_8301, a = tp(RX, TX, 0), b = peer(), long_message(a, 8301))
CASE(send_66000, a = tp(RX, TX, 0), b = peer(), long_message(a, 66000))

/* Messages that consist of several frames. */
#define FIRST(flags) \
    a = tp(RX, TX, flags), b = peer(), DO(write(a, "0123456789abcdefghijklmnopqrstuvw", 33)), take(b, 1)
CASE(several, FIRST(0), SAYS(b, 0x30, 0, 0), take(b, 4), until(a, POLLOUT))
CASE(several_blocks, FIRST(0), SAYS(b, 0x30, 2, 0), take(b, 2), SAYS(b, 0x30, 1, 0), take(b, 1), SAYS(b, 0x30, 0, 0),
     take(b, 1))
CASE(several_wait, FIRST(0), SAYS(b, 0x31, 0, 0), take(b, 0), SAYS(b, 0x30, 0, 0), take(b, 4))
CASE(several_stmin, FIRST(0), SAYS(b, 0x30, 0, 20), take(b, 4))
CASE(several_stmin_micros, FIRST(0), SAYS(b, 0x30, 0, 0xF9), take(b, 4))
CASE(several_padded, FIRST(CAN_ISOTP_TX_PADDING), SAYS(b, 0x30, 0, 0), take(b, 4))
CASE(several_extended, FIRST(CAN_ISOTP_EXTEND_ADDR), SAYS(b, 0xE0, 0x30, 0, 0), take(b, 5))
CASE(several_extended_other, FIRST(CAN_ISOTP_EXTEND_ADDR), SAYS(b, 0xE1, 0x30, 0, 0), take(b, 0))
CASE(several_rx_extended, FIRST(CAN_ISOTP_EXTEND_ADDR | CAN_ISOTP_RX_EXT_ADDR), SAYS(b, 0xE1, 0x30, 0, 0), take(b, 5))
CASE(several_foreign_data, FIRST(0), SAYS(b, 2, 7, 8), take(b, 0), message(a))
CASE(several_foreign_data_half_duplex, FIRST(CAN_ISOTP_HALF_DUPLEX), SAYS(b, 2, 7, 8), take(b, 0), SAYS(b, 0x30, 0, 0),
     take(b, 4), events(a, POLLIN))
CASE(several_flow_twice, FIRST(0), SAYS(b, 0x30, 1, 0), take(b, 1), SAYS(b, 0x30, 0, 0), take(b, 3),
     SAYS(b, 0x30, 0, 0), take(b, 0), error_of(a))
CASE(several_forced_stmin, a = isotp(), set_options(a, CAN_ISOTP_FORCE_TXSTMIN),
     SETS(a, SOL_CAN_ISOTP, CAN_ISOTP_TX_STMIN, &(uint32_t){1000000}, 4), DO(bind(a, TO(ids(RX, TX)))), b = peer(),
     DO(write(a, "0123456789abcdefghijk", 21)), take(b, 1), SAYS(b, 0x30, 0, 0x7F), take(b, 3))

/* A case in which the receiver's reply makes a message fail. It prints the error, and then writes the next message. */
#define FAILS(name, flags, ...) \
    CASE(name, FIRST(flags), SAYS(b, __VA_ARGS__), until(a, POLLOUT), error_of(a), DO(write(a, "x", 1)), take(b, 1))
FAILS(fails_overflow, 0, 0x32, 0, 0)
FAILS(fails_odd_status, 0, 0x33, 0, 0)
FAILS(fails_short_control, 0, 0x30, 0)
FAILS(fails_shorter_control, 0, 0x30)
FAILS(fails_padding_length, CAN_ISOTP_CHK_PAD_LEN, 0x30, 0, 0)
FAILS(fails_padding_data, CAN_ISOTP_CHK_PAD_DATA, 0x30, 0, 0, 1, 2, 3, 4, 5)
CASE(fails_without_control, FIRST(0), until(a, POLLOUT), error_of(a), error_of(a))
CASE(fails_in_read, FIRST(0), SAYS(b, 0x32, 0, 0), until(a, POLLOUT), glance(a), glance(a), DO(write(a, "x", 1)))
CASE(fails_in_write, FIRST(0), SAYS(b, 0x32, 0, 0), until(a, POLLOUT), DO(write(a, "x", 1)), DO(write(a, "y", 1)),
     take(b, 1))
CASE(fails_while_waiting, FIRST(0), BESIDE(50, SAYS(b, 0x32, 0, 0)), DO(write(a, "x", 1)), DO(write(a, "y", 1)))
CASE(waits_for_room, FIRST(0), BESIDE(50, SAYS(b, 0x30, 0, 0)), DO(write(a, "x", 1)), take(b, 5))
#define DONE CAN_ISOTP_WAIT_TX_DONE
CASE(done_single, a = tp(RX, TX, DONE), b = peer(), DO(write(a, "x", 1)), take(b, 1))
CASE(done_several, a = tp(RX, TX, DONE), b = peer(), BESIDE(50, SAYS(b, 0x30, 0, 0)), DO(write(a, "0123456789", 10)),
     take(b, 2))
CASE(done_overflow, a = tp(RX, TX, DONE), b = peer(), BESIDE(50, SAYS(b, 0x32, 0, 0)), DO(write(a, "0123456789", 10)),
     error_of(a))
CASE(done_no_control, a = tp(RX, TX, DONE), DO(write(a, "0123456789", 10)), error_of(a))
CASE(done_dontwait, a = tp(RX, TX, DONE), b = peer(), DO(send(a, "0123456789", 10, MSG_DONTWAIT)), take(b, 1),
     SAYS(b, 0x30, 0, 0), take(b, 1))

/* Received messages. */
#define GETS(name, flags, ...) \
    CASE(name, a = tp(RX, TX, flags), b = peer(), SAYS(b, __VA_ARGS__), SAYS(b, 1, 0x77), message_to_77(a))
GETS(get_1, 0, 1, 2)
GETS(get_7, 0, 7, 1, 2, 3, 4, 5, 6, 7)
GETS(get_padded, 0, 2, 1, 2, 0, 0, 0, 0, 0)
GETS(get_length_0, 0, 0, 1, 2)
GETS(get_length_0_fd_form, 0, 0, 3, 1, 2, 3)
GETS(get_length_too_long, 0, 7, 1, 2)
GETS(get_length_8, 0, 8, 1, 2, 3, 4, 5, 6, 7)
GETS(get_odd_type, 0, 0x41, 2)
GETS(get_consecutive_first, 0, 0x21, 2, 3)
GETS(get_control_first, 0, 0x30, 0, 0)
GETS(get_first_too_short, 0, 0x10, 20, 1)
GETS(get_first_of_0, 0, 0x10, 0, 1, 2, 3, 4, 5, 6)
GETS(get_first_of_7, 0, 0x10, 7, 1, 2, 3, 4, 5, 6)
#define PADDED(name, flags, ...)                                                                                   \
    CASE(name, a = tp(RX, TX, CAN_ISOTP_RX_PADDING | (flags)), b = peer(), SAYS(b, __VA_ARGS__), until(a, POLLIN), \
         glance(a), glance(a))
PADDED(get_padding_length, CAN_ISOTP_CHK_PAD_LEN, 1, 2)
PADDED(get_padding_data, CAN_ISOTP_CHK_PAD_DATA, 1, 2, 0, 0, 0, 0, 0, 0)
PADDED(get_padding_right, CAN_ISOTP_CHK_PAD_LEN | CAN_ISOTP_CHK_PAD_DATA, 1, 2, 0xBB, 0xBB, 0xBB, 0xBB, 0xBB, 0xBB)
CASE(get_extended, a = tp(RX, TX, CAN_ISOTP_EXTEND_ADDR), b = peer(), SAYS(b, 0xE5, 1, 2), SAYS(b, 0xE0, 1, 3),
     message(a))
CASE(get_rx_extended, a = tp(RX, TX, CAN_ISOTP_EXTEND_ADDR | CAN_ISOTP_RX_EXT_ADDR), b = peer(), SAYS(b, 0xE0, 1, 2),
     SAYS(b, 0xE1, 1, 3), message(a))
CASE(get_other_id, a = tp(RX, TX, 0), b = peer(), put(b, FRAME(0x322, 1, 2)), put(b, FRAME(RX | CAN_EFF_FLAG, 1, 2)),
     SAYS(b, 1, 3), message(a))
CASE(get_remote, a = tp(RX, TX, 0), b = peer(), put(b, EMPTY(RX | CAN_RTR_FLAG)), SAYS(b, 1, 3), message(a))
CASE(get_empty_frame, a = tp(RX, TX, 0), b = peer(), put(b, EMPTY(RX)), SAYS(b, 1, 3), message(a))
CASE(get_sf_broadcast, a = tp(RX, TX, CAN_ISOTP_SF_BROADCAST), b = peer(), SAYS(b, 1, 3), pass(30), glance(a))
CASE(get_two, a = tp(RX, TX, 0), b = peer(), SAYS(b, 1, 3), SAYS(b, 2, 4, 5), SAYS(b, 1, 0x77), message_to_77(a))
CASE(get_from, a = tp(RX, TX, 0), b = peer(), SAYS(b, 1, 3), until(a, POLLIN), from(a, 24))
CASE(get_from_8, a = tp(RX, TX, 0), b = peer(), SAYS(b, 1, 3), until(a, POLLIN), from(a, 8))
#define SHORTLY(name, length, flags)                                                 \
    CASE(name, a = tp(RX, TX, 0), b = peer(), SAYS(b, 3, 1, 2, 3), until(a, POLLIN), \
         DO(recv(a, (char[9]){0}, length, flags)), glance(a))
SHORTLY(get_short, 2, 0)
SHORTLY(get_short_0, 0, 0)
SHORTLY(get_short_trunc, 2, MSG_TRUNC)
SHORTLY(get_peek, 9, MSG_PEEK)
SHORTLY(get_waitall, 9, MSG_WAITALL)
SHORTLY(get_oob, 9, MSG_OOB)
SHORTLY(get_errqueue, 9, MSG_ERRQUEUE)
SHORTLY(get_cmsg_cloexec, 9, MSG_CMSG_CLOEXEC)

#define STARTS(flags) a = tp(RX, TX, flags), b = peer(), SAYS(b, 0x10, 16, 1, 2, 3, 4, 5, 6), take(b, 1)
CASE(gets_several, STARTS(0), SAYS(b, 0x21, 7, 8, 9, 10, 11, 12, 13), SAYS(b, 0x22, 14, 15, 16), message(a))
CASE(gets_several_padded, STARTS(CAN_ISOTP_TX_PADDING), SAYS(b, 0x21, 7, 8, 9, 10, 11, 12, 13),
     SAYS(b, 0x22, 14, 15, 16, 0, 0, 0, 0), message(a))
CASE(gets_wrong_number, STARTS(0), SAYS(b, 0x22, 7, 8, 9, 10, 11, 12, 13), until(a, POLLIN), error_of(a), SAYS(b, 1, 5),
     message(a))
CASE(gets_wrong_number_read, STARTS(0), SAYS(b, 0x22, 7, 8, 9, 10, 11, 12, 13), until(a, POLLIN), glance(a), glance(a))
CASE(gets_short_consecutive, STARTS(0), SAYS(b, 0x21, 7), SAYS(b, 0x22, 14, 15, 16), until(a, POLLIN), error_of(a))
CASE(gets_nothing_more, STARTS(0), until(a, POLLIN), error_of(a), glance(a))
CASE(gets_first_again, STARTS(0), SAYS(b, 0x10, 8, 1, 2, 3, 4, 5, 6), take(b, 1), SAYS(b, 0x21, 7, 8), message(a))
CASE(gets_single_between, STARTS(0), SAYS(b, 1, 9), message(a), SAYS(b, 0x21, 7, 8, 9, 10, 11, 12, 13),
     SAYS(b, 0x22, 14, 15, 16), pass(50), glance(a))
CASE(gets_listening, a = tp(RX, TX, CAN_ISOTP_LISTEN_MODE), b = peer(), SAYS(b, 0x10, 8, 1, 2, 3, 4, 5, 6), take(b, 0),
     SAYS(b, 0x21, 7, 8), message(a))
CASE(gets_blocks, a = isotp(), SETS(a, SOL_CAN_ISOTP, CAN_ISOTP_RECV_FC, (&(struct can_isotp_fc_options){1, 5, 0}), 3),
     DO(bind(a, TO(ids(RX, TX)))), b = peer(), SAYS(b, 0x10, 16, 1, 2, 3, 4, 5, 6), take(b, 1),
     SAYS(b, 0x21, 7, 8, 9, 10, 11, 12, 13), take(b, 1), SAYS(b, 0x22, 14, 15, 16), message(a), take(b, 0))
CASE(gets_forced_stmin, a = isotp(), set_options(a, CAN_ISOTP_FORCE_RXSTMIN),
     SETS(a, SOL_CAN_ISOTP, CAN_ISOTP_RX_STMIN, &(uint32_t){100000000}, 4),
     SETS(a, SOL_CAN_ISOTP, CAN_ISOTP_RECV_FC, (&(struct can_isotp_fc_options){1, 0, 0}), 3),
     DO(bind(a, TO(ids(RX, TX)))), b = peer(), SAYS(b, 0x10, 16, 1, 2, 3, 4, 5, 6), take(b, 1),
     SAYS(b, 0x21, 7, 8, 9, 10, 11, 12, 13), SAYS(b, 0x22, 14, 15, 16), pass(50), glance(a))
CASE(gets_5000, a = tp(RX, TX, 0), b = peer(), SAYS(b, 0x10, 0, 0, 0, 0x13, 0x88, 5, 6), take(b, 1))
CASE(gets_9000, a = tp(RX, TX, 0), b = peer(), SAYS(b, 0x10, 0, 0, 0, 0x23, 0x28, 5, 6), take(b, 1))
CASE(gets_9000_extended_short, a = tp(RX, TX, 0), b = peer(), SAYS(b, 0x1F, 0xFF, 1, 2, 3, 4, 5, 6), take(b, 1))

/* FD frames. */
#define LINKED(length, bits)                                                                                       \
    a = isotp(), SETS(a, SOL_CAN_ISOTP, CAN_ISOTP_LL_OPTS, (&(struct can_isotp_ll_options){72, length, bits}), 3), \
    DO(bind(a, TO(ids(RX, TX)))), b = peer()
CASE(fd_single, LINKED(64, 0), DO(write(a, "0123456789", 10)), take(b, 1))
CASE(fd_single_7, LINKED(64, 0), DO(write(a, "0123456", 7)), take(b, 1))
CASE(fd_single_20, LINKED(64, CANFD_BRS), DO(write(a, "0123456789abcdefghij", 20)), take(b, 1))
CASE(fd_first, LINKED(16, CANFD_BRS), DO(write(a, "0123456789abcdefghijklmn", 24)), take(b, 1), SAYS(b, 0x30, 0, 0),
     take(b, 1))
CASE(fd_get, LINKED(64, 0), put_fd(b, FD(RX, 0, 0, 9, 1, 2, 3, 4, 5, 6, 7, 8, 9, 0)), message(a))
CASE(fd_get_classic, LINKED(64, 0), SAYS(b, 1, 2), pass(30), glance(a))
CASE(fd_flow, LINKED(64, CANFD_BRS), put_fd(b, FD(RX, 0, 0x10, 20, 1, 2, 3, 4, 5, 6)), take(b, 1))
CASE(fd_to_classic, a = tp(RX, TX, 0), b = peer(), put_fd(b, FD(RX, 0, 1, 2)), pass(30), glance(a))

/* Messages between two sockets, one at each end of the bus. */
CASE(both_ends_1, two_ends(10, 0))
CASE(both_ends_4095, two_ends(4095, 0))
CASE(both_ends_8000, two_ends(8000, 0))
CASE(both_ends_blocks, two_ends(500, 8))
