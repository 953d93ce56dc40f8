/* CAN_BCM: the broadcast manager. */
#include "probe.h"

/* A case that writes a message of this total length, which the kernel may refuse. */
#define HEADS(name, length, ...) \
    CASE(name, a = bcm("can0"), DO(write(a, (&(struct task){{__VA_ARGS__}, {{.can_id = 0x123, .len = 1}}}), length)))
HEADS(nothing, 0, 0)
HEADS(short_head, 55, .opcode = TX_SETUP)
HEADS(setup_no_frames, 56, .opcode = TX_SETUP, .can_id = 0x123)
HEADS(setup_short, 71, .opcode = TX_SETUP, .can_id = 0x123, .nframes = 1)
HEADS(setup_one, 72, .opcode = TX_SETUP, .can_id = 0x123, .nframes = 1)
HEADS(setup_two_of_one, 72, .opcode = TX_SETUP, .can_id = 0x123, .nframes = 2)
HEADS(setup_one_of_none, 56, .opcode = TX_SETUP, .can_id = 0x123, .nframes = 1)
HEADS(setup_two_of_one_odd_time, 72, .opcode = TX_SETUP, .flags = SETTIMER, .nframes = 2, .ival1 = {-1, 0})
HEADS(rx_setup_two_of_one, 72, .opcode = RX_SETUP, .can_id = 0x123, .nframes = 2)
HEADS(rx_setup_one_of_none, 56, .opcode = RX_SETUP, .can_id = 0x123, .nframes = 1)
HEADS(rx_setup_id_two_of_none, 56, .opcode = RX_SETUP, .flags = RX_FILTER_ID, .can_id = 0x123, .nframes = 2)
HEADS(rtr_one_of_none, 56, .opcode = RX_SETUP, .flags = RX_RTR_FRAME, .can_id = 0x123 | CAN_RTR_FLAG, .nframes = 1)
HEADS(setup_long, 88, .opcode = TX_SETUP, .can_id = 0x123, .nframes = 1)
HEADS(setup_257, 72, .opcode = TX_SETUP, .can_id = 0x123, .nframes = 257)
HEADS(setup_fd_short, 72, .opcode = TX_SETUP, .flags = CAN_FD_FRAME, .can_id = 0x123, .nframes = 1)
HEADS(opcode_0, 56, .opcode = 0)
HEADS(opcode_99, 56, .opcode = 99)
HEADS(opcode_status, 56, .opcode = TX_STATUS)
HEADS(delete_none, 56, .opcode = TX_DELETE, .can_id = 0x123)
HEADS(read_none, 56, .opcode = TX_READ, .can_id = 0x123)
HEADS(send_none, 56, .opcode = TX_SEND)
HEADS(send_one, 72, .opcode = TX_SEND, .nframes = 1)
HEADS(send_two, 88, .opcode = TX_SEND, .nframes = 2)
HEADS(send_0_of_72, 72, .opcode = TX_SEND, .nframes = 0)
HEADS(rx_delete_none, 56, .opcode = RX_DELETE, .can_id = 0x123)
HEADS(rx_read_none, 56, .opcode = RX_READ, .can_id = 0x123)
HEADS(rx_setup_none, 56, .opcode = RX_SETUP, .can_id = 0x123)
HEADS(rx_setup_id, 56, .opcode = RX_SETUP, .flags = RX_FILTER_ID, .can_id = 0x123)
HEADS(rx_setup_id_1, 56, .opcode = RX_SETUP, .flags = RX_FILTER_ID, .can_id = 0x123, .nframes = 1)
HEADS(rx_setup_short, 71, .opcode = RX_SETUP, .can_id = 0x123, .nframes = 1)
HEADS(rx_setup_258, 72, .opcode = RX_SETUP, .can_id = 0x123, .nframes = 258)
HEADS(rtr_none, 56, .opcode = RX_SETUP, .flags = RX_RTR_FRAME, .can_id = 0x123 | CAN_RTR_FLAG)
HEADS(rtr_two, 88, .opcode = RX_SETUP, .flags = RX_RTR_FRAME, .can_id = 0x123 | CAN_RTR_FLAG, .nframes = 2)
HEADS(rtr_without_flag, 72, .opcode = RX_SETUP, .flags = RX_RTR_FRAME, .can_id = 0x123, .nframes = 1)
HEADS(time_negative, 72, .opcode = TX_SETUP, .flags = SETTIMER, .nframes = 1, .ival1 = {-1, 0})
HEADS(time_negative_micros, 72, .opcode = TX_SETUP, .flags = SETTIMER, .nframes = 1, .ival2 = {0, -1})
HEADS(time_million_micros, 72, .opcode = TX_SETUP, .flags = SETTIMER, .nframes = 1, .ival2 = {0, 1000000})
HEADS(time_400_days, 72, .opcode = TX_SETUP, .flags = SETTIMER, .nframes = 1, .ival2 = {400 * 86400, 0})
HEADS(time_401_days, 72, .opcode = TX_SETUP, .flags = SETTIMER, .nframes = 1, .ival2 = {401 * 86400, 0})
HEADS(time_not_set, 72, .opcode = TX_SETUP, .nframes = 1, .ival2 = {-1, 0})
HEADS(rx_time_negative, 56, .opcode = RX_SETUP, .flags = RX_FILTER_ID | SETTIMER, .ival1 = {-1, 0})
HEADS(announce, 72, .opcode = TX_SETUP, .flags = TX_ANNOUNCE, .nframes = 1)
HEADS(odd_flags, 72, .opcode = TX_SETUP, .flags = 0xFFFF0000, .nframes = 1)
CASE(length_9, a = bcm("can0"),
     DO(write(a, (&(struct task){{.opcode = TX_SEND, .nframes = 1}, {{.can_id = 1, .len = 9}}}), 72)))
CASE(length_9_setup, a = bcm("can0"),
     DO(write(a, (&(struct task){{.opcode = TX_SETUP, .nframes = 1}, {{.can_id = 1, .len = 9}}}), 72)))

/* Sockets that are not connected yet, and sockets on all interfaces. */
CASE(unconnected, a = socket(PF_CAN, SOCK_DGRAM, CAN_BCM), TELL(a, ONE(0x123, 1), .opcode = TX_SEND, .nframes = 1))
CASE(unconnected_read, a = socket(PF_CAN, SOCK_DGRAM, CAN_BCM), glance(a))
CASE(connect_twice, a = bcm("can0"), DO(connect(a, TO(at("can0")))))
CASE(connect_short, a = socket(PF_CAN, SOCK_DGRAM, CAN_BCM), DO(connect(a, (struct sockaddr *)at("can0"), 7)),
     DO(connect(a, (struct sockaddr *)at("can0"), 8)))
CASE(connect_none, a = socket(PF_CAN, SOCK_DGRAM, CAN_BCM),
     DO(connect(a, (struct sockaddr *)&(struct sockaddr_can){AF_CAN, .can_ifindex = 12345}, 16)))
CASE(connect_lo, a = socket(PF_CAN, SOCK_DGRAM, CAN_BCM), DO(connect(a, TO(at("lo")))))
CASE(connect_inet, a = socket(PF_CAN, SOCK_DGRAM, CAN_BCM),
     DO(connect(a, (struct sockaddr *)&(struct sockaddr_can){.can_family = AF_INET}, 16)))
CASE(bind_bcm, a = socket(PF_CAN, SOCK_DGRAM, CAN_BCM), DO(bind(a, TO(at("can0")))))
CASE(all_send, a = bcm(NULL), TELL(a, ONE(0x123, 1), .opcode = TX_SEND, .nframes = 1))
CASE(all_setup, a = bcm(NULL), TELL(a, ONE(0x123, 1), .opcode = TX_SETUP, .nframes = 1))
CASE(all_send_to, a = bcm(NULL), b = raw("can1"),
     tell_to(a, at("can0"), &(struct task){{.opcode = TX_SEND, .nframes = 1}, {ONE(0x123, 1)}}), take(b, 1))
CASE(one_send_to_other, a = bcm("can0"), b = raw("vcan0"), c = raw("can1"),
     tell_to(a, at("vcan0"), &(struct task){{.opcode = TX_SEND, .nframes = 1}, {ONE(0x123, 1)}}), take(b, 0),
     take(c, 1))
CASE(all_send_to_none, a = bcm(NULL),
     tell_to(a, &(struct sockaddr_can){AF_CAN, .can_ifindex = 12345},
             &(struct task){{.opcode = TX_SEND, .nframes = 1}, {ONE(0x123, 1)}}))
CASE(all_rx, a = bcm(NULL), b = raw("can0"), c = raw("vcan0"),
     TELL(a, NONE, .opcode = RX_SETUP, .flags = RX_FILTER_ID, .can_id = 0x123), PUT(c, 0x123), change(a))
CASE(all_rx_of_one, a = bcm(NULL), c = raw("vcan0"), b = raw("can1"),
     tell_to(a, at("can0"), &(struct task){.head = {.opcode = RX_SETUP, .flags = RX_FILTER_ID, .can_id = 0x123}}),
     PUT(c, 0x123), PUT(b, 0x123), until(a, POLLIN), from(a, 24))

/* Sent frames. */
CASE(sends, a = bcm("can0"), b = raw("can1"), TELL(a, ONE(0x123, 1, 2, 3), .opcode = TX_SEND, .nframes = 1), take(b, 1))
CASE(sends_fd, a = bcm("can0"), b = raw("can1"), with_fd(b), tell_fd(a, TX_SEND, FD(0x123, CANFD_BRS, 1, 2, 3)),
     take(b, 1))
CASE(sends_remote, a = bcm("can0"), b = raw("can1"),
     TELL(a, ONE(0x123 | CAN_RTR_FLAG), .opcode = TX_SEND, .nframes = 1), take(b, 1))
CASE(neighbour_sees, a = bcm("can0"), b = raw("can0"), TELL(a, ONE(0x123, 1), .opcode = TX_SEND, .nframes = 1),
     take(b, 1))
CASE(counted, a = bcm("can0"), b = raw("can1"),
     TELL(a, ONE(0x7FF, 5), .opcode = TX_SETUP, .flags = SETTIMER | STARTTIMER | TX_COUNTEVT | TX_CP_CAN_ID,
          .can_id = 0x155, .count = 3, .ival1 = {0, 10000}, .nframes = 1),
     change(a), take(b, 3))
CASE(counted_silently, a = bcm("can0"), b = raw("can1"),
     TELL(a, ONE(0x155, 5), .opcode = TX_SETUP, .flags = SETTIMER | STARTTIMER, .can_id = 0x155, .count = 2,
          .ival1 = {0, 10000}, .nframes = 1),
     take(b, 2), events(a, POLLIN))
CASE(count_then_slow, a = bcm("can0"), b = raw("can1"),
     TELL(a, ONE(0x155, 5), .opcode = TX_SETUP, .flags = SETTIMER | STARTTIMER, .can_id = 0x155, .count = 2,
          .ival1 = {0, 10000}, .ival2 = {100, 0}, .nframes = 1),
     take(b, 2))
CASE(sequence, a = bcm("can0"), b = raw("can1"),
     TELL(a, TWO(0x155, 1, 0x156, 2), .opcode = TX_SETUP, .flags = SETTIMER | STARTTIMER, .can_id = 0x155, .count = 5,
          .ival1 = {0, 5000}, .nframes = 2),
     take(b, 5))
CASE(sequence_at_once, a = bcm("can0"), b = raw("can1"),
     TELL(a, TWO(0x155, 1, 0x156, 2), .opcode = TX_SETUP, .flags = SETTIMER | STARTTIMER, .can_id = 0x155, .count = 2,
          .ival2 = {100, 0}, .nframes = 2),
     take(b, 1))
CASE(started_later, a = bcm("can0"), b = raw("can1"),
     TELL(a, ONE(0x155, 1), .opcode = TX_SETUP, .flags = SETTIMER, .can_id = 0x155, .ival2 = {100, 0}, .nframes = 1),
     take(b, 0), TELL(a, ONE(0x155, 2), .opcode = TX_SETUP, .flags = STARTTIMER, .can_id = 0x155, .nframes = 1),
     take(b, 1))
CASE(announced, a = bcm("can0"), b = raw("can1"),
     TELL(a, ONE(0x155, 1), .opcode = TX_SETUP, .flags = SETTIMER | STARTTIMER, .can_id = 0x155, .ival2 = {100, 0},
          .nframes = 1),
     take(b, 1), TELL(a, ONE(0x155, 2), .opcode = TX_SETUP, .flags = TX_ANNOUNCE, .can_id = 0x155, .nframes = 1),
     take(b, 1))
CASE(changed_quietly, a = bcm("can0"), b = raw("can1"),
     TELL(a, ONE(0x155, 1), .opcode = TX_SETUP, .flags = SETTIMER | STARTTIMER, .can_id = 0x155, .ival2 = {100, 0},
          .nframes = 1),
     take(b, 1), TELL(a, ONE(0x155, 2), .opcode = TX_SETUP, .can_id = 0x155, .nframes = 1), take(b, 0))
CASE(setup_more_frames, a = bcm("can0"), TELL(a, ONE(0x155, 1), .opcode = TX_SETUP, .can_id = 0x155, .nframes = 1),
     TELL(a, TWO(0x155, 1, 0x156, 2), .opcode = TX_SETUP, .can_id = 0x155, .nframes = 2))
CASE(setup_more_of_fewer, a = bcm("can0"), TELL(a, ONE(0x155, 1), .opcode = TX_SETUP, .can_id = 0x155, .nframes = 1),
     DO(write(a, (&(struct task){{.opcode = TX_SETUP, .can_id = 0x155, .nframes = 2}, {ONE(0x155, 2)}}), 72)),
     DO(write(a, (&(struct task){{.opcode = TX_SETUP, .can_id = 0x155, .nframes = 1}, {ONE(0x155, 2)}}), 56)))
CASE(setup_fewer_frames, a = bcm("can0"),
     TELL(a, TWO(0x155, 1, 0x156, 2), .opcode = TX_SETUP, .can_id = 0x155, .nframes = 2),
     TELL(a, ONE(0x155, 1), .opcode = TX_SETUP, .can_id = 0x155, .nframes = 1),
     TELL(a, NONE, .opcode = TX_READ, .can_id = 0x155), change(a))
CASE(status, a = bcm("can0"),
     TELL(a, ONE(0x155, 1, 2), .opcode = TX_SETUP, .flags = SETTIMER, .can_id = 0x155, .count = 7, .ival2 = {3, 4},
          .nframes = 1),
     TELL(a, NONE, .opcode = TX_READ, .can_id = 0x155), change(a))
CASE(status_started, a = bcm("can0"),
     TELL(a, ONE(0x155, 1, 2), .opcode = TX_SETUP, .flags = SETTIMER | STARTTIMER, .can_id = 0x155, .count = 7,
          .ival2 = {100, 0}, .nframes = 1),
     pass(30), TELL(a, NONE, .opcode = TX_READ, .can_id = 0x155), change(a))
CASE(status_of_other_kind, a = bcm("can0"), TELL(a, ONE(0x155, 1), .opcode = TX_SETUP, .can_id = 0x155, .nframes = 1),
     TELL(a, NONE, .opcode = TX_READ, .flags = CAN_FD_FRAME, .can_id = 0x155),
     TELL(a, NONE, .opcode = RX_READ, .can_id = 0x155))
CASE(deleted, a = bcm("can0"), TELL(a, ONE(0x155, 1), .opcode = TX_SETUP, .can_id = 0x155, .nframes = 1),
     TELL(a, NONE, .opcode = TX_DELETE, .can_id = 0x155), TELL(a, NONE, .opcode = TX_DELETE, .can_id = 0x155),
     TELL(a, NONE, .opcode = TX_READ, .can_id = 0x155))
CASE(cp_id_of_setup, a = bcm("can0"), b = raw("can1"),
     TELL(a, ONE(0x7F0, 1), .opcode = TX_SETUP, .flags = TX_CP_CAN_ID | SETTIMER | STARTTIMER, .can_id = 0x155,
          .count = 1, .ival1 = {0, 10000}, .nframes = 1),
     take(b, 1))

/* A case that receives frames through a content filter with this mask. */
#define RECEIVES(name, flags_, frames, ...)                                                                           \
    CASE(name, a = bcm("can0"), b = raw("can1"),                                                                      \
         tell(a,                                                                                                      \
              &(struct task){                                                                                         \
                  {.opcode = RX_SETUP, .flags = (flags_), .can_id = 0x123, .nframes = (flags_)&RX_FILTER_ID ? 0 : 1}, \
                  {frames}}),                                                                                         \
         __VA_ARGS__, changes_to_last(a, b))
RECEIVES(by_id, RX_FILTER_ID, NONE, put(b, FRAME(0x123, 1)), put(b, FRAME(0x123, 1)), put(b, FRAME(0x123, 1, 2)))
RECEIVES(by_content, 0, ONE(0x123, 0xFF), put(b, FRAME(0x123, 1)), put(b, FRAME(0x123, 1)), put(b, FRAME(0x123, 2)))
RECEIVES(by_content_masked, 0, ONE(0x123, 0xF0, 0), put(b, FRAME(0x123, 1, 1)), put(b, FRAME(0x123, 2, 2)),
         put(b, FRAME(0x123, 0x10, 3)))
RECEIVES(by_content_all_8, 0, ONE(0x123, 255, 255, 255, 255, 255, 255, 255, 255),
         put(b, FRAME(0x123, 1, 2, 3, 4, 5, 6, 7, 8)), put(b, FRAME(0x123, 1, 2)), put(b, FRAME(0x123, 1, 2, 0)))
RECEIVES(by_content_longer, 0, ONE(0x123, 255, 255), put(b, FRAME(0x123, 1, 2)), put(b, FRAME(0x123, 1, 2, 3)))
RECEIVES(by_empty_mask, 0, ONE(0x123), put(b, FRAME(0x123, 1)), put(b, FRAME(0x123, 2)))
RECEIVES(check_dlc, RX_CHECK_DLC, ONE(0x123, 0xFF), put(b, FRAME(0x123, 1)), put(b, FRAME(0x123, 1, 2)),
         put(b, FRAME(0x123, 1, 3)))
RECEIVES(no_autotimer, RX_NO_AUTOTIMER, ONE(0x123, 0xFF), put(b, FRAME(0x123, 1)), put(b, FRAME(0x123, 1)))
RECEIVES(other_ids, RX_FILTER_ID, NONE, put(b, FRAME(0x124, 1)), put(b, FRAME(0x123 | CAN_EFF_FLAG, 1)),
         put(b, FRAME(0x123, 3)))
RECEIVES(remote_of_id, RX_FILTER_ID, NONE, put(b, EMPTY(0x123 | CAN_RTR_FLAG)), put(b, FRAME(0x123, 3)))
CASE(by_id_of_8_dlc, a = bcm("can0"), b = raw("can1"),
     TELL(a, NONE, .opcode = RX_SETUP, .flags = RX_FILTER_ID, .can_id = 0x123), with_fd(b), put_fd(b, FD(0x123, 0, 1)),
     PUT(b, 0x123), changes_to_last(a, b))
CASE(fd_frames, a = bcm("can0"), b = raw("can1"), with_fd(b),
     TELL(a, NONE, .opcode = RX_SETUP, .flags = RX_FILTER_ID | CAN_FD_FRAME, .can_id = 0x123),
     put_fd(b, FD(0x123, 0, 1, 2)), PUT(b, 0x123), until(a, POLLIN), glance(a), glance(a))
CASE(rx_extended, a = bcm("can0"), b = raw("can1"),
     TELL(a, NONE, .opcode = RX_SETUP, .flags = RX_FILTER_ID, .can_id = 0x123 | CAN_EFF_FLAG), PUT(b, 0x123),
     PUT(b, 0x123 | CAN_EFF_FLAG), change(a))
CASE(rx_own_interface, a = bcm("can0"), b = raw("can0"),
     TELL(a, NONE, .opcode = RX_SETUP, .flags = RX_FILTER_ID, .can_id = 0x123), PUT(b, 0x123), change(a))
CASE(rx_own_socket, a = bcm("can0"), TELL(a, NONE, .opcode = RX_SETUP, .flags = RX_FILTER_ID, .can_id = 0x123),
     TELL(a, ONE(0x123, 1), .opcode = TX_SEND, .nframes = 1), change(a))
CASE(rx_twice, a = bcm("can0"), b = raw("can1"),
     TELL(a, NONE, .opcode = RX_SETUP, .flags = RX_FILTER_ID, .can_id = 0x123),
     TELL(a, NONE, .opcode = RX_SETUP, .flags = RX_FILTER_ID, .can_id = 0x123), PUT(b, 0x123), change(a))
CASE(rx_deleted, a = bcm("can0"), b = raw("can1"),
     TELL(a, NONE, .opcode = RX_SETUP, .flags = RX_FILTER_ID, .can_id = 0x123),
     TELL(a, NONE, .opcode = RX_DELETE, .can_id = 0x123), PUT(b, 0x123), pass(30), events(a, POLLIN))
CASE(rx_status, a = bcm("can0"),
     TELL(a, ONE(0x123, 0xFF), .opcode = RX_SETUP, .flags = SETTIMER, .can_id = 0x123, .count = 5, .ival1 = {10, 0},
          .nframes = 1),
     TELL(a, NONE, .opcode = RX_READ, .can_id = 0x123), change(a))
CASE(rx_timeout, a = bcm("can0"),
     TELL(a, NONE, .opcode = RX_SETUP, .flags = RX_FILTER_ID | SETTIMER | STARTTIMER, .can_id = 0x123,
          .ival1 = {0, 30000}),
     change(a))
CASE(rx_timeout_after_frame, a = bcm("can0"), b = raw("can1"),
     TELL(a, NONE, .opcode = RX_SETUP, .flags = RX_FILTER_ID | SETTIMER, .can_id = 0x123, .ival1 = {0, 200000}),
     pass(300), events(a, POLLIN), PUT(b, 0x123), change(a), change(a))
CASE(rx_announce_resume, a = bcm("can0"), b = raw("can1"),
     TELL(a, ONE(0x123, 0xFF), .opcode = RX_SETUP, .flags = SETTIMER | RX_ANNOUNCE_RESUME, .can_id = 0x123,
          .ival1 = {0, 200000}, .nframes = 1),
     PUT(b, 0x123), change(a), change(a), PUT(b, 0x123), change(a))
CASE(rx_without_resume, a = bcm("can0"), b = raw("can1"),
     TELL(a, ONE(0x123, 0xFF), .opcode = RX_SETUP, .flags = SETTIMER, .can_id = 0x123, .ival1 = {0, 200000},
          .nframes = 1),
     PUT(b, 0x123), change(a), change(a), PUT(b, 0x123), pass(50), events(a, POLLIN))
CASE(rx_throttled, a = bcm("can0"), b = raw("can1"),
     TELL(a, NONE, .opcode = RX_SETUP, .flags = RX_FILTER_ID | SETTIMER, .can_id = 0x123, .ival2 = {0, 300000}),
     put(b, FRAME(0x123, 1)), put(b, FRAME(0x123, 2)), put(b, FRAME(0x123, 3)), change(a), change(a))
#define MULTIPLEXED ONE(0x123, 0xFF), ONE(0x123, 1, 0xFF), ONE(0x123, 2, 0xFF)
CASE(rx_multiplexed, a = bcm("can0"), b = raw("can1"),
     TELL(a, MULTIPLEXED, .opcode = RX_SETUP, .can_id = 0x123, .nframes = 3), put(b, FRAME(0x123, 1, 1)),
     put(b, FRAME(0x123, 2, 1)), put(b, FRAME(0x123, 1, 1)), put(b, FRAME(0x123, 2, 2)), put(b, FRAME(0x123, 3, 3)),
     changes_to_last(a, b))
CASE(rx_short_read, a = bcm("can0"), b = raw("can1"),
     TELL(a, NONE, .opcode = RX_SETUP, .flags = RX_FILTER_ID, .can_id = 0x123), PUT(b, 0x123), until(a, POLLIN),
     DO(recv(a, (char[72]){0}, 10, 0)), glance(a))
CASE(rx_short_read_trunc, a = bcm("can0"), b = raw("can1"),
     TELL(a, NONE, .opcode = RX_SETUP, .flags = RX_FILTER_ID, .can_id = 0x123), PUT(b, 0x123), until(a, POLLIN),
     DO(recv(a, (char[72]){0}, 10, MSG_TRUNC)), glance(a))

/* Replies to remote frames. */
#define REPLY .opcode = RX_SETUP, .flags = RX_RTR_FRAME, .can_id = 0x123 | CAN_RTR_FLAG, .nframes = 1
CASE(replies, a = bcm("can0"), b = raw("can1"), TELL(a, ONE(0x123, 4, 2), REPLY), put(b, EMPTY(0x123 | CAN_RTR_FLAG)),
     take(b, 1))
CASE(replies_each, a = bcm("can0"), b = raw("can1"), TELL(a, ONE(0x123, 4, 2), REPLY),
     put(b, EMPTY(0x123 | CAN_RTR_FLAG)), put(b, EMPTY(0x123 | CAN_RTR_FLAG)), put(b, EMPTY(0x123 | CAN_RTR_FLAG)),
     take(b, 3), events(a, POLLIN))
CASE(replies_other_id, a = bcm("can0"), b = raw("can1"), TELL(a, ONE(0x456, 4, 2), REPLY),
     put(b, EMPTY(0x123 | CAN_RTR_FLAG)), take(b, 1))
CASE(replies_remote, a = bcm("can0"), b = raw("can1"), TELL(a, ONE(0x123 | CAN_RTR_FLAG), REPLY))
CASE(replies_not_to_data, a = bcm("can0"), b = raw("can1"), TELL(a, ONE(0x123, 4, 2), REPLY), PUT(b, 0x123), take(b, 0),
     events(a, POLLIN))
CASE(replies_changed, a = bcm("can0"), b = raw("can1"), TELL(a, ONE(0x123, 1), REPLY), TELL(a, ONE(0x123, 2), REPLY),
     put(b, EMPTY(0x123 | CAN_RTR_FLAG)), take(b, 1))
CASE(replies_read_back, a = bcm("can0"), TELL(a, ONE(0x123, 1), REPLY),
     TELL(a, NONE, .opcode = RX_READ, .can_id = 0x123 | CAN_RTR_FLAG), change(a))
