/* Writes and reads on CAN_RAW sockets. */
#include "probe.h"

/* A frame of 3 bytes in a larger buffer, and a -1 that is hidden from the compiler. */
static const union {
    struct canfd_frame frame;
    char room[100];
} wide = {{.can_id = 0x123, .len = 3, .data = {1, 2, 3}}};
static volatile int minus_1 = -1;

/* A case that writes `length` bytes to a socket without FD frames, and then with FD frames. */
#define WRITES(name, length)                                                                          \
    CASE(name, a = raw("can0"), b = raw("can1"), with_fd(b), DO(write(a, &wide, length)), with_fd(a), \
         DO(write(a, &wide, length)), take(b, (length) == 16 || (length) == 72 ? 1 : 0))
WRITES(write_0, 0)
WRITES(write_8, 8)
WRITES(write_15, 15)
WRITES(write_16, 16)
WRITES(write_17, 17)
WRITES(write_71, 71)
WRITES(write_72, 72)
WRITES(write_73, 73)

/* A case that writes a frame with these contents. */
#define CARRIES(name, ...) \
    CASE(name, a = raw("can0"), b = raw("can1"), DO(write(a, &(struct can_frame){__VA_ARGS__}, 16)), look(b))
CARRIES(frame_plain, .can_id = 0x123, .len = 2, .data = {1, 2})
CARRIES(frame_empty, .can_id = 0x123)
CARRIES(frame_extended, .can_id = 0x123 | CAN_EFF_FLAG, .len = 1)
CARRIES(frame_extended_long, .can_id = CAN_EFF_MASK | CAN_EFF_FLAG, .len = 1)
CARRIES(frame_remote, .can_id = 0x123 | CAN_RTR_FLAG)
CARRIES(frame_remote_5, .can_id = 0x123 | CAN_RTR_FLAG, .len = 5)
CARRIES(frame_remote_data, .can_id = 0x123 | CAN_RTR_FLAG, .len = 2, .data = {1, 2})
CARRIES(frame_id_800, .can_id = 0x800, .len = 1)
CARRIES(frame_id_long_without_flag, .can_id = 0x12345678, .len = 1)
CARRIES(frame_length_9, .can_id = 0x123, .len = 9)
CARRIES(frame_length_255, .can_id = 0x123, .len = 255)
CARRIES(frame_dlc_9, .can_id = 0x123, .len = 8, .len8_dlc = 9)
CARRIES(frame_dlc_15, .can_id = 0x123, .len = 8, .len8_dlc = 15)
CARRIES(frame_dlc_16, .can_id = 0x123, .len = 8, .len8_dlc = 16)
CARRIES(frame_dlc_of_7, .can_id = 0x123, .len = 7, .len8_dlc = 9)
CARRIES(frame_past_length, .can_id = 0x123, .len = 1, .data = {1, 2, 3})
CARRIES(frame_padding, .can_id = 0x123, .len = 1, .__pad = 7, .__res0 = 9)

#define CARRIES_FD(name, ...)                                            \
    CASE(name, a = raw("can0"), b = raw("can1"), with_fd(a), with_fd(b), \
         DO(write(a, &(struct canfd_frame){__VA_ARGS__}, 72)), look(b))
CARRIES_FD(fd_0, .can_id = 0x123)
CARRIES_FD(fd_8, .can_id = 0x123, .len = 8)
CARRIES_FD(fd_9, .can_id = 0x123, .len = 9)
CARRIES_FD(fd_12, .can_id = 0x123, .len = 12)
CARRIES_FD(fd_63, .can_id = 0x123, .len = 63)
CARRIES_FD(fd_64, .can_id = 0x123, .len = 64)
CARRIES_FD(fd_65, .can_id = 0x123, .len = 65)
CARRIES_FD(fd_brs, .can_id = 0x123, .len = 1, .flags = CANFD_BRS)
CARRIES_FD(fd_esi, .can_id = 0x123, .len = 1, .flags = CANFD_ESI)
CARRIES_FD(fd_fdf, .can_id = 0x123, .len = 1, .flags = CANFD_FDF)
CARRIES_FD(fd_high_flags, .can_id = 0x123, .len = 1, .flags = 0xF8)
CARRIES_FD(fd_remote, .can_id = 0x123 | CAN_RTR_FLAG, .len = 1)
CARRIES_FD(fd_extended, .can_id = 0x123 | CAN_EFF_FLAG, .len = 1)
CARRIES_FD(fd_id_800, .can_id = 0x800, .len = 1)
CARRIES_FD(fd_past_length, .can_id = 0x123, .len = 1, .data = {1, 2, 3})
CARRIES_FD(fd_reserved, .can_id = 0x123, .len = 1, .__res0 = 1, .__res1 = 2)
CASE(fd_not_wanted, a = raw("can0"), b = raw("can1"), with_fd(a), put_fd(a, FD(0x123, 0, 1)), PUT(a, 0x124), take(b, 1))
CASE(fd_wanted_later, a = raw("can0"), b = raw("can1"), with_fd(a), put_fd(a, FD(0x123, 0, 1)), pass(30), with_fd(b),
     take(b, 0))
CASE(fd_off_again, a = raw("can0"), b = raw("can1"), with_fd(a), with_fd(b),
     DO(set(a, SOL_CAN_RAW, CAN_RAW_FD_FRAMES, 0)), DO(write(a, FD(0x123, 0, 1), 72)), take(b, 0))
CASE(fd_loopback, a = raw("can0"), b = raw("can0"), with_fd(a), with_fd(b), put_fd(a, FD(0x123, 1, 1)), take(b, 1))

/* Flags of send. */
#define SENDS(name, flags) \
    CASE(name, a = raw("can0"), b = raw("can1"), DO(send(a, FRAME(0x123, 1), 16, flags)), take(b, 1))
SENDS(send_dontwait, MSG_DONTWAIT)
SENDS(send_nosignal, MSG_NOSIGNAL)
SENDS(send_confirm, MSG_CONFIRM)
SENDS(send_more, MSG_MORE)
SENDS(send_eor, MSG_EOR)
SENDS(send_dontroute, MSG_DONTROUTE)
CASE(send_oob, a = raw("can0"), DO(send(a, FRAME(0x123, 1), 16, MSG_OOB)))
CASE(send_errqueue, a = raw("can0"), DO(send(a, FRAME(0x123, 1), 16, MSG_ERRQUEUE)))

/* A case that calls sendto with this address on a socket that is bound to can0. */
#define SENDS_TO(name, address, length)                                                                    \
    CASE(name, a = raw("can0"), b = raw("can1"), c = raw("can0"),                                          \
         DO(sendto(a, FRAME(0x123, 1), 16, 0, (const struct sockaddr *)(address), length)), PUT(c, 0x7F0), \
         take_to(b, 0x7F0))
SENDS_TO(to_can0, at("can0"), 16)
SENDS_TO(to_8_bytes, at("can0"), 8)
SENDS_TO(to_7_bytes, at("can0"), 7)
SENDS_TO(to_0_bytes, at("can0"), 0)
SENDS_TO(to_null_of_16, NULL, 16)
SENDS_TO(to_128_bytes, ADDRESS(AF_CAN, .can_ifindex = (int)if_nametoindex("can0")), 128)
SENDS_TO(to_129_bytes, ADDRESS(AF_CAN, .can_ifindex = (int)if_nametoindex("can0")), 129)
SENDS_TO(to_minus_1_bytes, at("can0"), -1)
SENDS_TO(to_all, at(NULL), 16)
SENDS_TO(to_inet, ADDRESS(AF_INET, .can_ifindex = (int)if_nametoindex("can0")), 16)
SENDS_TO(to_unspec, ADDRESS(AF_UNSPEC, .can_ifindex = (int)if_nametoindex("can0")), 16)
SENDS_TO(to_12345, ADDRESS(AF_CAN, .can_ifindex = 12345), 16)
SENDS_TO(to_minus_1, ADDRESS(AF_CAN, .can_ifindex = -1), 16)
SENDS_TO(to_lo, at("lo"), 16)
CASE(to_other, a = raw("can0"), b = raw("vcan0"), DO(sendto(a, FRAME(0x123, 1), 16, 0, TO(at("vcan0")))), take(b, 1),
     take(a, 0))
CASE(unbound_write, a = socket(PF_CAN, SOCK_RAW, CAN_RAW), DO(write(a, FRAME(0x123, 1), 16)))
CASE(unbound_to, a = socket(PF_CAN, SOCK_RAW, CAN_RAW), b = raw("can1"),
     DO(sendto(a, FRAME(0x123, 1), 16, 0, TO(at("can0")))), take(b, 1))
CASE(unbound_read, a = socket(PF_CAN, SOCK_RAW, CAN_RAW), glance(a))
CASE(all_write, a = raw(NULL), DO(write(a, FRAME(0x123, 1), 16)))
CASE(all_to, a = raw(NULL), b = raw("can1"), DO(sendto(a, FRAME(0x123, 1), 16, 0, TO(at("can0")))), take(b, 1))

/* Frames that are written in pieces. */
CASE(pieces, a = raw("can0"), b = raw("can1"), pieces_of(a, 16), take(b, 1))
CASE(pieces_1024, a = raw("can0"), b = raw("can1"), pieces_of(a, 1024), take(b, 1))
CASE(pieces_1025, a = raw("can0"), pieces_of(a, 1025))
CASE(pieces_0, a = raw("can0"), DO(writev(a, NULL, 0)))
CASE(pieces_minus_1, a = raw("can0"), DO(writev(a, NULL, minus_1)))
CASE(several, a = raw("can0"), b = raw("can1"), several_of(a, 3), take(b, 3))
CASE(several_0, a = raw("can0"), several_of(a, 0))

/* Results of reads. */
#define RECEIVES(name, length, flags)                                                                 \
    CASE(name, a = raw("can1"), b = raw("can0"), put(b, FRAME(0x123, 1, 2)), put(b, FRAME(0x124, 3)), \
         until(a, POLLIN), DO(recv(a, (char[100]){0}, length, flags)), take_to(a, 0x124))
RECEIVES(recv_16, 16, 0)
RECEIVES(recv_100, 100, 0)
RECEIVES(recv_8, 8, 0)
RECEIVES(recv_0, 0, 0)
RECEIVES(recv_peek, 16, MSG_PEEK)
RECEIVES(recv_peek_8, 8, MSG_PEEK)
RECEIVES(recv_trunc_8, 8, MSG_TRUNC)
RECEIVES(recv_trunc_100, 100, MSG_TRUNC)
RECEIVES(recv_waitall, 16, MSG_WAITALL)
RECEIVES(recv_waitall_100, 100, MSG_WAITALL)
RECEIVES(recv_errqueue, 16, MSG_ERRQUEUE)
RECEIVES(recv_oob, 16, MSG_OOB)
RECEIVES(recv_cmsg_cloexec, 16, MSG_CMSG_CLOEXEC)
RECEIVES(recv_nosignal, 16, MSG_NOSIGNAL)
RECEIVES(recv_dontroute, 16, MSG_DONTROUTE)
CASE(recv_nothing, a = raw("can0"), glance(a))
CASE(recv_nothing_0, a = raw("can0"), DO(recv(a, NULL, 0, MSG_DONTWAIT)))
CASE(recv_nothing_peek, a = raw("can0"), DO(recv(a, (char[16]){0}, 16, MSG_DONTWAIT | MSG_PEEK)))
CASE(readv_pieces, a = raw("can1"), b = raw("can0"), put(b, FRAME(0x123, 1, 2)), until(a, POLLIN),
     DO(readv(a, ((struct iovec[2]){{(char[5]){0}, 5}, {(char[20]){0}, 20}}), 2)))
CASE(readv_0, a = raw("can1"), b = raw("can0"), PUT(b, 0x123), until(a, POLLIN), DO(readv(a, NULL, 0)), glance(a))
CASE(recvmmsg_2, a = raw("can1"), b = raw("can0"), PUT(b, 0x123), PUT(b, 0x124), several_from(a, 2, 0), glance(a))
CASE(recvmmsg_wait_for_one, a = raw("can1"), b = raw("can0"), PUT(b, 0x123), until(a, POLLIN),
     several_from(a, 3, MSG_WAITFORONE))
CASE(recvmmsg_nothing, a = raw("can1"), several_from(a, 2, MSG_DONTWAIT))

#define FROM(name, length) \
    CASE(name, a = raw("can1"), b = raw("can0"), PUT(b, 0x123), until(a, POLLIN), from(a, length))
FROM(from_0, 0)
FROM(from_4, 4)
FROM(from_8, 8)
FROM(from_16, 16)
FROM(from_24, 24)
FROM(from_100, 100)
FROM(from_minus_1, -1)
CASE(from_all, a = raw(NULL), b = raw("vcan0"), PUT(b, 0x123), until(a, POLLIN), from(a, 24))
CASE(from_own, a = raw("can0"), set(a, SOL_CAN_RAW, CAN_RAW_RECV_OWN_MSGS, 1), PUT(a, 0x123), until(a, POLLIN),
     from(a, 24))

/* Cases that show which sockets receive a sent frame. */
CASE(other_end, a = raw("can0"), b = raw("can1"), PUT(a, 0x123), take(b, 1))
CASE(neighbour, a = raw("can0"), b = raw("can0"), PUT(a, 0x123), take(b, 1), take(a, 0))
CASE(own, a = raw("can0"), DO(set(a, SOL_CAN_RAW, CAN_RAW_RECV_OWN_MSGS, 1)), PUT(a, 0x123), take(a, 1))
CASE(own_off_again, a = raw("can0"), set(a, SOL_CAN_RAW, CAN_RAW_RECV_OWN_MSGS, 1),
     set(a, SOL_CAN_RAW, CAN_RAW_RECV_OWN_MSGS, 0), PUT(a, 0x123), take(a, 0))
CASE(no_loopback, a = raw("can0"), b = raw("can0"), c = raw("can1"), set(a, SOL_CAN_RAW, CAN_RAW_LOOPBACK, 0),
     PUT(a, 0x123), take(c, 1), take(b, 0))
CASE(no_loopback_own, a = raw("can0"), set(a, SOL_CAN_RAW, CAN_RAW_LOOPBACK, 0),
     set(a, SOL_CAN_RAW, CAN_RAW_RECV_OWN_MSGS, 1), PUT(a, 0x123), take(a, 0))
CASE(no_loopback_vcan, a = raw("vcan0"), b = raw("vcan0"), set(a, SOL_CAN_RAW, CAN_RAW_LOOPBACK, 0), PUT(a, 0x123),
     take(b, 0))
CASE(vcan_neighbour, a = raw("vcan0"), b = raw("vcan0"), PUT(a, 0x123), take(b, 1), take(a, 0))
CASE(all_receives, a = raw(NULL), b = raw("can0"), c = raw("vcan0"), PUT(b, 0x123), take(a, 2), PUT(c, 0x124),
     take(a, 1))
CASE(all_own, a = raw(NULL), set(a, SOL_CAN_RAW, CAN_RAW_RECV_OWN_MSGS, 1),
     DO(sendto(a, FRAME(0x123, 1), 16, 0, TO(at("can0")))), take(a, 2))
CASE(to_other_own, a = raw("can0"), b = raw("vcan0"), set(a, SOL_CAN_RAW, CAN_RAW_RECV_OWN_MSGS, 1),
     DO(sendto(a, FRAME(0x123, 1), 16, 0, TO(at("vcan0")))), take(b, 1), take(a, 0))
CASE(order, a = raw("can0"), b = raw("can1"), PUT(a, 0x300), PUT(a, 0x100), PUT(a, 0x200), take(b, 3))
CASE(before_bind, a = raw("can0"), b = socket(PF_CAN, SOCK_RAW, CAN_RAW), PUT(a, 0x123), pass(30),
     bind(b, TO(at("can1"))), take(b, 0))
