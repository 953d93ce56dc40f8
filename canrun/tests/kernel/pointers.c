/* Pointers to memory that is not accessible. */
#include "probe.h"

#define NOWHERE(name, ...) CASE(name, a = raw("can0"), DO(__VA_ARGS__))
NOWHERE(write, write(a, nowhere, 16))
NOWHERE(write_null, write(a, null, 16))
NOWHERE(write_half, write(a, halfway(8), 16))
NOWHERE(writev_list, writev(a, (struct iovec *)nowhere, 1))
NOWHERE(writev_part, writev(a, (struct iovec[2]){{(char[8]){0}, 8}, {nowhere, 8}}, 2))
NOWHERE(send, send(a, nowhere, 16, 0))
NOWHERE(sendto_frame, sendto(a, nowhere, 16, 0, TO(at("can0"))))
NOWHERE(sendto_address, sendto(a, FRAME(0x123, 1), 16, 0, (struct sockaddr *)nowhere, 16))
NOWHERE(sendmsg, sendmsg(a, (struct msghdr *)nowhere, 0))
NOWHERE(sendmsg_list, sendmsg(a, &(struct msghdr){.msg_iov = (struct iovec *)nowhere, .msg_iovlen = 1}, 0))
NOWHERE(sendmsg_control, sendmsg(a,
                                 &(struct msghdr){.msg_iov = &(struct iovec){FRAME(0x123, 1), 16},
                                                  .msg_iovlen = 1,
                                                  .msg_control = nowhere,
                                                  .msg_controllen = 16},
                                 0))
NOWHERE(sendmsg_address, sendmsg(a,
                                 &(struct msghdr){.msg_iov = &(struct iovec){FRAME(0x123, 1), 16},
                                                  .msg_iovlen = 1,
                                                  .msg_name = nowhere,
                                                  .msg_namelen = 16},
                                 0))
NOWHERE(sendmmsg, sendmmsg(a, (struct mmsghdr *)nowhere, 1, 0))
NOWHERE(bind, bind(a, (struct sockaddr *)nowhere, 16))
NOWHERE(bind_null, bind(a, (struct sockaddr *)null, 16))
NOWHERE(connect, connect(a, (struct sockaddr *)nowhere, 16))
NOWHERE(filters, setsockopt(a, SOL_CAN_RAW, CAN_RAW_FILTER, nowhere, 8))
NOWHERE(filters_null, setsockopt(a, SOL_CAN_RAW, CAN_RAW_FILTER, null, 8))
NOWHERE(filters_two, setsockopt(a, SOL_CAN_RAW, CAN_RAW_FILTER, nowhere, 16))
NOWHERE(option, setsockopt(a, SOL_CAN_RAW, CAN_RAW_LOOPBACK, nowhere, 4))
NOWHERE(error_mask, setsockopt(a, SOL_CAN_RAW, CAN_RAW_ERR_FILTER, nowhere, 4))
NOWHERE(socket_option, setsockopt(a, SOL_SOCKET, SO_RCVBUF, nowhere, 4))
NOWHERE(option_back, getsockopt(a, SOL_CAN_RAW, CAN_RAW_LOOPBACK, nowhere, &(socklen_t){4}))
NOWHERE(option_back_length, getsockopt(a, SOL_CAN_RAW, CAN_RAW_LOOPBACK, &(int){0}, (socklen_t *)nowhere))
NOWHERE(filters_back, getsockopt(a, SOL_CAN_RAW, CAN_RAW_FILTER, nowhere, &(socklen_t){8}))
NOWHERE(socket_option_back, getsockopt(a, SOL_SOCKET, SO_TYPE, nowhere, &(socklen_t){4}))
NOWHERE(name, getsockname(a, (struct sockaddr *)nowhere, &(socklen_t){16}))
NOWHERE(name_length, getsockname(a, (struct sockaddr *)at("can0"), (socklen_t *)nowhere))
NOWHERE(index_ioctl, ioctl(a, SIOCGIFINDEX, nowhere))
NOWHERE(stamp_ioctl, ioctl(a, SIOCGSTAMP, nowhere))
NOWHERE(mtu_ioctl, ioctl(a, SIOCGIFMTU, null))
NOWHERE(epoll_event, epoll_ctl(epoll_create1(0), EPOLL_CTL_ADD, a, (struct epoll_event *)nowhere))
NOWHERE(poll_list, poll((struct pollfd *)nowhere, 1, 0))
NOWHERE(accept_address, accept(a, (struct sockaddr *)nowhere, (socklen_t *)nowhere))

/* A case in which two frames are sent. The read of the first frame can't copy its data. A later read shows which frame
   is next. */
#define INTO(name, ...)                                                                                           \
    CASE(name, a = raw("can1"), b = raw("can0"), PUT(b, 0x123), PUT(b, 0x124), until(a, POLLIN), DO(__VA_ARGS__), \
         take_to(a, 0x124))
INTO(read, read(a, nowhere, 16))
INTO(read_null, read(a, null, 16))
INTO(read_half, read(a, halfway(8), 16))
INTO(recv, recv(a, nowhere, 16, 0))
INTO(recv_peek, recv(a, nowhere, 16, MSG_PEEK))
INTO(readv_list, readv(a, (struct iovec *)nowhere, 1))
INTO(readv_part, readv(a, (struct iovec[2]){{(char[8]){0}, 8}, {nowhere, 8}}, 2))
INTO(recvfrom_address, recvfrom(a, (char[16]){0}, 16, 0, (struct sockaddr *)nowhere, &(socklen_t){16}))
INTO(recvfrom_length, recvfrom(a, (char[16]){0}, 16, 0, (struct sockaddr *)at("can0"), (socklen_t *)nowhere))
INTO(recvfrom_no_length, recvfrom(a, (char[16]){0}, 16, 0, (struct sockaddr *)at("can0"), NULL))
INTO(recvmsg, recvmsg(a, (struct msghdr *)nowhere, 0))
INTO(recvmsg_list, recvmsg(a, &(struct msghdr){.msg_iov = (struct iovec *)nowhere, .msg_iovlen = 1}, 0))
INTO(recvmmsg, recvmmsg(a, (struct mmsghdr *)nowhere, 1, 0, NULL))

CASE(isotp_write, a = tp(RX, TX, 0), DO(write(a, nowhere, 5)))
CASE(isotp_write_long, a = tp(RX, TX, 0), b = peer(), DO(write(a, nowhere, 50)), take(b, 0), events(a, POLLOUT))
CASE(isotp_write_again, a = tp(RX, TX, 0), b = peer(), DO(write(a, nowhere, 5)), DO(write(a, "x", 1)), take(b, 1))
CASE(isotp_options, a = isotp(),
     DO(setsockopt(a, SOL_CAN_ISOTP, CAN_ISOTP_OPTS, nowhere, sizeof(struct can_isotp_options))))
CASE(isotp_flow_control, a = isotp(), DO(setsockopt(a, SOL_CAN_ISOTP, CAN_ISOTP_RECV_FC, nowhere, 3)))
CASE(isotp_bind, a = isotp(), DO(bind(a, (struct sockaddr *)nowhere, 16)))
CASE(isotp_read, a = tp(RX, TX, 0), b = peer(), SAYS(b, 1, 2), until(a, POLLIN), DO(read(a, nowhere, 9)), glance(a))
CASE(bcm_connect, a = socket(PF_CAN, SOCK_DGRAM, CAN_BCM), DO(connect(a, (struct sockaddr *)nowhere, 16)))
CASE(bcm_write, a = bcm("can0"), DO(write(a, nowhere, 56)), DO(write(a, nowhere, 72)))
CASE(bcm_read, a = bcm("can0"), b = raw("can1"),
     TELL(a, NONE, .opcode = RX_SETUP, .flags = RX_FILTER_ID, .can_id = 0x123), PUT(b, 0x123), until(a, POLLIN),
     DO(read(a, nowhere, 72)), glance(a))
