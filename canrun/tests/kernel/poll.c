/* poll, select, epoll and signals. */
#include "probe.h"

#define EVERY (POLLIN | POLLOUT | POLLPRI)
CASE(unbound, a = socket(PF_CAN, SOCK_RAW, CAN_RAW), events(a, EVERY))
CASE(bound, a = raw("can0"), events(a, EVERY))
CASE(of_all, a = raw(NULL), events(a, EVERY))
CASE(with_frame, a = raw("can1"), b = raw("can0"), PUT(b, 0x123), until(a, POLLIN), events(a, EVERY), take(a, 1),
     events(a, EVERY))
CASE(bcm_fresh, a = socket(PF_CAN, SOCK_DGRAM, CAN_BCM), events(a, EVERY))
CASE(bcm_connected, a = bcm("can0"), events(a, EVERY))
CASE(isotp_unbound, a = isotp(), events(a, EVERY))
CASE(isotp_bound, a = tp(RX, TX, 0), events(a, EVERY))
CASE(isotp_sending, a = tp(RX, TX, 0), b = peer(), DO(write(a, "0123456789", 10)), take(b, 1), events(a, EVERY),
     SAYS(b, 0x30, 0, 0), take(b, 1), until(a, POLLOUT))
CASE(isotp_message, a = tp(RX, TX, 0), b = peer(), SAYS(b, 1, 2), until(a, POLLIN), events(a, EVERY), glance(a),
     events(a, EVERY))
CASE(isotp_receiving, a = tp(RX, TX, 0), b = peer(), SAYS(b, 0x10, 20, 1, 2, 3, 4, 5, 6), take(b, 1), events(a, EVERY))
CASE(isotp_failed, a = tp(RX, TX, 0), b = peer(), DO(write(a, "0123456789", 10)), take(b, 1), SAYS(b, 0x32, 0, 0),
     until(a, POLLOUT), events(a, EVERY), error_of(a), events(a, EVERY))
CASE(isotp_receive_failed, a = tp(RX, TX, 0), b = peer(), SAYS(b, 0x10, 20, 1, 2, 3, 4, 5, 6), take(b, 1),
     SAYS(b, 0x22, 1, 2, 3, 4, 5, 6, 7), until(a, POLLIN), events(a, EVERY), DO(read(a, (char[9]){0}, 9)),
     events(a, EVERY))
CASE(closed, a = raw("can0"), close(a), events(a, EVERY))
CASE(no_events, a = raw("can1"), b = raw("can0"), PUT(b, 0x123), until(a, POLLIN), events(a, 0))
CASE(odd_events, a = raw("can1"), b = raw("can0"), PUT(b, 0x123), until(a, POLLIN), events(a, POLLRDNORM | POLLWRNORM))

CASE(select_writable, a = raw("can0"), selected(a))
CASE(select_both, a = raw("can1"), b = raw("can0"), PUT(b, 0x123), until(a, POLLIN), selected(a))
CASE(select_isotp_failed, a = tp(RX, TX, 0), b = peer(), DO(write(a, "0123456789", 10)), take(b, 1),
     SAYS(b, 0x32, 0, 0), until(a, POLLOUT), selected(a))
CASE(epoll_level, a = raw("can1"), b = raw("can0"), watch(a, EPOLLIN), watched(false), PUT(b, 0x123), PUT(b, 0x124),
     watched(true), glance(a), until(a, POLLIN), watched(true), glance(a), watched(false))
CASE(epoll_edge, a = raw("can1"), b = raw("can0"), watch(a, EPOLLIN | EPOLLET), watched(false), PUT(b, 0x123),
     watched(true), watched(false), PUT(b, 0x124), watched(true), take(a, 2), watched(false))
CASE(epoll_once, a = raw("can1"), b = raw("can0"), watch(a, EPOLLIN | EPOLLONESHOT), PUT(b, 0x123), watched(true),
     PUT(b, 0x124), watched(false))
CASE(epoll_out, a = raw("can0"), watch(a, EPOLLOUT), watched(true))
CASE(epoll_twice, a = raw("can0"), watch(a, EPOLLIN), watch(a, EPOLLIN))
CASE(epoll_of_closed, a = raw("can1"), b = raw("can0"), watch(a, EPOLLIN), close(a), PUT(b, 0x123), watched(false))
CASE(epoll_isotp_sending, a = tp(RX, TX, 0), b = peer(), watch(a, EPOLLOUT), watched(true),
     DO(write(a, "0123456789", 10)), take(b, 1), watched(false), SAYS(b, 0x30, 0, 0), take(b, 1), until(a, POLLOUT),
     watched(true))

/* Signals that arrive while a call waits. */
#define INTERRUPTED(name, how, ...) CASE(name, signals(how), __VA_ARGS__)
INTERRUPTED(read_interrupted, 0, a = raw("can0"), soon(), DO(read(a, (char[16]){0}, 16)))
INTERRUPTED(read_restarted, SA_RESTART, a = raw("can1"), b = raw("can0"), soon(), BESIDE(150, PUT(b, 0x123)),
            DO(read(a, (char[16]){0}, 16)), caught())
INTERRUPTED(read_timeout_interrupted, SA_RESTART, a = raw("can0"),
            setsockopt(a, SOL_SOCKET, SO_RCVTIMEO, &(struct timeval){3, 0}, sizeof(struct timeval)), soon(),
            DO(read(a, (char[16]){0}, 16)), caught())
INTERRUPTED(poll_interrupted, SA_RESTART, a = raw("can0"), soon(), DO(poll((&(struct pollfd){a, POLLIN, 0}), 1, 3000)),
            caught())
INTERRUPTED(bcm_interrupted, 0, a = bcm("can0"), soon(), DO(read(a, (char[100]){0}, 100)))
INTERRUPTED(isotp_interrupted, 0, a = tp(RX, TX, 0), soon(), DO(read(a, (char[100]){0}, 100)))
INTERRUPTED(isotp_write_interrupted, 0, a = tp(RX, TX, 0), b = peer(), DO(write(a, "0123456789", 10)), take(b, 1),
            soon(), DO(write(a, "x", 1)))
INTERRUPTED(isotp_done_interrupted, 0, a = tp(RX, TX, CAN_ISOTP_WAIT_TX_DONE), b = peer(), soon(),
            DO(write(a, "0123456789", 10)), SAYS(b, 0x30, 0, 0), take(b, 1))
INTERRUPTED(isotp_done_restarted, SA_RESTART, a = tp(RX, TX, CAN_ISOTP_WAIT_TX_DONE), b = peer(), soon(),
            BESIDE(200, SAYS(b, 0x30, 0, 0)), DO(write(a, "0123456789", 10)), take(b, 2), caught())
CASE(sigio, a = raw("can1"), b = raw("can0"), signals_of(SIGIO, 0), fcntl(a, F_SETOWN, getpid()),
     DO(fcntl(a, F_SETFL, O_ASYNC)), PUT(b, 0x123), pass(50), caught())
