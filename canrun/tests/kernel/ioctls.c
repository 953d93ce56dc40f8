/* ioctl and fcntl on a socket. */
#include "probe.h"

#define ASKS(name, request, interface) CASE(name, a = raw("can0"), ask(a, request, interface))
ASKS(index, SIOCGIFINDEX, "can0")
ASKS(index_none, SIOCGIFINDEX, "can7")
ASKS(index_empty, SIOCGIFINDEX, "")
ASKS(index_full, SIOCGIFINDEX, "sixteen_letters_")
ASKS(mtu, SIOCGIFMTU, "can0")
ASKS(mtu_none, SIOCGIFMTU, "can7")
ASKS(flags, SIOCGIFFLAGS, "can0")
ASKS(flags_none, SIOCGIFFLAGS, "can7")
ASKS(hardware, SIOCGIFHWADDR, "can0")
ASKS(hardware_none, SIOCGIFHWADDR, "can7")
ASKS(queue, SIOCGIFTXQLEN, "vcan0")
ASKS(queue_none, SIOCGIFTXQLEN, "can7")
ASKS(metric, SIOCGIFMETRIC, "can0")
ASKS(map, SIOCGIFMAP, "can0")
ASKS(slave, SIOCGIFSLAVE, "can0")
ASKS(address, SIOCGIFADDR, "can0")
ASKS(broadcast, SIOCGIFBRDADDR, "can0")
ASKS(count, SIOCGIFCOUNT, "can0")
ASKS(private, SIOCDEVPRIVATE, "can0")
CASE(name_of_index, a = raw("can0"), ask_name(a, (int)if_nametoindex("can1")))
CASE(name_of_no_index, a = raw("can0"), ask_name(a, 12345))
CASE(name_of_index_0, a = raw("can0"), ask_name(a, 0))

CASE(stamp_before, a = raw("can0"), DO(ioctl(a, SIOCGSTAMP, &(struct timeval){0})))
CASE(stamp_after, a = raw("can1"), b = raw("can0"), PUT(b, 0x121), take(a, 1),
     DO(ioctl(a, SIOCGSTAMP, &(struct timeval){0})), PUT(b, 0x121), take(a, 1),
     DO(ioctl(a, SIOCGSTAMP, &(struct timeval){0})))
CASE(stamp_ns, a = raw("can1"), b = raw("can0"), PUT(b, 0x122), take(a, 1),
     DO(ioctl(a, SIOCGSTAMPNS, &(struct timespec){0})), DO(ioctl(a, SIOCGSTAMPNS, &(struct timespec){0})))
CASE(stamp_by_dup, a = raw("can1"), b = raw("can0"), c = dup(a), ioctl(a, SIOCGSTAMP, &(struct timeval){0}),
     PUT(b, 0x123), take(a, 1), DO(ioctl(c, SIOCGSTAMP, &(struct timeval){0})))
CASE(stamp_bcm, a = bcm("can0"), DO(ioctl(a, SIOCGSTAMP, &(struct timeval){0})))
CASE(stamp_isotp, a = tp(RX, TX, 0), DO(ioctl(a, SIOCGSTAMP, &(struct timeval){0})))

#define NUMBER(name, request) CASE(name, a = raw("can0"), DO(ioctl(a, request, &(int){0})))
NUMBER(readable_bytes, FIONREAD)
NUMBER(queued_bytes, SIOCOUTQ)
NUMBER(at_mark, SIOCATMARK)
NUMBER(owner, SIOCGPGRP)
NUMBER(nonblocking, FIONBIO)
NUMBER(asynchronous, FIOASYNC)
NUMBER(odd_request, 0x1234)
NUMBER(window, TIOCGWINSZ)
CASE(readable_bytes_bcm, a = bcm("can0"), DO(ioctl(a, FIONREAD, &(int){0})))
CASE(readable_bytes_isotp, a = tp(RX, TX, 0), DO(ioctl(a, FIONREAD, &(int){0})))
CASE(nonblocking_by_ioctl, a = raw("can0"), ioctl(a, FIONBIO, &(int){1}),
     say(" %d", !!(fcntl(a, F_GETFL) & O_NONBLOCK)), DO(read(a, (char[16]){0}, 16)))
CASE(close_on_exec_by_ioctl, a = raw("can0"), DO(ioctl(a, FIOCLEX)), DO(fcntl(a, F_GETFD)), DO(ioctl(a, FIONCLEX)),
     DO(fcntl(a, F_GETFD)))

CASE(flags_of_descriptor, a = raw("can0"), say(" %X", fcntl(a, F_GETFL)))
CASE(flags_of_nonblock, OPEN(a = socket(PF_CAN, SOCK_RAW | SOCK_NONBLOCK | SOCK_CLOEXEC, CAN_RAW)),
     say(" %X %X", fcntl(a, F_GETFL), fcntl(a, F_GETFD)))
CASE(set_flags, a = raw("can0"), DO(fcntl(a, F_SETFL, O_NONBLOCK | O_APPEND)), say(" %X", fcntl(a, F_GETFL)))
CASE(own, a = raw("can0"), DO(fcntl(a, F_SETOWN, getpid())), say(" %d", fcntl(a, F_GETOWN) == getpid()))
CASE(pipe_size, a = raw("can0"), DO(fcntl(a, F_GETPIPE_SZ)))
CASE(lock, a = raw("can0"), DO(fcntl(a, F_SETLK, &(struct flock){.l_type = F_WRLCK})))
