/* Setting and reading socket options. */
#include "probe.h"

/* Options of CAN_RAW: the default value, the value after 1 and after 2 have been set, and calls with other lengths. */
#define FLAG(name, option)                                                                                            \
    CASE(name, a = raw("can0"), get(a, SOL_CAN_RAW, option, 4), DO(set(a, SOL_CAN_RAW, option, 1)),                   \
         get(a, SOL_CAN_RAW, option, 4), DO(set(a, SOL_CAN_RAW, option, 2)), get(a, SOL_CAN_RAW, option, 4))          \
    CASE(name##_lengths, a = raw("can0"), SETS(a, SOL_CAN_RAW, option, &(int){1}, 1),                                 \
         SETS(a, SOL_CAN_RAW, option, &(uint64_t){1}, 8), SETS(a, SOL_CAN_RAW, option, &(int){1}, 0),                 \
         SETS(a, SOL_CAN_RAW, option, &(int){1}, -1), get(a, SOL_CAN_RAW, option, 2), get(a, SOL_CAN_RAW, option, 8), \
         get(a, SOL_CAN_RAW, option, 0), get(a, SOL_CAN_RAW, option, -1))
FLAG(loopback, CAN_RAW_LOOPBACK)
FLAG(own, CAN_RAW_RECV_OWN_MSGS)
FLAG(fd_frames, CAN_RAW_FD_FRAMES)
FLAG(joined, CAN_RAW_JOIN_FILTERS)
FLAG(option_0, 0)
FLAG(option_8, 8)
FLAG(option_99, 99)

/* Other levels. */
#define LEVEL(name, made, level, option) CASE(name, a = made, DO(set(a, level, option, 1)), get(a, level, option, 4))
LEVEL(raw_by_base, raw("can0"), SOL_CAN_BASE, 1)
LEVEL(raw_by_bcm, raw("can0"), SOL_CAN_BASE + CAN_BCM, 1)
LEVEL(raw_by_isotp, raw("can0"), SOL_CAN_ISOTP, 1)
LEVEL(raw_by_tcp, raw("can0"), 6, 1)
LEVEL(raw_by_minus_1, raw("can0"), -1, 1)
LEVEL(bcm_by_bcm, bcm("can0"), SOL_CAN_BASE + CAN_BCM, 1)
LEVEL(bcm_by_raw, bcm("can0"), SOL_CAN_RAW, CAN_RAW_LOOPBACK)
LEVEL(isotp_by_raw, isotp(), SOL_CAN_RAW, CAN_RAW_LOOPBACK)
LEVEL(isotp_by_tcp, isotp(), 6, 1)

/* Options of SOL_SOCKET: the default value, the value after 1 has been set, and the values for BCM and ISO-TP sockets.
 */
#define READ(option) CASE(get_##option, a = raw("can0"), get(a, SOL_SOCKET, option, 4))
#define BOTH(option)                                                   \
    CASE(get_##option, a = raw("can0"), get(a, SOL_SOCKET, option, 4)) \
    CASE(set_##option, a = raw("can0"), DO(set(a, SOL_SOCKET, option, 1)), get(a, SOL_SOCKET, option, 4))
READ(SO_DEBUG)
READ(SO_TYPE)
READ(SO_ERROR)
READ(SO_PEERSEC)
READ(SO_PROTOCOL)
READ(SO_DOMAIN)
READ(SO_ACCEPTCONN)
READ(SO_PEERNAME)
READ(SO_BINDTODEVICE)
READ(SO_SNDLOWAT)
READ(SO_PEERGROUPS)
READ(SO_ATTACH_FILTER)
READ(SO_BPF_EXTENSIONS)
READ(SO_NETNS_COOKIE)
READ(SO_RCVTIMEO)
READ(SO_MARK)
BOTH(SO_REUSEADDR)
BOTH(SO_REUSEPORT)
BOTH(SO_DONTROUTE)
BOTH(SO_BROADCAST)
BOTH(SO_KEEPALIVE)
BOTH(SO_OOBINLINE)
BOTH(SO_NO_CHECK)
BOTH(SO_PRIORITY)
BOTH(SO_BSDCOMPAT)
BOTH(SO_PASSCRED)
BOTH(SO_PASSSEC)
BOTH(SO_RCVLOWAT)
BOTH(SO_TIMESTAMP)
BOTH(SO_TIMESTAMPNS)
BOTH(SO_TIMESTAMPING)
BOTH(SO_RXQ_OVFL)
BOTH(SO_WIFI_STATUS)
BOTH(SO_PEEK_OFF)
BOTH(SO_NOFCS)
BOTH(SO_LOCK_FILTER)
BOTH(SO_SELECT_ERR_QUEUE)
BOTH(SO_INCOMING_CPU)
BOTH(SO_CNX_ADVICE)
BOTH(SO_ZEROCOPY)
BOTH(SO_TXTIME)
BOTH(SO_BINDTOIFINDEX)
BOTH(SO_BUF_LOCK)
BOTH(200)
CASE(type_bcm, a = bcm("can0"), get(a, SOL_SOCKET, SO_TYPE, 4), get(a, SOL_SOCKET, SO_PROTOCOL, 4),
     get(a, SOL_SOCKET, SO_DOMAIN, 4))
CASE(type_isotp, a = isotp(), get(a, SOL_SOCKET, SO_TYPE, 4), get(a, SOL_SOCKET, SO_PROTOCOL, 4),
     get(a, SOL_SOCKET, SO_DOMAIN, 4))
CASE(type_short, a = raw("can0"), get(a, SOL_SOCKET, SO_TYPE, 1), get(a, SOL_SOCKET, SO_TYPE, 0))
CASE(linger, a = raw("can0"), get(a, SOL_SOCKET, SO_LINGER, 8),
     SETS(a, SOL_SOCKET, SO_LINGER, (&(struct linger){1, 2}), 8), get(a, SOL_SOCKET, SO_LINGER, 8))
CASE(peer_cred, a = raw("can0"), get(a, SOL_SOCKET, SO_PEERCRED, 12))
CASE(receive_buffer, a = raw("can0"), DO(set(a, SOL_SOCKET, SO_RCVBUF, 8192)), get(a, SOL_SOCKET, SO_RCVBUF, 4),
     DO(set(a, SOL_SOCKET, SO_RCVBUF, 0)), get(a, SOL_SOCKET, SO_RCVBUF, 4),
     SETS(a, SOL_SOCKET, SO_RCVBUF, &(int){1}, 3))
CASE(send_buffer, a = raw("can0"), DO(set(a, SOL_SOCKET, SO_SNDBUF, 8192)), get(a, SOL_SOCKET, SO_SNDBUF, 4),
     DO(set(a, SOL_SOCKET, SO_SNDBUF, 0)), get(a, SOL_SOCKET, SO_SNDBUF, 4))
CASE(device, a = socket(PF_CAN, SOCK_RAW, CAN_RAW), SETS(a, SOL_SOCKET, SO_BINDTODEVICE, "can0", 5),
     get(a, SOL_SOCKET, SO_BINDTODEVICE, 16))
CASE(device_none, a = raw("can0"), SETS(a, SOL_SOCKET, SO_BINDTODEVICE, "can7", 5))
CASE(device_empty, a = raw("can0"), SETS(a, SOL_SOCKET, SO_BINDTODEVICE, "", 0))
CASE(device_filters, a = raw(NULL), DO(setsockopt(a, SOL_SOCKET, SO_BINDTODEVICE, "can0", 5)), b = raw("vcan0"),
     PUT(b, 0x123), take(a, 1))
CASE(receive_timeout, a = raw("can0"),
     SETS(a, SOL_SOCKET, SO_RCVTIMEO, (&(struct timeval){0, 30000}), sizeof(struct timeval)),
     get(a, SOL_SOCKET, SO_RCVTIMEO, 16), DO(read(a, (char[16]){0}, 16)))
CASE(receive_timeout_odd, a = raw("can0"),
     SETS(a, SOL_SOCKET, SO_RCVTIMEO, (&(struct timeval){0, 1000000}), sizeof(struct timeval)),
     SETS(a, SOL_SOCKET, SO_RCVTIMEO, (&(struct timeval){-1, 0}), sizeof(struct timeval)),
     SETS(a, SOL_SOCKET, SO_RCVTIMEO, &(int){1}, 4))

/* The control messages that recvmsg returns. */
#define CONTROLS(name, option, value)                                                                  \
    CASE(name, a = raw("can1"), b = raw("can0"), DO(set(a, SOL_SOCKET, option, value)), PUT(b, 0x123), \
         until(a, POLLIN), controls(a, 200))
CONTROLS(control_none, SO_TIMESTAMP, 0)
CONTROLS(control_timestamp, SO_TIMESTAMP, 1)
CONTROLS(control_timestamp_ns, SO_TIMESTAMPNS, 1)
CONTROLS(control_timestamping_software, SO_TIMESTAMPING, SOF_TIMESTAMPING_RX_SOFTWARE | SOF_TIMESTAMPING_SOFTWARE)
CONTROLS(control_timestamping_nothing, SO_TIMESTAMPING, SOF_TIMESTAMPING_RX_SOFTWARE)
CONTROLS(control_overflow, SO_RXQ_OVFL, 1)
CONTROLS(control_credentials, SO_PASSCRED, 1)
CASE(control_short, a = raw("can1"), b = raw("can0"), set(a, SOL_SOCKET, SO_TIMESTAMP, 1), PUT(b, 0x123),
     until(a, POLLIN), controls(a, 4))
CASE(control_two, a = raw("can1"), b = raw("can0"), set(a, SOL_SOCKET, SO_TIMESTAMP, 1),
     set(a, SOL_SOCKET, SO_RXQ_OVFL, 1), PUT(b, 0x123), until(a, POLLIN), controls(a, 200))
CASE(control_of_sent, a = raw("can0"),
     DO(set(a, SOL_SOCKET, SO_TIMESTAMPING, SOF_TIMESTAMPING_TX_SOFTWARE | SOF_TIMESTAMPING_SOFTWARE)), PUT(a, 0x123),
     pass(30), events(a, POLLIN), DO(recv(a, (char[100]){0}, 100, MSG_ERRQUEUE | MSG_DONTWAIT)))
CASE(overflow_counted, a = raw("can1"), b = raw("can0"), set(a, SOL_SOCKET, SO_RXQ_OVFL, 1),
     DO(set(a, SOL_SOCKET, SO_RCVBUF, 0)), flood(b, 40), pass(100), DO(read(a, (char[16]){0}, 16)))
