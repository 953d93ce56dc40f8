/* Functions for the CAN_J1939 cases of test_run_kernel.py, in addition to those of probe.h. */
#ifndef PROBE_J1939_H
#define PROBE_J1939_H

#include "probe.h"
#include <linux/can/j1939.h>

/* Addresses, names and parameter groups that several cases use. One group has a destination address, and one has none.
 */
enum { OWN = 0x80, OTHER = 0x90, THIRD = 0xA0, ALL = J1939_NO_ADDR, NO_GROUP = J1939_NO_PGN };
enum { GROUP = 0x12300, GROUP_TO_ALL = 0xFE12, REQUEST = J1939_PGN_REQUEST, CLAIM = J1939_PGN_ADDRESS_CLAIMED };
#define OWN_NAME 0x1111222233334444ull
#define OTHER_NAME 0x5555666677778888ull
#define LOW_NAME 0x0000000000001234ull

/* Returns the address of a socket, or of a message's destination. */
struct sockaddr_can *way(const char *interface, uint64_t name, uint32_t group, uint8_t address);
#define WAY(...) TO(way(__VA_ARGS__))

/* Functions that make sockets: unbound, bound to an address on can0 or on another interface, or bound to a name and an
 * address. */
int j1939(void);
int node(uint8_t address);
int node_on(const char *interface, uint8_t address);
int named(uint64_t name, uint8_t address);
/* Makes a raw socket on can1 that receives all frames with an extended identifier. */
int line(void);

/* Functions that send `length` bytes (1, 2, 3 and so on) to an address or a name, and print the result. */
void send_to(int fd, uint8_t address, uint32_t group, size_t length);
void send_to_name(int fd, uint64_t name, uint32_t group, size_t length);
void send_flags(int fd, uint8_t address, uint32_t group, size_t length, int flags);
void request_claims(int fd);
/* Sends an address claim from a socket that is bound to this name and this address. */
void claim(int fd, uint64_t name, uint8_t address);
/* Sends the same address claim as a raw frame, as another node would. */
void other_claims(int fd, uint64_t name, uint8_t address);
/* Macros that write a frame. Its identifier contains the priority, the group, the destination and the source. */
#define HEARS(fd, id, ...) put(fd, FRAME((id) | CAN_EFF_FLAG, __VA_ARGS__))
#define CONTROLS(fd, ...) HEARS(fd, 0x18EC8090, __VA_ARGS__)
#define EXTENDED_CONTROLS(fd, ...) HEARS(fd, 0x18C88090, __VA_ARGS__)
/* Functions that send `number` packets of a transfer, beginning with the packet `first`. Each byte of a packet is the
 * packet's number. */
void packets(int fd, unsigned first, unsigned number);
void extended_packets(int fd, unsigned first, unsigned number);
/* Reads `number` frames, and prints only the last one. */
void take_last(int fd, int number);

/* Waits for a message, and prints its data, source and control messages. `receive_none` prints whether no message
 * arrives. */
void receive(int fd);
void receive_none(int fd);
/* Receives a message into buffers of these sizes: for the data, for the control messages and for the address. */
void receive_into(int fd, size_t room, size_t control, size_t name);

/* Enables the error queue with these flags of SO_TIMESTAMPING. */
void notices(int fd, unsigned flags);
/* Waits for an entry in the error queue and prints it. `notice_none` prints whether there is none. */
void notice(int fd);
void notice_none(int fd);
void notice_into(int fd, size_t room, size_t control);

int broadcast(int fd);
#define KEEPS(fd, ...) keeps(fd, (struct j1939_filter[]){__VA_ARGS__}, sizeof((struct j1939_filter[]){__VA_ARGS__}))
void keeps(int fd, const struct j1939_filter *filters, size_t length);

#endif
