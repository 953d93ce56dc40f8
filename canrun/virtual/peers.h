/* Checks whether the process at the other end of a socket belongs to the run. */
#ifndef PEERS_H
#define PEERS_H

#include <stdint.h>
#include <sys/socket.h>

/* Returns the port of an IP address, or 0. */
uint32_t port_of(const struct sockaddr *address);

/* Ends the run. The message says that this thread `does` something with a port of a program outside the run. */
void fail_outside(const char *does, const char *kind, const struct sockaddr *to);

/* Checks a datagram before it is sent to this address, or to the peer of its socket. */
void check_datagram(int fd, const struct sockaddr *to);

/* Called when a socket gets this peer, before the socket sends anything. */
void datagram_connected(int fd, const struct sockaddr *to);

#endif
