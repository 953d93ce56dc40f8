/* The address of a server: HOST:PORT, [V6]:PORT, or the path of a Unix socket, which begins with a slash or a dot. */
#ifndef ADDRESS_H
#define ADDRESS_H

#include <stdbool.h>
#include <stddef.h>
#include <sys/socket.h>
#include <sys/un.h>

#define ADDRESS_DEFAULT "127.0.0.1:29536"
/* The size of the longest host name, including its terminating 0. */
#define ADDRESS_HOST 256

struct address {
    bool is_path;
    char host[ADDRESS_HOST]; /* or the path */
    unsigned short port;
};

/* Parses an address. Returns false if the string is not an address. */
bool address_read(const char *text, struct address *address);

/* Connects to a path, a numeric host address or localhost. It does not resolve names, so the bridge needs no resolver.
 * Returns a file descriptor, or -1 with errno set. The errno is ENOENT if the host is neither numeric nor localhost. */
int address_connect(const struct address *address);

#endif
