/* Finds the server for a program: checks that the server is running, and gets the server's address and the names of its
 * interfaces for the bridges. */
#ifndef SERVER_H
#define SERVER_H

#include "../shared/interfaces.h"

#include <limits.h>
#include <stdbool.h>

struct server {
    /* The address in a form that the bridges accept: an absolute path, or a numeric host address. */
    char address[PATH_MAX + 300];
    /* The names of all interfaces of the server, separated by commas. */
    char interfaces[INTERFACE_NAMES];
};

/* Checks that a canbusd is listening at this address. If `waits` is true, waits until one is listening there. On an
 * error it prints a line to standard error and returns false. */
bool server_find(const char *text, bool waits, struct server *server);

#endif
