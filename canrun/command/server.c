/* Finds the server for a program: see server.h. */
#define _GNU_SOURCE
#include "server.h"

#include "../shared/address.h"

#include <ctype.h>
#include <errno.h>
#include <netdb.h>
#include <poll.h>
#include <stdio.h>
#include <stdlib.h>
#include <string.h>
#include <sys/socket.h>
#include <time.h>
#include <unistd.h>

/* How many milliseconds to wait for each reply from the server, and between two attempts to connect to it. */
#define REPLY_TIME 5000
#define PAUSE 100

/* Error messages about a server that is running, but is too old to list its interfaces or has no room for another
 * session. */
static const char TOO_OLD[] = "is older than canbusd-run " VERSION ": start one of the same version";
static const char FULL[] = "has as many sessions as it can, 64: close some";

/* Replaces a host name with its numeric address, and a relative path with an absolute path. Returns an error message,
 * or NULL. */
static const char *resolve(struct address *address) {
    struct addrinfo hints = {.ai_socktype = SOCK_STREAM, .ai_flags = AI_ADDRCONFIG}, *found;
    if (address->is_path) {
        char folder[PATH_MAX], path[2 * PATH_MAX];
        if (*address->host == '/') {
            return NULL;
        }
        if (!getcwd(folder, sizeof folder)) {
            return strerror(errno);
        }
        snprintf(path, sizeof path, "%s/%s", folder, address->host);
        return address_read(path, address) ? NULL : "the path is too long for a Unix socket";
    }
    int fault = getaddrinfo(address->host, NULL, &hints, &found);
    if (fault) {
        return gai_strerror(fault);
    }
    fault =
        getnameinfo(found->ai_addr, found->ai_addrlen, address->host, sizeof address->host, NULL, 0, NI_NUMERICHOST);
    freeaddrinfo(found);
    return fault ? gai_strerror(fault) : NULL;
}

static void write_address(const struct address *address, struct server *server) {
    size_t size = sizeof server->address;
    if (address->is_path) {
        snprintf(server->address, size, "%s", address->host);
    } else {
        const char *form = strchr(address->host, ':') ? "[%s]:%u" : "%s:%u";
        snprintf(server->address, size, form, address->host, address->port);
    }
}

/* Reads the server's next message. A message that does not end with > is incomplete. */
static void read_message(int fd, char *message, size_t size) {
    size_t have = 0;
    struct pollfd polled = {fd, POLLIN, 0};
    message[0] = 0;
    while (have < size - 1 && !strchr(message, '>') && poll(&polled, 1, REPLY_TIME) > 0) {
        ssize_t part = read(fd, message + have, size - 1 - have);
        if (part <= 0) {
            break;
        }
        have += (size_t)part;
        message[have] = 0;
    }
}

/* Returns NULL if this is the greeting of a canbusd with room for a session; otherwise a string that describes the
 * greeting. */
static const char *other_greeting(char *greeting) {
    static char said[160];
    if (!strncmp(greeting, "< hi >", 6)) {
        return NULL;
    }
    if (!strcmp(greeting, "< error too many sessions >")) {
        return FULL;
    }
    greeting[strcspn(greeting, "\r\n")] = 0;
    for (char *at = greeting; *at; at++) {
        *at = isprint((unsigned char)*at) ? *at : '?';
    }
    snprintf(said, sizeof said, "what listens there is something else: %s%s",
             *greeting ? "it says " : "it says nothing", greeting);
    return said;
}

/* Requests the names of all interfaces from the server. Returns false if the server does not support this request, or
 * if a name contains a character that is not printable. */
static bool ask_interfaces(int fd, struct server *server) {
    static const char question[] = "< interfaces >", before[] = "< interfaces ", after[] = " >";
    char message[sizeof before + INTERFACE_NAMES + sizeof after];
    if (send(fd, question, sizeof question - 1, MSG_NOSIGNAL) < 0) {
        return false;
    }
    read_message(fd, message, sizeof message);
    char *names = message + sizeof before - 1, *end = strstr(message, after);
    if (strncmp(message, before, sizeof before - 1) != 0 || !end || end <= names || end - names >= INTERFACE_NAMES) {
        return false;
    }
    *end = 0;
    for (char *at = names; *at; at++) {
        if (!isprint((unsigned char)*at)) {
            return false;
        }
        *at = *at == ' ' ? ',' : *at;
    }
    memcpy(server->interfaces, names, (size_t)(end - names) + 1);
    return true;
}

/* Returns NULL if a canbusd with room for a session is listening at this address; otherwise an error message.
 * `is_absent` is set if nothing is listening there yet, so a server may still start. */
static const char *look(const struct address *address, bool *is_absent, struct server *server) {
    char greeting[64];
    int fd = address_connect(address);
    *is_absent = fd < 0 && (errno == ECONNREFUSED || errno == ENOENT);
    if (fd < 0) {
        return strerror(errno);
    }
    read_message(fd, greeting, sizeof greeting);
    const char *fault = other_greeting(greeting);
    if (!fault && !ask_interfaces(fd, server)) {
        fault = TOO_OLD;
    }
    close(fd);
    return fault;
}

bool server_find(const char *text, bool waits, struct server *server) {
    struct address address;
    bool is_absent = false;
    if (!address_read(text, &address)) {
        fprintf(stderr,
                "canbusd-run: %s is no address: it is HOST:PORT, [V6]:PORT, or a Unix path that begins with / or .\n",
                text);
        return false;
    }
    const char *fault = resolve(&address);
    while (!fault && (fault = look(&address, &is_absent, server)) && is_absent && waits) {
        fault = NULL;
        poll(NULL, 0, PAUSE);
    }
    if (fault == TOO_OLD || fault == FULL) {
        fprintf(stderr, "canbusd-run: the server at %s %s\n", text, fault);
    } else if (fault) {
        fprintf(
            stderr,
            "canbusd-run: no canbusd server at %s (%s): start one with `canbusd serve can0`, wait for it with --wait, "
            "or name another with --address or $CANBUSD_ADDRESS\n",
            text, fault);
    } else {
        write_address(&address, server);
    }
    return !fault;
}
