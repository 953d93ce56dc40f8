/* The address of a server: see address.h. */
#define _GNU_SOURCE
#include "address.h"

#include <arpa/inet.h>
#include <errno.h>
#include <netinet/in.h>
#include <netinet/tcp.h>
#include <stdlib.h>
#include <string.h>
#include <unistd.h>

static bool copy(char *room, size_t size, const char *text, size_t length) {
    if (length == 0 || length >= size) {
        return false;
    }
    memcpy(room, text, length);
    room[length] = 0;
    return true;
}

bool address_read(const char *text, struct address *address) {
    *address = (struct address){.is_path = *text == '/' || *text == '.'};
    if (address->is_path) {
        return copy(address->host, sizeof((struct sockaddr_un *)0)->sun_path, text, strlen(text));
    }
    const char *colon = strrchr(text, ':');
    size_t digits = colon ? strspn(colon + 1, "0123456789") : 0;
    if (!colon || digits < 1 || digits > 5 || colon[1 + digits]) {
        return false;
    }
    long port = strtol(colon + 1, NULL, 10);
    if (port < 1 || port > 65535) {
        return false;
    }
    address->port = (unsigned short)port;
    size_t length = (size_t)(colon - text);
    if (*text == '[') {
        return length > 2 && text[length - 1] == ']' && copy(address->host, sizeof address->host, text + 1, length - 2);
    }
    return !memchr(text, ':', length) && copy(address->host, sizeof address->host, text, length);
}

/* Converts the address to a struct sockaddr. Returns the length of that struct, or 0 if the host is neither numeric nor
 * localhost. */
static socklen_t numeric(const struct address *address, struct sockaddr_storage *room) {
    struct sockaddr_in v4 = {.sin_family = AF_INET, .sin_port = htons(address->port)};
    struct sockaddr_in6 v6 = {.sin6_family = AF_INET6, .sin6_port = htons(address->port)};
    struct sockaddr_un path = {.sun_family = AF_UNIX};
    if (address->is_path) {
        memcpy(path.sun_path, address->host, strlen(address->host));
        memcpy(room, &path, sizeof path);
        return sizeof path;
    }
    const char *host = strcmp(address->host, "localhost") ? address->host : "127.0.0.1";
    if (inet_pton(AF_INET, host, &v4.sin_addr) == 1) {
        memcpy(room, &v4, sizeof v4);
        return sizeof v4;
    }
    if (inet_pton(AF_INET6, host, &v6.sin6_addr) == 1) {
        memcpy(room, &v6, sizeof v6);
        return sizeof v6;
    }
    return 0;
}

int address_connect(const struct address *address) {
    struct sockaddr_storage room;
    socklen_t length = numeric(address, &room);
    if (!length) {
        errno = ENOENT;
        return -1;
    }
    int fd = socket(room.ss_family, SOCK_STREAM | SOCK_CLOEXEC, 0), one = 1;
    if (fd >= 0 && connect(fd, (const struct sockaddr *)&room, length)) {
        int error = errno;
        close(fd);
        errno = error;
        return -1;
    }
    if (fd >= 0 && !address->is_path) {
        setsockopt(fd, IPPROTO_TCP, TCP_NODELAY, &one, sizeof one);
    }
    return fd;
}
