/* The interfaces of the server as netlink links: links.c builds the answers, and netlink.c sends them. */
#ifndef LINKS_H
#define LINKS_H

#include "../shared/link.h"

#include <stdbool.h>
#include <stddef.h>

/* A datagram that the library sends instead of the program's datagram. */
#define OUTGOING 32768
struct outgoing {
    bool explains; /* the program has requested the error messages of refusals */
    size_t length;
    char data[OUTGOING];
};

/* Adds a message that the kernel will return: a copy of the header `head` with this type, followed by the data. Returns
 * false if there is no room. */
bool mail_put(struct outgoing *out, enum link_mail type, const struct nlmsghdr *head, const void *data, size_t length);

/* Answers a message about an interface of the server. Returns false if the message must go to the kernel unchanged. */
bool links_answer(const struct nlmsghdr *asked, struct outgoing *out);

/* Returns whether the request asks for all links, including those of the server. */
bool links_are_asked(const struct nlmsghdr *asked);

/* Returns whether such a request asks only for links of type can, which is the type of the server's links. A kernel
 * without CAN would list links of all types. */
bool links_are_all(const struct nlmsghdr *asked);

/* Returns whether the request asks for the addresses of an interface of the server. These interfaces have no addresses.
 */
bool addresses_are_asked(const struct nlmsghdr *asked);

/* The position of a dump: the index of the next interface. After the keeper was queried, it also contains the index of
 * the last interface with known properties. */
struct dump {
    int next, last;
    bool has_asked;
};

/* Writes the messages about the next interfaces into the buffer, which has room for at least one message. Returns the
 * total length of the messages. */
size_t links_dump(const struct nlmsghdr *asked, struct dump *dump, char *room, size_t size);

/* Returns the properties of an interface that the keeper already has. */
struct link_facts links_facts(int index);

/* Sets an interface up or down. Returns 0, or -1 with errno set. */
int links_set_up(int index, bool is_up);

/* Makes this socket receive link events. Returns 0, or -1 with errno set. */
int links_watch(int fd);

#endif
