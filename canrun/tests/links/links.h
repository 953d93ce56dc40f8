/* Cases of links: by netlink, ip(8), libsocketcan and /sys/class/net. These cases extend the cases in ../kernel. can2
 * and can3 are CAN cards on a bus with 500,000 bits a second. */
#ifndef LINKS_H
#define LINKS_H

#include "../kernel/probe.h"

#include <linux/can/netlink.h>
#include <linux/if_arp.h>
#include <linux/rtnetlink.h>

/* Sets can2 up with its bit rate and without restart-ms. The cases that change can2 start in this state. */
void reset(void);

/* `shows` runs ip(8) with these words, and prints the part of the output that matches this regular expression, or `-`
 * if nothing matches. `status_of` prints the exit status. */
void shows(const char *words, const char *expression);
void status_of(const char *words);
/* Prints the output of a shell command. */
void shell(const char *words);

/* Makes a NETLINK_ROUTE socket that listens to these groups. */
int route(unsigned groups);

/* A netlink message about a link. The functions below append its attributes. */
struct asked {
    struct nlmsghdr head;
    struct ifinfomsg link;
    char attributes[512];
};
struct asked *get_link(unsigned flags);
struct asked *new_link(unsigned flags);
struct asked *message_of(unsigned type, unsigned flags);
struct asked *with_name(struct asked *asked, const char *name);
struct asked *indexed(struct asked *asked, const char *name);
struct asked *number(struct asked *asked, unsigned type, uint32_t value);
struct asked *text(struct asked *asked, unsigned type, const char *value);
/* These functions add attributes for the kind and the data of the link, nested in one attribute. */
struct asked *kind(struct asked *asked, const char *name);
struct asked *device(struct asked *asked, const char *name, unsigned type, const void *value, size_t length);
struct asked *restart_ms(struct asked *asked, uint32_t value);
struct asked *bit_rate(struct asked *asked, uint32_t value);
struct asked *modes(struct asked *asked, uint32_t mask, uint32_t flags);
struct asked *flags(struct asked *asked, unsigned value, unsigned change);

/* Both functions send the message. `answers` also prints the types and errors of the answer, and anything unusual. */
void tells(int fd, struct asked *asked);
void answers(int fd, struct asked *asked);
/* Makes one read call, and prints the messages that it returns. */
void next(int fd);
/* These functions request the link with this name. They print an attribute of the link, an attribute of its device
 * data, or the head of the answer. */
void value(const char *name, unsigned type);
void device_value(const char *name, unsigned type);
void head_of(const char *name);
void rate_of(const char *name);
/* Requests a dump, and prints whether it contains this link exactly once. */
void dumps(int fd, struct asked *asked, const char *name);
/* Prints the events of this link that have arrived. */
void events_of(int fd, const char *name);

/* Prints the contents of a file. */
void file(const char *path);
void listed(const char *path, const char *name);

#endif
