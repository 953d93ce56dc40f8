/* An interface of the server as a netlink link (NETLINK_ROUTE), and the messages between programs and the server's
 * keeper.
 *
 * The keeper is a process that the library starts when a program first requests an interface by name or index. It exits
 * with the server. It has one session for each such interface, so a query needs no new session. It counts the events
 * that the server does not count, and restarts an interface after restart-ms. It listens on a socket whose abstract
 * name contains the user and the server. It serves only this user, and replies to one request on each connection. */
#ifndef LINK_H
#define LINK_H

#include "interfaces.h"

#include <linux/rtnetlink.h>
#include <stdbool.h>
#include <stddef.h>
#include <stdint.h>

/* Message types above RTM_MAX, which the kernel does not support. The kernel refuses such a message and sends the whole
 * message back, so the socket itself carries the data after the header: an answer to the program, an event, or a dump
 * request with the position of the dump. */
enum link_mail { LINK_ANSWER = 0x7CA0, LINK_EVENT, LINK_DUMP };

/* The first part of the abstract name of a keeper's socket. */
#define LINK_KEEPER "canbusd-links/"

/* The properties of an interface. Without a keeper all of them are unknown. */
struct link_facts {
    bool is_known;
    bool has_counts; /* the keeper has counted all errors until now */
    uint16_t tec, rec;
    uint32_t state; /* enum can_state */
    uint64_t done, lost, refused;
    uint32_t bitrate, data_bitrate; /* 0: the bus has no bit rate */
    uint32_t restart_ms;
    uint32_t bus_errors, lost_arbitrations, warnings, passives, offs, restarts;
};

/* The maximum number of interfaces in one request. */
#define LINK_SEVERAL 16

struct link_request {
    enum {
        LINK_ASK,    /* requests the properties of the interface */
        LINK_LOOK,   /* requests the known properties of `count` interfaces, starting with this one */
        LINK_CHANGE, /* changes the interface as follows */
        LINK_WATCH   /* sends a copy of a socket (SCM_RIGHTS), which is to get the events of all interfaces */
    } kind;
    int32_t index;
    union {
        int32_t count;
        int32_t process; /* LINK_WATCH: the process that has the socket; 0: the process that sends the request */
    };
    uint32_t bitrate, data_bitrate;    /* 0: no rate is requested */
    uint32_t modes, modes_changed;     /* CAN_CTRLMODE_ */
    uint32_t link_flags, link_changed; /* IFF_UP */
    uint32_t restart_ms;
    bool has_restart_ms, restarts;
};

struct link_reply {
    int32_t error;  /* an errno, or 0 */
    char text[160]; /* the reason for the error; without an error, a note for the program's user */
    int32_t last;   /* the last interface with known properties; 0: no interface */
    struct link_facts facts[LINK_SEVERAL];
};

/* Returns whether the interface can be used, that is, it is neither bus off nor down. */
bool link_has_carrier(const struct link_facts *facts);

/* Returns the interface flags for the field ifi_flags. */
uint32_t link_flags(const struct link_facts *facts);

struct link_message {
    struct nlmsghdr head;
    struct ifinfomsg link;
    char attributes[992];
};

/* Writes the netlink message that describes an interface. If the length of the transmit queue is 0, the message does
 * not contain it. */
void link_write(struct link_message *message, int index, const struct link_facts *facts, uint32_t queue);

#endif
