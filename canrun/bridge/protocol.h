/* The functions that each protocol implements, like struct proto_ops in the kernel. A protocol consists of one or more
 * files in this directory and an entry in the table in main.c. If a function is NULL, the protocol does nothing for
 * that operation. */
#ifndef PROTOCOL_H
#define PROTOCOL_H

#include "../shared/messages.h"
#include "../shared/wire.h"

#include <stddef.h>

struct protocol {
    /* Returns whether requests must stay in the socket, so that the program finds no room there. `kept` is the number
     * of requests that have already stayed. */
    bool (*is_full)(unsigned kept);

    /* Called before the first request. */
    void (*open)(void);

    /* These functions handle requests of the kinds in enum wire_kind. Each returns 0, or an errno. */
    int (*bind)(const struct sockaddr_can *address);
    int (*connect)(const struct sockaddr_can *address);
    /* Completes the address of the socket or of its peer. The interface has already been filled in. */
    int (*getname)(struct sockaddr_can *address, bool is_peer);
    int (*setsockopt)(int option, const void *value, size_t length);
    int (*getsockopt)(int option, void *room, uint32_t *length);
    /* Handles a SOL_SOCKET option. Returns false if the outbox must handle the option too. */
    bool (*set_socket)(int option, int number);
    /* Sends a message. If the message has to wait, it returns SENT_LATER; the reply is sent on the pipe later. */
    int (*sendmsg)(const struct wire_request *request, const char *data, size_t length, int reply_to,
                   struct wire_reply *reply);
    /* Handles the other kinds of requests. The data of the reply are written to `data`. */
    int (*request)(const struct wire_request *request, int reply_to, struct wire_reply *reply, char *data);
    /* Ends the wait of the write with this reply pipe, because a signal has arrived. */
    void (*cancel)(int asks);

    /* Handles data that came without a request and is not a message, such as a quick write. Returns false for other
     * data. */
    bool (*takes)(const char *data, size_t length);
    /* Handles a frame that a session has received. This function must not send anything. */
    void (*receive)(const struct item *item, int index);

    /* Does the work that is due. Returns the nanoseconds until more work is due, or -1. */
    int64_t (*due)(void);
    /* Returns whether an accepted message has not been sent yet. A close waits until the message has been sent. */
    bool (*is_busy)(void);
    /* Returns whether the bridge may read more requests. */
    bool (*takes_requests)(void);
    /* Returns a file descriptor whose input makes the bridge call `due`, or -1. */
    int (*descriptor)(void);
};
extern const struct protocol raw_protocol, bcm_protocol, isotp_protocol, j1939_protocol;

/* The protocol of this bridge. */
extern const struct protocol *protocol;
bool protocol_is_busy(void);

#endif
