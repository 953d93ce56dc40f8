/* Declarations for CAN_J1939 (SAE J1939). The bridge of a socket keeps the socket's options, its error queue and the
 * messages of its waiting writes (j1939.c, j1939_errors.c, j1939_writes.c). The sockets of one interface share more
 * state, as in struct j1939_priv in the kernel: names and addresses (j1939_names.c), and transfers of messages
 * (j1939_transfers.c and others). A separate process, the host, keeps this shared state while such a socket is bound
 * (j1939_host.c). The rules are the same as in net/can/j1939 in the kernel. */
#ifndef J1939_H
#define J1939_H

#include "bridge.h"

#include <linux/can/j1939.h>
#include <sys/un.h>

/* The first part of a host's abstract socket name. The user ID, a hash that identifies the server, and the name of the
 * interface follow. */
#define J1939_NAME "canbusd-j1939/"

#define MILLISECOND 1000000ull
#define NEVER UINT64_MAX

/* The limits of message sizes: messages of one frame, of several frames (TP), and longer messages in an extended
 * transfer (ETP). */
#define ONE_FRAME 8u
#define IN_PACKET 7u
#define TP_LONGEST 1785u
#define ETP_LONGEST (IN_PACKET * 0xffffffu)
/* The length of a segment. Writes are split into segments, which count against SO_SNDBUF until they have been sent. */
#define SEGMENT TP_LONGEST

static inline bool is_unicast(uint8_t address) {
    return address <= J1939_MAX_UNICAST_ADDR;
}

static inline bool is_pgn(uint32_t pgn) {
    return pgn <= J1939_PGN_MAX;
}

/* Returns whether the low byte of a parameter group number is a destination address. */
static inline bool has_destination(uint32_t pgn) {
    return (pgn & 0xff00) < 0xf000;
}

/* The properties that decide whether a socket receives a message. */
struct j1939_socket {
    uint64_t name, to_name;
    uint32_t pgn; /* the only PGN that the socket receives, or J1939_NO_PGN for all PGNs */
    uint8_t from, to;
    bool is_connected, is_promiscuous, is_broadcast;
};

/* A request from a bridge to the host. Filters or data may follow it. The host replies exactly once to each request. */
struct j1939_ask {
    enum { ASK_BIND, ASK_CHANGE, ASK_SEND, ASK_LEAVE } kind;
    uint32_t key, size; /* the key and the size of a message; its first or next bytes follow */
    bool is_first;
    struct wire_way way;
    struct j1939_socket socket;
};

/* A message from the host to a bridge. */
struct j1939_told {
    enum {
        TOLD_REPLY,   /* the reply to a request: 0, or an errno and its error message */
        TOLD_MESSAGE, /* a received message; its data follows */
        TOLD_NOTICE,  /* an entry for the error queue */
        TOLD_ERROR,   /* the socket's error, if it has no error queue */
        TOLD_FREED,   /* a segment of this length has been sent */
        TOLD_ENDED,   /* the message with this key has ended */
        TOLD_GONE,    /* the server is gone */
    } kind;
    int32_t error;
    bool is_frame; /* the message is a single received frame and has a timestamp */
    uint32_t flags, size, key;
    uint64_t moment;
    struct wire_notice notice;
};

/* ---- j1939_writes.c: the socket's writes ---- */

/* Handles a write: a whole message of this size, the first bytes of the message, or the rest of them. Returns 0, an
 * errno, or SENT_LATER. */
int writes_add(const struct wire_request *request, const struct wire_way *way, uint32_t size, const char *data,
               size_t length, int reply_to);
void writes_cancel(int asks);
bool writes_have_place(void);
/* Returns whether the socket must not be writable, as in the kernel. Returns false if the socket contains so many
 * requests that other requests would find no room. */
bool writes_are_full(unsigned kept);
/* Continues the waiting writes as far as there is room. */
void writes_go_on(void);
/* writes_free: a segment of this length has been sent. writes_end: the message with this key has ended. writes_leave:
 * the host is gone. */
void writes_free(uint32_t length);
void writes_end(uint32_t key);
void writes_leave(void);
/* Returns whether an accepted message has not been sent yet. */
bool writes_are_pending(void);
/* Set and return the value of SO_SNDBUF. */
void writes_set_room(int number);
int writes_room(void);
/* writes_number returns the number of a message in the socket's error queue. writes_count_anew makes these numbers
 * start again at 0. */
uint32_t writes_number(const struct wire_notice *notice);
void writes_count_anew(void);

/* ---- j1939_link.c: the bridge's connection to the host ---- */

/* Connects to the host of an interface. Returns 0, or an errno. ECONNREFUSED means that the host must be started with
 * the name in `name`. */
int link_open(int index, struct sockaddr_un *name, socklen_t *length);
/* Returns the file descriptor of the connection, or -1 if there is no connection. */
int link_fd(void);
void link_close(void);
/* Sends a request to the host and waits for the reply. Other messages that arrive in the meantime are kept for
 * link_take. Returns 0, or an errno. */
int link_ask(const struct j1939_ask *ask, const void *data, size_t length);
/* Takes the next message from the host. The message is TOLD_GONE if the host is gone. Returns false if there is no
 * message. */
bool link_take(struct j1939_told *told, const char **data, size_t *length);

/* ---- j1939_errors.c: the error queue ---- */

/* Whether the socket has an error queue (SO_J1939_ERRQUEUE), and the SO_TIMESTAMPING flags that select its entries. */
extern bool errors_are_on;
extern uint32_t errors_wanted;
void errors_put(const struct wire_notice *notice);
void errors_clear(void);
bool errors_take(struct wire_notice *notice);
/* Returns whether the socket has an error, or an entry in its error queue. */
bool errors_are_there(void);
/* Replies on this pipe as soon as the socket has an error or an entry in its error queue. Returns SENT_LATER. */
int errors_watch(int reply_to);
void errors_show(void);

#endif
