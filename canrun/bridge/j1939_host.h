/* Declarations that the source files of an interface's host share; see j1939.h. */
#ifndef J1939_HOST_H
#define J1939_HOST_H

#include "j1939.h"

/* A J1939 socket of this interface. */
struct member {
    struct member *next;
    int fd;
    bool is_bound;
    struct j1939_socket socket;
    struct j1939_filter *filters;
    size_t filter_count;
    struct transfer *queue; /* messages that wait to be sent, oldest first */
    struct told *backlog;   /* messages for which the bridge's connection had no room */
};

/* A received frame with its source and destination. */
struct heard {
    struct wire_way way;
    bool is_from_us, is_to_us; /* the source or destination belongs to a socket of this host */
    bool is_local;             /* the frame was sent by this interface, but not in a transfer of several frames */
    bool is_frame;             /* a single frame; false for a message assembled from several frames */
    const struct member *sender;
    uint64_t moment;
    size_t length;
    uint8_t data[CAN_MAX_DLEN];
};

/* ---- j1939_host.c ---- */

bool host_is_asked(void);
int host_run(void);
/* Stops accepting connections. */
void host_close(void);

/* Settles each claim whose 250 ms have passed: the claim becomes valid, or was contested. This is called before the
 * host resolves the names of the next message. */
void host_settle_claims(void);
/* Returns the timestamp, since 1970, of the frame that is being handled. If no frame is being handled, returns the
 * current time. */
uint64_t host_moment(void);
/* Resolves the names of a frame and sends the frame. Returns 0 and the frame's number, or an errno. */
int host_put(const struct wire_way *way, const uint8_t *data, size_t length, uint64_t *number);
/* Resolves the names of a message before the message is sent. Returns 0, or an errno. */
int host_resolve(struct wire_way *way, const uint8_t *data, size_t length);

/* ---- j1939_members.c: the sockets ---- */

extern struct member *members;
extern unsigned member_count;
void member_add(int fd);
/* Handles a request from a bridge. If the bridge is gone, it removes the member. */
void member_serve(struct member *member);
/* Closes the connection and abandons the messages of the socket. */
void member_remove(struct member *member);
/* Sends the bridge the messages that had to wait for room in the connection. */
void member_flush(struct member *member);
void member_tell(struct member *member, const struct j1939_told *told, const void *data, size_t length);
/* Tells the bridge that this many bytes, counted from the beginning of a segment, no longer count against SO_SNDBUF. */
void member_tell_freed(struct member *member, uint32_t length);
/* member_wants returns whether this socket receives messages with this source and destination, and members_want whether
 * any socket does. */
bool member_wants(const struct member *member, const struct wire_way *way);
bool members_want(const struct wire_way *way);
/* Delivers a message to all sockets that receive it. */
void members_deliver(const struct wire_way *way, const void *data, size_t length, const struct heard *heard);

/* ---- j1939_names.c: the addresses of nodes ---- */

/* Record that a socket is bound to this name and address, or no longer bound. names_use returns 0, or an errno. */
int names_use(uint64_t name, uint8_t address);
void names_release(uint64_t name, uint8_t address);
bool names_are_local(uint8_t address);
/* names_at returns the name that has the address, or 0. names_address returns the address of the name: J1939_IDLE_ADDR
 * if the name has no address, and J1939_NO_ADDR if the name is 0. */
uint64_t names_at(uint8_t address);
uint8_t names_address(uint64_t name);
/* names_claimed records that an address claim was on the bus at the time `moment`. names_claim prepares a claim that a
 * socket is about to send; it returns false if the name is unknown. */
void names_claimed(uint64_t name, uint8_t address, uint64_t moment);
bool names_claim(uint64_t name, uint8_t address);
/* Marks claims as valid that were not contested up to this time. Returns when the next claim becomes valid. */
uint64_t names_due(uint64_t known);
/* Marks claims as valid that became valid before the frame with this timestamp. */
void names_expire(uint64_t moment);

/* ---- j1939_transfers.c: messages that are being sent or received ---- */

enum transfer_kind { TRANSFER_TP, TRANSFER_ETP, TRANSFER_SIMPLE };
enum transfer_state { TRANSFER_NEW, TRANSFER_ACTIVE, TRANSFER_ABORTING, TRANSFER_OVER };

struct transfer {
    struct transfer *next, *next_queued;
    struct member *owner; /* NULL: the message is being received, or its socket is gone */
    bool is_sent, is_queued;
    enum transfer_kind kind;
    enum transfer_state state;
    struct wire_way way;
    bool is_from_us, is_to_us;
    uint8_t last_heard, last_sent; /* the last command in each direction */
    uint32_t size, filled, freed;  /* byte counts: in the whole message, present, and no longer needed */
    uint8_t *data;
    unsigned retries;
    int error;
    uint32_t key;
    uint64_t frame; /* the number of the frame, for a one-frame message */
    /* Packet counts. `total`: in the message. `last`: up to the end of the block. `sent`, `confirmed` and `received`:
     * so far. `block`: in a block. `offset`: before the current block. */
    uint32_t total, last, sent, confirmed, received, block, offset;
    uint64_t send_at, due; /* when the transfer continues, and when it is given up, by the clock; or NEVER */
};

/* Finds an active transfer between these ends, in this direction or in reverse. Returns NULL if there is none. */
struct transfer *transfer_find(const struct wire_way *way, enum transfer_kind kind, bool is_reverse, bool is_sent);
/* Create a new transfer: transfer_receive for receiving, with a zeroed buffer; transfer_make for sending, without data.
 * Both return NULL if there is no memory. */
struct transfer *transfer_receive(const struct wire_way *way, enum transfer_kind kind, uint32_t size);
struct transfer *transfer_make(const struct wire_way *way, enum transfer_kind kind, uint32_t size);
/* Makes the transfer active. Returns false if another transfer is active between the same ends. */
bool transfer_activate(struct transfer *transfer);
/* transfer_settle frees a transfer if nothing more will happen to it. transfer_forget always frees it. */
void transfer_settle(struct transfer *transfer);
void transfer_forget(struct transfer *transfer);
/* Called after the receiver has confirmed packets: the segments before the confirmed bytes no longer count against
 * SO_SNDBUF. */
void transfer_drop_old(struct transfer *transfer);
/* Set the timers of a transfer. transfer_go_on: the transfer continues after some milliseconds. transfer_try_again: it
 * continues after a random pause. transfer_wait: it is given up after some milliseconds. transfer_stop: both timers are
 * off. */
void transfer_go_on(struct transfer *transfer, unsigned milliseconds);
void transfer_try_again(struct transfer *transfer);
void transfer_wait(struct transfer *transfer, unsigned milliseconds);
void transfer_stop(struct transfer *transfer);
/* End a transfer. transfer_complete first delivers a received message to the sockets. The socket's next transfer then
 * begins. */
void transfer_complete(struct transfer *transfer, const struct heard *heard);
void transfer_end(struct transfer *transfer);
/* Sends an abort with this reason, and keeps the transfer for ABORT_TIME. */
void transfer_cancel(struct transfer *transfer, uint8_t reason);
void transfer_notice(const struct transfer *transfer, enum wire_event what);
void transfer_tell_error(const struct transfer *transfer);
/* transfers_echo returns the socket whose transfer sent the frame with this number. transfers_sent records that this
 * frame was on the bus. */
const struct member *transfers_echo(uint64_t number);
void transfers_sent(uint64_t number);
/* transfers_due continues transfers that are due, and gives up those that had no answer until `known`; it returns when
 * the next transfer is due. transfers_go_on returns whether any transfers remain. */
uint64_t transfers_due(uint64_t now, uint64_t known);
bool transfers_go_on(void);
/* Frees the transfers of a socket. */
void transfers_leave(const struct member *owner);

/* ---- j1939_queue.c: the queue of a socket's messages ---- */

/* Accepts a message with its first bytes. Returns 0, or an errno. */
int queue_send(struct member *owner, const struct j1939_ask *ask, const void *data, size_t length);
/* Adds the next bytes of a message. If the message has already ended, the bytes are dropped. */
void queue_fill(struct member *owner, uint32_t key, const void *data, size_t length);
/* If this transfer is the first in its socket's queue, removes it and starts the next one. */
void queue_begin_next(struct transfer *transfer);
/* Abandons all messages of the socket. */
void queue_leave(struct member *owner);

/* ---- j1939_send.c: the frames of transfers ---- */

enum { TP_CONTROL = 0xec00, TP_DATA = 0xeb00, ETP_CONTROL = 0xc800, ETP_DATA = 0xc700 };
enum {
    TP_RTS = 0x10,
    TP_CTS = 0x11,
    TP_DONE = 0x13,
    TP_BAM = 0x20,
    ETP_RTS = 0x14,
    ETP_CTS = 0x15,
    ETP_OFFSET = 0x16,
    ETP_DONE = 0x17,
    ABORT = 0xff,
    SOME_DATA = 0xff /* stored in place of the last command after a data packet */
};
enum abort_reason {
    ABORT_BUSY = 1,
    ABORT_RESOURCE = 2,
    ABORT_TIMEOUT = 3,
    ABORT_FAULT = 5,
    ABORT_UNEXPECTED = 6,
    ABORT_DUPLICATE = 8,
    ABORT_OFFSET_PGN = 10,
    ABORT_CTS_PGN = 14,
    ABORT_OTHER = 250
};

static inline bool is_to_all(const struct wire_way *way) {
    return !way->to_name && way->to == J1939_NO_ADDR;
}

bool is_of_transport(uint32_t pgn);
uint32_t number_at(const uint8_t *data, unsigned bytes);
int errno_of_abort(uint8_t reason);
/* Sends the transfer's next frame. Returns an errno, or 0. */
int transfer_send_next(struct transfer *transfer);
/* send_abort sends an abort about messages of this parameter group to the sender of a frame. transfer_send_abort sends
 * an abort to the other end of a transfer. */
void send_abort(const struct heard *heard, enum transfer_kind kind, uint8_t reason, uint32_t pgn);
void transfer_send_abort(const struct transfer *transfer, uint8_t reason);

/* ---- j1939_receive.c: received frames of transfers ---- */

/* Handles a frame that belongs to a transfer. Returns false if the frame belongs to no transfer. */
bool transfers_take(const struct heard *heard);

#endif
