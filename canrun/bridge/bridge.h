/* Declarations that the bridge's source files share. A bridge is a process that serves one CAN socket. It holds the
 * other end of the program's socket pair as file descriptor 3, and has a session with the server for each interface
 * that the socket is bound to. It exits when the last copy of the socket is closed. */
#ifndef BRIDGE_H
#define BRIDGE_H

#include "../shared/interfaces.h"
#include "../shared/messages.h"
#include "../shared/wire.h"
#include "protocol.h"

#include <linux/can.h>
#include <net/if.h>
#include <stdbool.h>
#include <stddef.h>
#include <stdint.h>
#include <sys/param.h>
#include <sys/types.h>

/* The file descriptor of the bridge's end of the socket pair. */
#define PROGRAM WIRE_PROGRAM
/* For how many of the latest frame numbers a session remembers whether the frame was its own. Older frames left every
 * queue long ago. */
#define NUMBERS_KEPT (1u << 24)
/* How many seconds the bridge waits for a reply from the server. */
#define PATIENCE 5

/* ---- main.c ---- */

/* The memory that the bridge shares with the programs of the socket. */
extern struct wire_memory *memory;

/* Stores the reason for a refusal, which the program prints when debugging. Returns `error`. */
int refused(int error, const char *why);
extern const char *refusal;

/* ---- keeper.c: the keeper of the interfaces, see ../shared/link.h ---- */

/* Returns whether PROGRAM is the listening socket of a keeper instead of the socket of a program. */
bool keeper_is_asked_for(void);
/* Serves the keeper's requests until the server is gone. */
void keeper_run(void);

/* ---- session.c: a session with the server, for one interface ---- */

/* The options and filters of a socket. */
struct options {
    int loopback, receive_own, fd_frames, xl_frames, join;
    uint32_t errors;
    unsigned filters; /* the number of the filter list: 0 for the first one, which passes all frames; or NO_FILTERS */
};
#define NO_FILTERS UINT32_MAX

/* The reply that the session still expects. DUE_COUNTS: the counts of the interface, which no call is waiting for.
 * DUE_ECHO: the echo after commands. DUE_VERDICT: the verdict on a frame. */
enum due { DUE_NOTHING, DUE_COUNTS, DUE_ECHO, DUE_VERDICT, DUE_VERDICT_AND_COUNTS };

struct session {
    int fd;                     /* -1: the session has ended */
    uint32_t number;            /* unique among the bridge's sessions, and never 0 */
    int index;                  /* the index of the interface */
    bool is_local;              /* the connection is a Unix socket, which accepts a command in full or not at all */
    bool is_shared;             /* programs have copies of the session's file descriptor */
    bool is_receiving;          /* the session receives for the socket; otherwise it only sends */
    bool is_counting;           /* a reply to session_ask_counts is due */
    uint32_t dropped;           /* how many frames the server has dropped, as far as the bridge knows */
    uint64_t seen;              /* how many items were received */
    bool is_asked, is_answered; /* for session_ask_all: the counts were requested; `queued` contains the answer */
    uint64_t queued;
    struct options given; /* the options as last sent to the server */
    enum due due;         /* the reply that has not arrived yet */
    bool is_silent;       /* no reply arrived in time, so the next wait is short */
    char reply[160];      /* the first reply to the last commands that was not ok */
    size_t have;
    char input[32768];
    uint64_t gone, waiting; /* the last counts of the queue: frames that have left it, and frames waiting there */
    uint64_t since;         /* how many frames of this session have entered the queue since these counts */
    uint64_t places;   /* the largest number of frames seen in the queue; after it was full once, this is its size */
    bool was_full;     /* a frame that waits for room has found the queue full */
    unsigned missed;   /* at how many checks in a row other senders had taken the free room */
    uint64_t look_at;  /* while a frame waits for room: when to check the counts again */
    int64_t pause;     /* while a frame waits for room: the pause after that check */
    bool is_stuck;     /* a short wait for room failed, and the server has accepted no frame since */
    uint64_t sent_end; /* 1 + the highest number of a frame of this session */
    uint8_t sent[NUMBERS_KEPT / 8]; /* a bit for each of the last numbers: whether a frame of this session has it */
};

/* Connects to the server. If that fails, returns NULL and sets `error`. */
struct session *session_start(int *error);
void session_end(struct session *session);

/* Sends commands and waits until they are done. Returns 0, or the errno of the first refusal. The session's `reply` is
 * then the first reply that is not ok. */
int session_command(struct session *session, const char *text);

/* Sends a frame and returns the server's verdict on it. If `asks_counts` is true, it also requests the counts, which
 * arrive after the verdict. */
int session_send(struct session *session, const struct canfd_frame *frame, bool is_fd, bool asks_counts);

/* Returns whether the server sends only replies in this session, and none is expected now. */
bool session_brings_nothing(const struct session *session);

/* Records the number of a frame that a program has sent through this session. */
void session_note_number(struct session *session, uint64_t number);

/* Waits for the reply to a frame that a program has sent through this session. `text` is the part of the reply that the
 * program has already read. `is_new` is false if the program waited in vain. Returns 0, or an errno. */
int session_take_over(struct session *session, const char *text, size_t length, bool is_new);

/* Requests the counts without waiting for them. They arrive in order with the frames. */
void session_ask_counts(struct session *session);

/* session_ask_all starts to ask the server how many items it has queued for this session. session_has_all returns
 * whether all these items have arrived. */
void session_ask_all(struct session *session);
bool session_has_all(struct session *session);

/* Returns the number that the server assigned to the frame that was sent last. */
uint64_t session_last_number(const struct session *session);

/* Requests the counts of the interface's queue from the server, and waits for them. Returns 0, or an errno. */
int session_look(struct session *session);

/* Returns whether the transmit queue has room, according to the last counts. The size of a queue is unknown until the
 * queue has been full once; until then the function returns true. */
bool session_has_room(struct session *session);

/* Reads and handles input from the session. Returns false if it waited for PATIENCE seconds and nothing arrived. */
bool session_read(struct session *session, bool waits);

/* ---- room.c: frames that wait for room in a transmit queue ---- */

/* `done` is called when a waiting frame has been sent, or with an errno if it could not be sent. `reply_to` is the pipe
 * of the waiting write, or NOBODY. `value` is the result of the write. */
struct later {
    void (*done)(const struct later *later, int error);
    int reply_to, value;
    uint64_t until;  /* the end of the wait, by the clock; 0: the wait has no end */
    bool is_refused; /* a quick write of this frame has just found no room */
};
#define NOBODY (-1)

/* Sends a frame. Returns 0 or an errno. If the queue is full and `later` is not NULL, the frame waits and the result is
 * SENT_LATER. */
#define SENT_LATER (-1)
int room_send(struct session *to, const struct canfd_frame *frame, bool is_fd, const struct later *later);

/* Called when this interface's queue had no room: starts to check the counts of the queue regularly. */
void room_look(int index);

/* Sends the waiting frames for which there is room now. Returns the nanoseconds until the next check, or -1. */
int64_t room_due(void);

/* Returns whether more frames may wait. */
bool room_takes_requests(void);

/* Ends the wait of the write with this reply pipe, because a signal has arrived. */
void room_cancel(int asks);

/* Drops the waiting frames whose `done` is this function, without calling it. */
void room_forget(void (*done)(const struct later *later, int error));

/* Drops the frames that are waiting on this interface. */
void room_leave(int index);

/* Returns whether no frame is waiting. */
bool room_is_idle(void);

/* Returns whether a frame is waiting that has no reply pipe because no write waits for it. */
bool room_has_unasked(void);

/* ---- sessions.c: the sessions of this socket ---- */

extern struct session *sessions[INTERFACE_MOST];
extern int session_count;
extern bool is_bound;
extern int bound_index; /* the index of the interface; 0: all interfaces */

/* Binds the socket to the interface with this index, or to all interfaces if the index is 0. */
int sessions_bind(int index);

/* Returns the session that sends on this interface, starting it if necessary. If it cannot be started, stores the
 * reason and returns NULL. */
struct session *sessions_for(int index);

/* Sends the current options to the server in all sessions. */
int sessions_apply(void);

/* Returns whether a session has ended. */
bool sessions_ended(void);

/* Ends all sessions because the server is gone. Returns whether the socket was bound. */
bool sessions_leave(void);

/* ---- wait.c: waiting ---- */

/* Returns the time of a monotonic clock in nanoseconds. */
uint64_t clock_now(void);

/* Waits for input from the sessions and, if `takes_requests` is true, from the program. It waits at most this many
 * nanoseconds, or indefinitely if the number is -1. It handles the input from the sessions. Returns whether the program
 * has sent a request or closed its socket. */
bool wait_for_input(int64_t nanoseconds, bool takes_requests);

/* Waits until this session is readable or writable. Returns false if the clock reaches `until` first. */
bool wait_for_session(const struct session *session, uint64_t until);

/* Returns whether the last copy of the socket has been closed. */
bool program_is_gone(void);

/* ---- order.c: merges the items of several sessions ---- */

/* Passes an item to the protocol, or keeps it as long as another session may still deliver an older item. */
void order_put(const struct item *item, int index);

/* Passes the items that are due to the protocol. Returns after how many nanoseconds to call it again, or -1. */
int64_t order_due(void);

/* Passes all items to the protocol. */
void order_flush(void);

/* Returns whether an item has arrived since the sessions were last queried. In that case order_due must be called
 * before waiting. */
bool order_has_news(void);

/* ---- outbox.c: messages for the program ---- */

/* Adds a message to the end of the outbox. If there is no room, the message is lost and counted. */
void outbox_put(const void *data, size_t length, uint64_t moment, int index, uint32_t message_flags);

/* Adds a message together with its source and destination. A protocol whose messages have a source and destination
 * calls outbox_keep_ways first. */
void outbox_keep_ways(void);
void outbox_put_way(const void *data, size_t length, const struct wire_note *note, const struct wire_way *way);

/* Wakes the threads that are waiting to read the socket, because it has an error. */
void outbox_ring(void);

/* Sends as many messages as the program's socket has room for. outbox_has_room is called when poll has reported room.
 */
void outbox_flush(void);
void outbox_has_room(void);
bool outbox_is_empty(void);

/* Returns whether the server should hold back further items because the program reads too slowly. If the program has
 * set SO_RCVBUF, those items are lost instead. */
bool outbox_is_crowded(void);

/* Returns whether new items are lost because the program does not read. This is true from the first loss until half of
 * the room is free. It is always false if the program wants to know how many items were lost. */
bool outbox_is_full(void);

/* Handles a SOL_SOCKET option that the program has set. */
void outbox_set(int option, int number);

/* Handles the server's count of frames that it has dropped in a session. */
void outbox_server_dropped(struct session *session, uint32_t dropped);

/* Requests the counts from the server, if the program wants to know about lost frames and the counts are due. Returns
 * the nanoseconds until they are due, or -1. */
int64_t outbox_counts_due(void);

/* ---- error.c: the socket's error, like sk_err in the kernel ---- */

/* Sets the socket's error. This errno is returned by the next call that takes the error: a read, a write on an ISO-TP
 * socket, or getsockopt with SO_ERROR. */
void error_set(int error);

/* Sets the socket's error, but does not wake the readers again if the previous error has not been taken yet. */
void error_change(int error);

/* Takes and clears the socket's error. Returns 0 if there is none. */
int error_take(void);
bool error_is_set(void);

/* ---- raw.c: CAN_RAW, and session options for the other protocols ---- */

/* Sends the frame of a program's write. Returns the result of room_send. */
int raw_write(int index, const void *data, size_t length, const struct later *later);

/* Returns whether the data is an error message frame. */
bool raw_is_error(const void *data);

/* Sends a frame in this session. Returns the result of room_send. */
int raw_send(struct session *to, const struct canfd_frame *frame, bool is_fd, const struct later *later);

/* Returns whether writes wait for room (--wait). */
bool raw_waits(void);

/* Writes to `text` the commands that set the socket's options in this session, and records the options as set. */
void raw_setup(struct session *session, char *text, size_t size);

/* For protocols other than CAN_RAW: makes their sessions receive the frames that pass at least one of these filters. */
int raw_want(const struct can_filter *filters, size_t count);

void raw_want_fd(bool has_fd);
void raw_want_own(void);

/* ---- turn.c: virtual time ---- */

bool is_virtual(void);

/* Wakes the thread that waits for the reply with this number. */
void wake_number(uint64_t number);

/* Like recv, but waits at most this many nanoseconds, and does not check for data before waiting. */
ssize_t receive_within(int fd, void *data, size_t length, uint64_t nanoseconds);

/* ---- quick.c: replies in memory ---- */

/* Sends the file descriptor of the memory to this end of a socket pair. Returns SENT_LATER. */
int quick_share(int to);

/* Handles a quick write. Returns false if the data is not a quick write. */
bool quick_serve(const char *data, size_t length);

/* In virtual time: quick_lend lends the session to the programs of the socket, if possible. quick_take_back takes the
 * session back, and finishes the programs' writes. */
bool quick_lend(void);
void quick_take_back(void);

/* ---- requests.c: requests of the program ---- */

/* Replies to a request with this error or this value. */
void request_reply(int to, int error, int value);

/* request_done replies to a write that has waited. request_later returns the struct later for a write that may wait. */
void request_done(const struct later *later, int error);
struct later request_later(const struct wire_request *request, int to, int value);

/* Returns whether this write waits for room. */
bool request_waits(const struct wire_request *request, int to);

/* Returns whether two file descriptors are ends of the same pipe. */
bool is_same_pipe(int one, int other);

/* Handles one request. Returns false if the last copy of the socket has been closed. */
bool request_serve(void);

/* For a protocol that leaves requests in the socket: request_news returns a file descriptor that becomes readable when
 * a request arrives. request_is_kept returns whether there is a request that the bridge has not read. */
int request_news(void);
bool request_is_kept(void);

/* Makes the socket writable again, unless a message is being sent or is waiting. */
void request_release(void);

/* Returns the end of a socket pair through which a close waits until this bridge exits, or -1. */
int close_waiter_fd(void);

#endif
