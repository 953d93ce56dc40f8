/* The messages between the preloaded library and a bridge. They are sent on the SOCK_SEQPACKET pair that replaces a
 * CAN socket.
 *
 * The program's end of the pair has an abstract name: WIRE_NAME and a digit, the number of the protocol in linux/can.h.
 * The library recognizes a CAN socket by this name.
 *
 * From the library to the bridge: a request and its data, with the write end of a pipe (SCM_RIGHTS) for the only reply.
 * There are two kinds of messages without a pipe. A quick write gets its reply in memory that the library and the
 * bridge share. Any other message is a frame that the program wrote without the library, and gets no reply.
 *
 * From the bridge to the library: each datagram is exactly one CAN_RAW frame, or one message of another protocol. So
 * every read returns the same bytes as the kernel's own CAN socket, even a read that bypasses the library. A note in
 * the shared memory contains everything else about the datagram. An empty datagram reports an error of the socket,
 * which WIRE_ERROR then takes. */
#ifndef WIRE_H
#define WIRE_H

#include <linux/can.h>
#include <stdint.h>

#define WIRE_NAME "canbusd-can/"
/* The size of a socket's name, including its terminating 0. */
#define WIRE_NAME_ROOM 64

/* The maximum size of a message in either direction, which is that of an ISO-TP message. */
#define WIRE_LARGEST 66000
/* The maximum size of the data in a reply: 512 filters. */
#define WIRE_REPLY 4096

enum wire_kind {
    WIRE_SEND,    /* sends the frame or message that follows; `ifindex` is the interface of sendto, or WIRE_BOUND; the
                     reply's value is the result of the write */
    WIRE_BIND,    /* binds to the address that follows, a struct sockaddr_can */
    WIRE_CONNECT, /* connects to the address that follows, a struct sockaddr_can */
    WIRE_SET,     /* sets an `option` of the protocol's level; the value follows */
    WIRE_GET,     /* gets such an option; the reply's data is the value */
    WIRE_SOCKET_SET, /* reports an `option` of SOL_SOCKET that the kernel has set */
    WIRE_SOCKET_GET, /* gets an `option` of SOL_SOCKET that only the bridge stores; the reply's value is the option's
                        value */
    WIRE_SET_DEVICE, /* SO_BINDTODEVICE, which the kernel does not store; `ifindex` is the index */
    WIRE_GET_DEVICE, /* gets the index of the SO_BINDTODEVICE interface, which is the reply's value */
    WIRE_ADDRESS,    /* the reply's data is the socket's address or, with an `option`, the peer's address */
    WIRE_ERROR,      /* takes the socket's error, which is the reply's value; 0 if another call has taken the error */
    WIRE_CLOSE,  /* comes with one end of a socket pair in place of the pipe. A byte on the pair says that the program
                    has closed the socket. The bridge then waits until the socket's message has been sent, another byte
                    comes or the other end is closed */
    WIRE_NOTICE, /* takes the first entry of the error queue, which is the reply's data; the value is an enum
                    wire_noticed */
    WIRE_WATCH,  /* the value is whether the socket has an error, or an entry in its error queue; with a `number` the
                    reply comes only when there is such an error or entry */
    WIRE_EMPTY, /* takes the first message without data, which is the reply's data; the value is whether there is such a
                   message */
    WIRE_FILL,  /* does nothing; its bytes only fill the socket while there is no room for writes */
    WIRE_HOST,  /* connects to the host of the interface `ifindex`; if the host must be started, the reply's data is its
                   abstract name */
    WIRE_CANCEL, /* a signal ends the wait of a request: this message comes with the read end of that request's pipe.
                    The waiting request gets the reply */
    WIRE_SHARE,  /* comes with one end of a socket pair in place of the pipe; the bridge sends the shared memory there
                    (SCM_RIGHTS) */
};
#define WIRE_BOUND (-1)

/* How long a write may wait. WIRE_SHORT_WAIT is used in a thread that blocks the signals that would end a longer wait.
 */
enum wire_wait { WIRE_WAIT, WIRE_NO_WAIT, WIRE_SHORT_WAIT };

struct wire_request {
    uint32_t kind;
    int32_t ifindex;
    int32_t option;  /* for WIRE_SEND: whether a quick write of this frame has found no room */
    int32_t number;  /* the first number of a SOL_SOCKET value; for WIRE_SEND an enum wire_wait */
    uint32_t length; /* the length of the data; an ISO-TP message is followed by bytes that only fill the socket */
};

struct wire_reply {
    int32_t error; /* 0, or an errno; with an errno the data is an error message */
    int32_t value;
    uint32_t length; /* the length of the data that follows, at most WIRE_REPLY */
};

/* The header of a quick write, which is followed by the frame. No other message begins with the key. */
struct wire_quick {
    uint64_t key;
    int32_t ifindex;
    uint32_t place; /* the index of the entry for the reply */
};

/* The entry in shared memory for the reply to one quick write. `state` is an enum wire_state and a futex. */
struct wire_place {
    uint32_t state;
    struct wire_reply reply; /* without data; the error may be WIRE_NO_ROOM */
    char text[240];          /* the reason for the error */
};
enum wire_state {
    PLACE_FREE,
    PLACE_ASKED,
    PLACE_TAKEN, /* the bridge has taken the lent session back, and reads the reply */
    PLACE_REPLIED
};
/* The error of a quick write that found no room but may wait. The library then sends the write again with a pipe. */
#define WIRE_NO_ROOM (-1)

/* The loan of a session in virtual time. In a lent session the server sends only replies. While the bridge waits, it
 * lends the session to the programs of the socket, which have a copy of the session's file descriptor. One program at a
 * time sends a frame in the session and reads the reply. Only the thread that has the turn may change this struct. */
#define WIRE_NUMBERS 1024
struct wire_loan {
    uint32_t session; /* the number of the lent session; 0: the bridge lends no session */
    uint32_t shared;  /* the number of the session whose descriptor was sent with the memory; 0: no session */
    uint32_t asked;   /* 1 + the index of the entry of the write that waits for its reply; 0: no write */
    uint32_t left;    /* 1 + the index of the entry in which a write left its reply for the bridge; 0: no write */
    uint32_t count;   /* how many of the `numbers` the bridge has not recorded yet */
    uint64_t numbers[WIRE_NUMBERS]; /* numbers that the server assigned to frames */
};
/* A value for `ifindex` in a struct wire_quick. It marks a message that is not a write but asks the bridge to check
 * `left`. */
#define WIRE_LEFT INT32_MIN

/* A note: everything about a received datagram except its bytes. */
struct wire_note {
    uint64_t from;        /* the total length of all earlier datagrams of this socket */
    uint64_t nanoseconds; /* the server's timestamp, since 1970 */
    int32_t ifindex;
    uint32_t dropped;       /* frames lost before this one, if SO_RXQ_OVFL is set */
    uint32_t message_flags; /* MSG_DONTROUTE, MSG_CONFIRM */
    uint16_t is_stamped;    /* SO_TIMESTAMPING requests the timestamp */
    uint16_t head_length;
    uint32_t length;
    uint8_t head[20]; /* the first bytes of the datagram */
};
/* The source and destination of a J1939 message. For an entry in the error queue, struct wire_notice adds the event and
 * the message that it concerns. */
struct wire_way {
    uint64_t name, to_name;
    uint32_t pgn;
    uint8_t from, to, priority;
};
struct wire_notice {
    struct wire_way way;
    uint64_t nanoseconds;
    int32_t error, what; /* an enum wire_event */
    uint32_t key;        /* how many messages the socket had sent before this one */
    uint32_t size, done; /* the length of the whole message, and of the part that the receiver has */
};
enum wire_noticed { NOTICE_IS_THERE = 1, NOTICE_KEEPS = 2 /* an empty datagram stays: it is a message without data */ };
enum wire_event { EVENT_SENT, EVENT_BEGUN, EVENT_FAILED, EVENT_OFFERED, EVENT_BLOCK, EVENT_BROKEN };
/* The maximum size of a J1939 message that a socket receives. A datagram has room for it. */
#define WIRE_LARGEST_J1939 200000

/* The header of a J1939 write: the length of the whole message and its destination. After the header come all bytes of
 * the message, or the first part of them. */
struct wire_j1939 {
    uint32_t size, has_address, address_length;
    struct sockaddr_can address;
};
/* A flag in the `value` of the reply to a J1939 write: the socket has no more room. */
#define WIRE_FULL (1 << 30)
/* The minimum length of a J1939 address. */
#define J1939_ADDRESS 24

/* The number of notes. It is larger than the number of datagrams that fit into a socket: the bridge fills a socket with
 * at most WIRE_ROOM bytes, and the kernel counts more than 512 bytes for each datagram. */
#define WIRE_NOTES 8192
#define WIRE_ROOM (WIRE_NOTES / 4 * 512)

/* The notes of the most recent datagrams. The number of unread bytes in the socket shows which note belongs to a
 * datagram, so the notes still match if the socket has other readers. */
struct wire_notes {
    uint64_t put;      /* the total length of all datagrams that the bridge has written to the socket */
    uint64_t meant;    /* the total length of these datagrams and of those that the bridge is writing now */
    uint64_t count;    /* how many datagrams have notes */
    uint64_t found;    /* the number, starting at 1, of the last datagram whose note was found */
    uint32_t is_mixed; /* the program reads some datagrams without looking for their notes */
    struct wire_note notes[WIRE_NOTES];
    struct wire_way ways[WIRE_NOTES]; /* the sources and destinations of the same datagrams, for J1939 */
};

/* A J1939 message without data. */
struct wire_empty {
    struct wire_note note;
    struct wire_way way;
};

/* The memory that the library and the bridge share; each socket has its own. The library creates the memory, and the
 * bridge holds it open as file descriptor WIRE_MEMORY. */
#define WIRE_PROGRAM 3
#define WIRE_MEMORY 4
#define WIRE_PLACES 15
struct wire_memory {
    uint64_t key;
    char name[WIRE_NAME_ROOM]; /* the name of the socket */
    uint32_t is_over;          /* the bridge has exited, because no process has the socket any more */
    struct wire_loan loan;
    struct wire_place places[WIRE_PLACES];
    struct wire_notes received;
};

#endif
