/* libcanbusd: a simulated CAN bus inside your own process.
 *
 *     canbusd_config config = CANBUSD_CONFIG;
 *     canbusd *bus;
 *     uint32_t ecu, tester;
 *     if (canbusd_new("can0,can1", &config, &bus) != CANBUSD_OK) ..
 *     canbusd_open(bus, 0, 256, &ecu);
 *     canbusd_open(bus, 1, 256, &tester);
 *     canbusd_send(bus, ecu, &(canbusd_frame){.id = 0x123, .len = 2, .data = {0x11, 0x22}}, NULL);
 *     canbusd_attempt(bus, 0, NULL);
 *     canbusd_receive(bus, tester, &item);
 *
 * Frames move only in canbusd_attempt and canbusd_run. No call waits, starts a thread, or reads a clock.
 * The calls are those of the proved Rattle bus: docs/DEFINITIONS.md defines what each call returns.
 *
 * A program must follow these rules. Nothing checks them, and the behavior is undefined if a program breaks a rule:
 * - Only one thread at a time uses a bus or a bench. Two buses share nothing, so two threads may use them at once.
 * - A bus is freed only once, and not used after canbusd_free. Its sockets are closed with it.
 * - A bus is a pointer that canbusd_new returned. Every other pointer points to memory of the size that its type and
 * the given length require, and these memory areas do not overlap.
 *
 * Each call returns CANBUSD_OK or the reason for its refusal, except canbusd_strerror and the calls that free. A
 * refused call writes no result, with two exceptions: canbusd_new and canbusd_bench_new set their result to NULL, and
 * canbusd_bench_take writes its output. A null pointer is refused with CANBUSD_NULL, unless the argument `may be NULL`.
 *
 * Interfaces are numbered from 0, in the order of their names. In a set of interfaces, bit i represents interface i.
 * The number of a socket is never used again on the same bus. A `moment` is a timestamp in microseconds, below 10^16.
 * Bit rates are in bit/s.
 */
#ifndef CANBUSD_H
#define CANBUSD_H

#include <stddef.h>
#include <stdint.h>

#ifdef __cplusplus
extern "C" {
#endif

/* The version of the functions and structs in this header, and the number in the soname. */
#define CANBUSD_ABI 0

/* A bus. */
typedef struct canbusd canbusd;

/* A bench: a bus with sessions that execute lines in the format of `canbusd bench`. */
typedef struct canbusd_bench canbusd_bench;

/* The result of a call: CANBUSD_OK, or the reason for its refusal. canbusd_strerror returns the error message for each
 * code. */
enum {
    CANBUSD_OK = 0,
    CANBUSD_RECORD_FULL = 1,       /* the record already has `limit` entries, so the bus does nothing more */
    CANBUSD_NO_INTERFACE = 2,      /* the bus does not have this interface, or one that a rule names */
    CANBUSD_BAD_CAPACITY = 3,      /* the capacity is not between 1 and 65,536 */
    CANBUSD_TOO_MANY_SOCKETS = 4,  /* 64 sockets are open */
    CANBUSD_NO_SOCKET = 5,         /* no such socket is open */
    CANBUSD_FD_OFF = 6,            /* the frame is an FD frame, but CANBUSD_FD_FRAMES is 0 */
    CANBUSD_BUS_OFF = 7,           /* the interface is bus off */
    CANBUSD_NO_BUFFERS = 8,        /* the transmit queue is full */
    CANBUSD_NOT_BUS_OFF = 9,       /* the interface is neither bus off nor down */
    CANBUSD_NO_MEMORY = 10,        /* there is not enough memory; the bus is unchanged */
    CANBUSD_DOWN = 11,             /* the interface is down */
    CANBUSD_NOTHING = 12,          /* the socket's queue is empty */
    CANBUSD_BAD_FRAME = 13,        /* the identifier, length or flags are invalid */
    CANBUSD_BAD_MOMENT = 14,       /* the moment is 10^16 or more */
    CANBUSD_BAD_OPTION = 15,       /* the option is not one of CANBUSD_ERR_FILTER .. */
    CANBUSD_BAD_FILTER = 16,       /* the mask of a filter has bit 29 set */
    CANBUSD_TOO_MANY_FILTERS = 17, /* there are more than 512 filters */
    CANBUSD_BAD_RULE = 18,         /* the string is not a rule */
    CANBUSD_TOO_MANY_RULES = 19,   /* the bus already has 64 rules */
    CANBUSD_BAD_NAMES = 20,        /* not 1 to 16 names, two equal names, or an invalid name */
    CANBUSD_BAD_CONFIG = 21,       /* a number is outside its limits */
    CANBUSD_BAD_BIT_RATES = 22,    /* a rate outside the limits, or a data bit rate without a bit rate */
    CANBUSD_BAD_RUN = 23,          /* the bus has no bit rate, or has already run past the moment */
    CANBUSD_NULL = 24,             /* a null pointer */
    CANBUSD_BAD_LINE = 25,         /* a line of a bench or of its faults is wrong */
    CANBUSD_REPEATED_ATTEMPT = 26, /* two lines of the faults concern the same attempt */
    CANBUSD_TOO_LONG = 27          /* the lines have more than 16,777,216 bytes */
};

/* The configuration of a new bus. */
typedef struct canbusd_config {
    uint32_t ack;          /* one of CANBUSD_ACK_.. */
    uint32_t reporting;    /* bit i: sockets of interface i get an error message frame for each fault */
    uint32_t tx_capacity;  /* the size of each transmit queue in frames, 1 to 1,024 */
    uint32_t limit;        /* the size of the record in entries, 1 to 16,777,216 (32 bytes each) */
    uint32_t auto_restart; /* attempts until a bus off interface restarts, 1 to 1,000,000; 0: it never restarts */
    uint32_t bitrate;      /* 5,000 to 1,000,000; 0: frames take no time */
    uint32_t data_bitrate; /* for FD frames with BRS, from `bitrate` to 20,000,000; 0: the same as `bitrate` */
} canbusd_config;

/* How frames are acknowledged: always, or only if another interface of the bus has received the whole frame. */
enum { CANBUSD_ACK_ALWAYS = 0, CANBUSD_ACK_PEERS = 1 };

/* The default configuration: frames are always acknowledged, transmit queues hold 10 frames, the record holds a million
 * entries, and the bus has no bit rate. */

#define CANBUSD_CONFIG \
    { CANBUSD_ACK_ALWAYS, 0, 10, 1000000, 0, 0, 0 }

/* A frame, with the layout of struct canfd_frame in linux/can.h. */
typedef struct canbusd_frame {
    uint32_t id;   /* 11 bits, or 29 with CANBUSD_EXTENDED; with CANBUSD_REMOTE, and in received items CANBUSD_ERROR */
    uint8_t len;   /* bytes carried or requested: up to 8; for FD frames also 12, 16, 20, 24, 32, 48 or 64 */
    uint8_t flags; /* 0; for an FD frame CANBUSD_FDF, with or without CANBUSD_BRS and CANBUSD_ESI */
    uint16_t unused;  /* ignored in arguments; 0 in results */
    uint8_t data[64]; /* the first `len` bytes; the others are ignored in arguments, and 0 in results */
} canbusd_frame;

#define CANBUSD_EXTENDED 0x80000000u /* CAN_EFF_FLAG */
#define CANBUSD_REMOTE 0x40000000u   /* CAN_RTR_FLAG */
#define CANBUSD_ERROR 0x20000000u    /* CAN_ERR_FLAG */
#define CANBUSD_BRS 1                /* CANFD_BRS, with CANBUSD_FDF */
#define CANBUSD_ESI 2                /* CANFD_ESI, with CANBUSD_FDF */
#define CANBUSD_FDF 4                /* CANFD_FDF: an FD frame */

/* A data or remote frame, or an error message frame, that a socket has received. */
typedef struct canbusd_item {
    canbusd_frame frame;
    uint32_t iface;  /* the interface that sent the frame */
    uint64_t number; /* the frame's number: how many frames were sent there before it */
    uint64_t moment; /* the moment of the attempt */
} canbusd_item;

/* A filter as in linux/can.h. A frame matches if its identifier equals `id` in the bits that are set in `mask`.
 * CANBUSD_INVERTED in `id` inverts the filter. */
typedef struct canbusd_filter {
    uint32_t id;
    uint32_t mask;
} canbusd_filter;

#define CANBUSD_INVERTED 0x20000000u /* CAN_INV_FILTER */

/* The counts of a socket's items at the time when it was closed. */
typedef struct canbusd_closed {
    uint64_t unread;  /* items that the program has not received */
    uint64_t dropped; /* items that were dropped for lack of room */
} canbusd_closed;

/* The result of an attempt to send a frame. */
typedef struct canbusd_tried {
    canbusd_frame frame;
    uint32_t outcome;   /* CANBUSD_IDLE and so on; for CANBUSD_IDLE all fields but `restarted` are 0 */
    uint32_t iface;     /* the interface that won */
    uint64_t number;    /* the number of the frame, as canbusd_send returned it */
    uint64_t moment;    /* the moment in the items; on a bus with bit rates the end of the attempt */
    uint32_t accepted;  /* the set of interfaces that received the frame */
    uint32_t off;       /* the set of interfaces that went bus off */
    uint32_t restarted; /* the set of interfaces that restarted */
    uint32_t unused;    /* 0 */
} canbusd_tried;

/* The outcome of an attempt. IDLE: no frame was waiting. DONE: the frame was sent. LAST_BIT: there was a fault in the
 * last bit, so the frame was received but is sent again. DESTROYED: a fault destroyed the frame. NO_ACK: the frame was
 * not acknowledged. */
enum { CANBUSD_IDLE = 0, CANBUSD_DONE = 1, CANBUSD_LAST_BIT = 2, CANBUSD_DESTROYED = 3, CANBUSD_NO_ACK = 4 };

/* The error counters of an interface, and the counts of its frames. */
typedef struct canbusd_status {
    uint32_t state;   /* CANBUSD_STATE_.. */
    uint32_t tec;     /* the transmit error counter */
    uint32_t rec;     /* the receive error counter */
    uint32_t unused;  /* 0 */
    uint64_t sent;    /* frames put into the transmit queue: the sum of the next three */
    uint64_t done;    /* sent on the bus */
    uint64_t waiting; /* frames in the queue */
    uint64_t lost;    /* frames lost because the interface went bus off or down */
    uint64_t refused; /* sends refused because the queue was full */
} canbusd_status;

/* The state of an interface: error active, at the error warning limit, error passive, bus off, or down. */

enum {
    CANBUSD_STATE_ACTIVE = 0,
    CANBUSD_STATE_WARNING = 1,
    CANBUSD_STATE_PASSIVE = 2,
    CANBUSD_STATE_OFF = 3,
    CANBUSD_STATE_DOWN = 4
};

/* The counts of a socket's items. */
typedef struct canbusd_stats {
    uint64_t queued;  /* items that were queued */
    uint64_t dropped; /* items that were dropped for lack of room */
    uint64_t taken;   /* items that were received */
} canbusd_stats;

/* The bus load. */
typedef struct canbusd_load {
    uint32_t permille;     /* how busy the wire was in the last whole second, in 1/1,000 */
    uint32_t bitrate;      /* 0 on a bus without bit rates, like all other fields */
    uint32_t data_bitrate; /* `bitrate` if the bus has no data bit rate */
    uint32_t unused;       /* 0 */
    uint64_t micros;       /* the total busy time in microseconds */
} canbusd_load;

/* The options of a socket, as in linux/can/raw.h. CANBUSD_ERR_FILTER is a mask of error classes, initially 0. Each
 * other option is off if it is 0, and otherwise on. CANBUSD_LOOPBACK is initially on: other sockets of the interface
 * receive the socket's frames. The remaining options are initially off: the socket does not receive its own frames,
 * accepts no FD frames, and receives every frame that matches at least one of its filters. */
enum {
    CANBUSD_ERR_FILTER = 2,
    CANBUSD_LOOPBACK = 3,
    CANBUSD_RECV_OWN_MSGS = 4,
    CANBUSD_FD_FRAMES = 5,
    CANBUSD_JOIN_FILTERS = 6
};

/* Creates a bus. `names` lists the interfaces of the bus, separated by commas: 1 to 16 different names, each of 1 to 15
 * ASCII letters, digits, `_`, `-` and `.`. The memory for the record is reserved now, but only touched as entries are
 * added. */
uint32_t canbusd_new(const char *names, const canbusd_config *config, canbusd **bus);

/* Frees a bus. The pointer may be NULL. */
void canbusd_free(canbusd *bus);

/* Opens a socket on an interface, with a receive queue for `capacity` items, which must be between 1 and 65,536. At
 * most 64 sockets may be open. A new socket receives every frame. */
uint32_t canbusd_open(canbusd *bus, uint32_t iface, uint32_t capacity, uint32_t *socket);

/* Closes a socket. Frames that the socket has put into the transmit queue stay there. `left` may be NULL. */
uint32_t canbusd_close(canbusd *bus, uint32_t socket, canbusd_closed *left);

/* Sets the filters of a socket, at most 512. If `count` is 0, the socket receives only error message frames, and
 * `filters` may be NULL. */
uint32_t canbusd_set_filters(canbusd *bus, uint32_t socket, const canbusd_filter *filters, size_t count);

/* Sets an option of a socket, such as CANBUSD_ERR_FILTER. */
uint32_t canbusd_set_option(canbusd *bus, uint32_t socket, uint32_t option, uint32_t value);

/* Puts a frame into the transmit queue of the socket's interface. `number` is set to how many frames were put there
 * earlier; it may be NULL. */
uint32_t canbusd_send(canbusd *bus, uint32_t socket, const canbusd_frame *frame, uint64_t *number);

/* Takes the oldest item from a socket's queue. Returns CANBUSD_NOTHING if the queue is empty. */
uint32_t canbusd_receive(canbusd *bus, uint32_t socket, canbusd_item *item);

/* Attempts to send the frame that wins arbitration at `moment`; the fault rules decide the result. On a bus with bit
 * rates the attempt begins at `moment`, or as soon as the wire is free after that. `tried` may be NULL. */
uint32_t canbusd_attempt(canbusd *bus, uint64_t moment, canbusd_tried *tried);

/* Performs attempts on a bus with bit rates, as long as the next attempt begins before `moment`. `made` is set to the
 * number of attempts; it may be NULL. If the call returns CANBUSD_RECORD_FULL, some attempts may have been made. */
uint32_t canbusd_run(canbusd *bus, uint64_t moment, uint64_t *made);

/* Restarts an interface that is bus off or down, and resets its error counters to 0. */
uint32_t canbusd_restart(canbusd *bus, uint32_t iface, uint64_t moment);

/* Sets an interface down. The frames in its transmit queue are lost. */
uint32_t canbusd_down(canbusd *bus, uint32_t iface, uint64_t moment);

/* Adds a fault rule, such as `next 1 from can0 id 123 lastbit`. A bus keeps at most 64 rules. */
uint32_t canbusd_inject(canbusd *bus, const char *rule);

/* Ends all rules. */
uint32_t canbusd_end_rules(canbusd *bus);

/* canbusd_get_status returns the state and counts of an interface, canbusd_get_stats the counts of a socket, and
 * canbusd_get_load the bus load before `moment`. */
uint32_t canbusd_get_status(canbusd *bus, uint32_t iface, canbusd_status *status);
uint32_t canbusd_get_stats(canbusd *bus, uint32_t socket, canbusd_stats *stats);
uint32_t canbusd_get_load(canbusd *bus, uint64_t moment, canbusd_load *load);

/* Writes the text of the record, which `canbusd audit` reads, into a buffer. It writes as much as fits, without a
 * terminating zero; `len` is set to the length of the whole text. If `room` is 0, `text` may be NULL.
 *
 * Each entry in the record is a call of canbusd_open, _close, _set_filters, _set_option, _send, _receive, _attempt,
 * _restart or _down, or an attempt that canbusd_run made. A call that the bus refused is also an entry, unless it
 * returned CANBUSD_RECORD_FULL or _NO_MEMORY. A call with invalid arguments, which returned for example
 * CANBUSD_BAD_FRAME, is not an entry. The record does not contain rules, only their verdicts. */
uint32_t canbusd_record(canbusd *bus, char *text, size_t room, size_t *len);

/* Creates a bench. `names` and `config` are as in canbusd_new, and `capacity` is the number of items for which a
 * session's socket has room; it must be between 1 and 65,536. If `shows_faults` is not 0, the output lines about
 * attempts show the faults. `faults` is NULL, or a text of `faults_len` bytes that contains a script and rules.
 *
 * Errors are checked in this order: _BAD_NAMES; _BAD_BIT_RATES; _BAD_CONFIG for `ack` and `reporting`; _BAD_LINE,
 * _NO_INTERFACE, _REPEATED_ATTEMPT and _TOO_MANY_RULES for a line in `faults`; _BAD_CONFIG for the other numbers and
 * for `capacity`. _NO_MEMORY can occur at any point. `line` is set to the number of the wrong line in `faults`,
 * starting at 1, or to 0 if no single line is wrong, for example if the text is not UTF-8. `line` may be NULL. */
uint32_t canbusd_bench_new(const char *names, const canbusd_config *config, uint32_t capacity, uint32_t shows_faults,
                           const char *faults, size_t faults_len, canbusd_bench **bench, size_t *line);

/* Frees a bench. The pointer may be NULL. */
void canbusd_bench_free(canbusd_bench *bench);

/* Executes lines one after another. Each line ends with LF, which may be missing at the end of the last line. As much
 * of the output as fits is written to `output`, without a terminating zero; `len` is set to the length of the whole
 * output. The output is kept until the next call, and canbusd_bench_output writes it again. If `room` is 0, `output`
 * may be NULL. A full record is not an error: the output reports it.
 *
 * After any error except CANBUSD_NULL, the lines before the error have been executed and their output is available.
 * `line` is set to the number of the wrong line, starting at 1 in every call, or to 0 if no line is wrong. `line` may
 * be NULL. After CANBUSD_BAD_LINE the bench continues as if the wrong line were absent, with one exception: a change
 * that the bus refused, such as `up can0` for an interface that is neither bus off nor down, is in the record. After
 * CANBUSD_NO_MEMORY a line may be half executed, and some output may be missing.
 *
 * A line has at most 4,096 bytes. The running time grows with the number of lines and the work that they do. Each call
 * allocates 8,192 bytes. */
uint32_t canbusd_bench_take(canbusd_bench *bench, const char *lines, size_t lines_len, char *output, size_t room,
                            size_t *len, size_t *line);

/* Writes the output of the last canbusd_bench_take again, in the same form as that call. */
uint32_t canbusd_bench_output(canbusd_bench *bench, char *output, size_t room, size_t *len);

/* canbusd_bench_record writes the text of the record, and canbusd_bench_log the log of the frames that attempts have
 * tried to send. Both write as canbusd_record does. The running time grows with the length of the record. */
uint32_t canbusd_bench_record(canbusd_bench *bench, char *text, size_t room, size_t *len);
uint32_t canbusd_bench_log(canbusd_bench *bench, char *text, size_t room, size_t *len);

/* Returns the error message for a code. The message is static. */
const char *canbusd_strerror(uint32_t code);

#ifdef __cplusplus
}
#endif

#endif
