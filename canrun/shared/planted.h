/* A fault that a sweep injects at the sockets of an interface:
 *
 *     CANBUSD_RUN_FAULT="KIND NAME IDENTIFIER MOMENT"
 *
 * NAME is the interface, IDENTIFIER has 3 or 8 hexadecimal digits, and MOMENT is a timestamp in seconds with six digits
 * after the point. KIND selects the fault. The bridge loses or delays received frames; the library refuses writes. */
#ifndef CANBUSD_PLANTED_H
#define CANBUSD_PLANTED_H

#include <linux/can.h>
#include <stdbool.h>
#include <stdint.h>

#define PLANTED_SETTING "CANBUSD_RUN_FAULT"

enum planted_kind {
    PLANTED_NONE,
    PLANTED_MISSED, /* the frame with this timestamp is lost, as in an overrun */
    PLANTED_LATE,   /* the frame arrives PLANTED_DELAY later */
    PLANTED_FULL    /* the first write of such a frame at or after this timestamp fails, because there is no room */
};

/* The delay of a PLANTED_LATE frame in milliseconds. */
#define PLANTED_DELAY 10

struct planted {
    enum planted_kind kind;
    int index; /* the interface's index */
    canid_t identifier;
    uint64_t moment; /* nanoseconds since 1970 */
};

/* Reads the fault from the environment. If there is none, the returned kind is PLANTED_NONE. */
struct planted planted_read(void);

/* Returns whether the fault applies to frames with this identifier on this interface. */
bool planted_is_of(const struct planted *planted, int index, canid_t identifier);

#endif
