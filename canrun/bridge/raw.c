/* CAN_RAW: options, filters, and frames in both directions. The server also stores the options and filters the frames.
 * If there are too many filters for one message to the server, the bridge filters the frames instead. */
#define _GNU_SOURCE
#include "bridge.h"

#include <errno.h>
#include <linux/can/error.h>
#include <linux/can/raw.h>
#include <stdio.h>
#include <stdlib.h>
#include <string.h>

/* CAN_RAW_XL_FRAMES, which older headers do not define. No interface supports CAN XL, but this option also enables FD
 * frames. */
#define RAW_XL_FRAMES 7
/* The maximum number of characters for the filters in a message to the server. The whole message may have 1024
 * characters. */
#define FILTER_TEXT 1000

static struct options options = {.loopback = 1};
static struct can_filter all_pass[1];
static struct can_filter *filters = all_pass;
static size_t filter_count = 1;
static unsigned filter_lists;
static bool filters_here; /* there are too many filters for the server */

/* ---- options ---- */

/* Returns whether a filter requests error message frames. As in the kernel, such a filter has CAN_ERR_FLAG in its mask.
 */
static bool is_of_errors(const struct can_filter *filter) {
    return filter->can_mask & CAN_ERR_FLAG;
}

/* Returns the effective filter, as in the kernel: a filter for 11-bit identifiers ignores the remaining identifier
 * bits. */
static struct can_filter reduced(const struct can_filter *filter) {
    struct can_filter result = *filter;
    if (filter->can_mask & CAN_EFF_FLAG && !(filter->can_id & CAN_EFF_FLAG)) {
        result.can_mask &= CAN_SFF_MASK | CAN_EFF_FLAG | CAN_RTR_FLAG;
    }
    result.can_id &= result.can_mask | CAN_INV_FILTER;
    return result;
}

static uint32_t error_classes(void) {
    uint32_t classes = options.errors;
    for (size_t i = 0; i < filter_count; i++) {
        classes |= is_of_errors(&filters[i]) ? filters[i].can_mask & CAN_ERR_MASK : 0;
    }
    return classes;
}

/* Writes the frame filters as a string. Returns the number of filters, or -1 if they do not fit. */
static int filter_words(char words[FILTER_TEXT + 20]) {
    size_t length = 0;
    int count = 0;
    words[0] = 0;
    for (size_t i = 0; i < filter_count; i++) {
        if (is_of_errors(&filters[i])) {
            continue;
        }
        struct can_filter filter = reduced(&filters[i]);
        length += (size_t)sprintf(words + length, " %X %X", filter.can_id, filter.can_mask);
        if (length > FILTER_TEXT) {
            return -1;
        }
        count++;
    }
    return count;
}

/* Writes the filter command. If there are too many filters, the command passes all frames; if `is_none` is true, it
 * passes none. */
static size_t filter_command(char *text, size_t size, bool is_none) {
    char words[FILTER_TEXT + 20] = " 0 0";
    int count = is_none ? 0 : filters_here ? 1 : filter_words(words);
    return (size_t)snprintf(text, size, "< filter %d%s >", count, is_none ? "" : words);
}

/* Whether the program's queue is full. If it is full, the server is told to queue nothing for the program. */
static bool is_full;

void raw_setup(struct session *session, char *text, size_t size) {
    struct options wanted = options, *given = &session->given;
    if (session->is_receiving && !is_full) {
        wanted.errors = error_classes();
        wanted.filters = filter_count ? wanted.filters : NO_FILTERS;
    } else {
        wanted.errors = 0;
        wanted.receive_own = 0;
        wanted.filters = NO_FILTERS;
    }
    size_t length = 0;
    text[0] = 0;
    if (wanted.filters != given->filters) {
        length += filter_command(text, size, wanted.filters == NO_FILTERS);
    }
    wanted.loopback = !!wanted.loopback;
    wanted.receive_own = !!wanted.receive_own;
    wanted.fd_frames = !!wanted.fd_frames;
    wanted.join = wanted.join && !filters_here;
    const struct {
        const char *command;
        uint32_t wanted, given;
    } all[] = {{"loopback", (uint32_t)wanted.loopback, (uint32_t)given->loopback},
               {"recvown", (uint32_t)wanted.receive_own, (uint32_t)given->receive_own},
               {"fdframes", (uint32_t)wanted.fd_frames, (uint32_t)given->fd_frames},
               {"join", (uint32_t)wanted.join, (uint32_t)given->join},
               {"errmask", wanted.errors, given->errors}};
    for (size_t i = 0; i < sizeof all / sizeof *all; i++) {
        if (all[i].wanted != all[i].given) {
            length += (size_t)snprintf(text + length, size - length, "< %s %X >", all[i].command, all[i].wanted);
        }
    }
    *given = wanted;
}

/* Returns a pointer to the variable of an option whose value is a single number, or NULL for other options. */
static void *place_of(int option) {
    switch (option) {
    case CAN_RAW_LOOPBACK: return &options.loopback;
    case CAN_RAW_RECV_OWN_MSGS: return &options.receive_own;
    case CAN_RAW_FD_FRAMES: return &options.fd_frames;
    case CAN_RAW_JOIN_FILTERS: return &options.join;
    case RAW_XL_FRAMES: return &options.xl_frames;
    case CAN_RAW_ERR_FILTER: return &options.errors;
    default: return NULL;
    }
}

static int set_filters(const void *value, size_t length) {
    char words[FILTER_TEXT + 20];
    if (length % sizeof *filters || length > CAN_RAW_FILTER_MAX * sizeof *filters) {
        return refused(EINVAL, "these are no filters, or more than 512");
    }
    struct can_filter *fresh = malloc(length + 1);
    if (!fresh) {
        return refused(ENOMEM, "no memory for filters");
    }
    if (length) {
        memcpy(fresh, value, length);
    }
    if (filters != all_pass) {
        free(filters);
    }
    filters = fresh;
    filter_count = length / sizeof *filters;
    filters_here = filter_words(words) < 0;
    options.filters = ++filter_lists;
    return 0;
}

static int raw_setsockopt(int option, const void *value, size_t length) {
    uint32_t number;
    if (option == CAN_RAW_FILTER) {
        int error = set_filters(value, length);
        return error ? error : sessions_apply();
    }
    void *place = place_of(option);
    if (!place) {
        return refused(ENOPROTOOPT, "linux/can/raw.h has no such option, or canbusd has it not");
    }
    if (length != sizeof number) {
        return refused(EINVAL, "the value has the wrong length");
    }
    memcpy(&number, value, sizeof number);
    number &= option == CAN_RAW_ERR_FILTER ? CAN_ERR_MASK : ~0u;
    memcpy(place, &number, sizeof number);
    options.fd_frames = options.xl_frames ? options.xl_frames : options.fd_frames;
    return sessions_apply();
}

static int raw_getsockopt(int option, void *room, uint32_t *length) {
    const void *place = option == CAN_RAW_FILTER ? filters : place_of(option);
    if (!place) {
        return refused(ENOPROTOOPT, "linux/can/raw.h has no such option, or canbusd has it not");
    }
    *length = option == CAN_RAW_FILTER ? (uint32_t)(filter_count * sizeof *filters) : (uint32_t)sizeof(uint32_t);
    memcpy(room, place, *length);
    return 0;
}

int raw_want(const struct can_filter *wanted, size_t count) {
    int error = set_filters(wanted, count * sizeof *wanted);
    return error ? error : sessions_apply();
}

void raw_want_fd(bool has_fd) {
    options.fd_frames = has_fd;
}

void raw_want_own(void) {
    options.receive_own = 1;
}

/* ---- frames ---- */

static bool waits;

__attribute__((constructor)) static void read_setting(void) {
    waits = getenv("CANBUSD_RUN_WAIT");
}

bool raw_waits(void) {
    return waits;
}

int raw_send(struct session *to, const struct canfd_frame *frame, bool is_fd, const struct later *later) {
    if (frame->len > (is_fd ? CANFD_MAX_DLEN : CAN_MAX_DLEN)) {
        return refused(EINVAL, "the frame is too long");
    }
    /* The server generates error message frames itself and accepts none. As with vcan, writing an error message frame
     * succeeds, but the frame is not sent. */
    if (frame->can_id & CAN_ERR_FLAG) {
        return 0;
    }
    return room_send(to, frame, is_fd, later);
}

bool raw_is_error(const void *data) {
    canid_t identifier;
    memcpy(&identifier, data, sizeof identifier);
    return identifier & CAN_ERR_FLAG;
}

/* In virtual time: tells the server to queue nothing for a program that would lose it, so that no thread uses a
 * scheduling turn for lost frames. */
static int64_t raw_due(void) {
    if (is_virtual() && outbox_is_full() != is_full) {
        is_full = !is_full;
        sessions_apply();
    }
    return -1;
}

int raw_write(int index, const void *data, size_t length, const struct later *later) {
    struct canfd_frame frame = {0};
    bool is_fd = length == CANFD_MTU;
    struct session *to = sessions_for(index == WIRE_BOUND ? bound_index : index);
    if (!to) {
        return ENXIO;
    }
    if (length != CAN_MTU && !(is_fd && options.fd_frames)) {
        return refused(EINVAL, is_fd ? "CAN_RAW_FD_FRAMES is off" : "a frame has 16 bytes, or 72");
    }
    memcpy(&frame, data, length);
    return raw_send(to, &frame, is_fd, later);
}

static int raw_sendmsg(const struct wire_request *request, const char *data, size_t length, int reply_to,
                       struct wire_reply *reply) {
    struct later later = request_later(request, reply_to, (int)length);
    /* If the reply contains one byte of data, the library prints a note that this frame is not sent. */
    reply->length = length >= CAN_MTU && raw_is_error(data);
    return raw_write(request->ifindex, data, length, request_waits(request, reply_to) ? &later : NULL);
}

static int raw_getname(struct sockaddr_can *address, bool is_peer) {
    (void)address;
    return is_peer ? refused(EOPNOTSUPP, "a socket of CAN_RAW has no peer") : 0;
}

static int raw_bind(const struct sockaddr_can *address) {
    return sessions_bind(address->can_ifindex);
}

/* Returns whether an identifier passes the filters, by the rule in linux/can.h. This is used for filters that do not
 * fit into a message to the server. */
static bool passes(canid_t identifier) {
    bool any = false, all = true;
    for (size_t i = 0; i < filter_count; i++) {
        struct can_filter filter = reduced(&filters[i]);
        canid_t differs = (identifier ^ filter.can_id) & filter.can_mask & ~CAN_INV_FILTER;
        bool matches = !differs != !!(filter.can_id & CAN_INV_FILTER);
        if (!is_of_errors(&filters[i])) {
            any |= matches;
            all &= matches;
        }
    }
    return options.join ? all : any;
}

static void raw_receive(const struct item *item, int index) {
    if (filters_here && !(item->frame.can_id & CAN_ERR_FLAG) && !passes(item->frame.can_id)) {
        return;
    }
    outbox_put(&item->frame, item->is_fd ? CANFD_MTU : CAN_MTU, item->moment, index, item->message_flags);
}

const struct protocol raw_protocol = {
    .bind = raw_bind,
    .getname = raw_getname,
    .setsockopt = raw_setsockopt,
    .getsockopt = raw_getsockopt,
    .sendmsg = raw_sendmsg,
    .takes = quick_serve,
    .receive = raw_receive,
    .due = raw_due,
};
