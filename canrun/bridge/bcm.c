/* CAN_BCM, the broadcast manager: handles the writes of a program. A write creates, changes or deletes a task. A TX
 * task sends frames repeatedly; an RX task reports received frames only if they have changed. */
#include "bcm.h"

#include <errno.h>
#include <linux/can/raw.h>
#include <stdlib.h>
#include <string.h>

#define MOST_FRAMES 256
#define HEAD sizeof(struct bcm_head)

struct bcm_task *bcm_tasks;

/* Returns a pointer to the list link of the task that a message is about, or to the NULL link at the end if there is no
 * such task. */
static struct bcm_task **find(const struct bcm_head *head, int index, bool is_rx) {
    struct bcm_task **place = &bcm_tasks;
    while (*place && !((*place)->is_rx == is_rx && (*place)->head.can_id == head->can_id && (*place)->index == index &&
                       bcm_is_fd(*place) == !!(head->flags & CAN_FD_FRAME))) {
        place = &(*place)->next;
    }
    return place;
}

/* Sets the filters of the sessions so that they receive only the frames that the tasks use. */
static int want_all(void) {
    static struct can_filter filters[CAN_RAW_FILTER_MAX];
    size_t count = 0;
    for (const struct bcm_task *task = bcm_tasks; task && count < CAN_RAW_FILTER_MAX; task = task->next) {
        canid_t id = task->head.can_id;
        canid_t mask = (id & CAN_EFF_FLAG ? CAN_EFF_MASK : CAN_SFF_MASK) | CAN_EFF_FLAG | CAN_RTR_FLAG;
        if (task->is_rx) {
            filters[count++] = (struct can_filter){id, mask};
        }
    }
    return raw_want(filters, count);
}

/* The part of a message after its header. */
struct rest {
    const char *data;
    size_t length;
};

/* Copies the frames of a message into a task. If frames are missing, returns EFAULT, as for memory that cannot be read.
 */
static int copy_frames(struct bcm_task *task, const struct bcm_head *head, struct rest rest) {
    const char *data = rest.data;
    size_t each = bcm_frame_size(head->flags);
    if (head->nframes > rest.length / each) {
        return refused(EFAULT, "frames are missing");
    }
    for (uint32_t i = 0; i < head->nframes; i++, data += each) {
        memcpy(&task->frames[i], data, each);
        if (task->frames[i].len > (bcm_is_fd(task) ? CANFD_MAX_DLEN : CAN_MAX_DLEN)) {
            return refused(EINVAL, "a frame is too long");
        }
        if (!task->is_rx && head->flags & TX_CP_CAN_ID) {
            task->frames[i].can_id = head->can_id;
        }
    }
    return 0;
}

static void free_task(struct bcm_task *task) {
    if (task) {
        free(task->last);
        free(task);
    }
}

/* Creates a task that has no frames, timers or count yet. */
static struct bcm_task *new_task(const struct bcm_head *head, int index, bool is_rx) {
    size_t count = head->nframes ? head->nframes : 1;
    struct bcm_task *task = calloc(1, sizeof *task + count * sizeof *task->frames);
    struct bcm_last *last = is_rx ? calloc(count, sizeof *last) : NULL;
    if (!task || (is_rx && !last)) {
        free(task);
        free(last);
        return NULL;
    }
    task->is_rx = is_rx;
    task->index = index;
    task->last = last;
    task->head = (struct bcm_head){.flags = head->flags, .can_id = head->can_id, .nframes = head->nframes};
    return task;
}

/* Replaces the header of a task with the header of a message. The count and the timers are replaced only if SETTIMER is
 * set. */
static void change_head(struct bcm_task *task, const struct bcm_head *head) {
    struct bcm_head before = task->head;
    if (head->nframes != before.nframes || head->flags & TX_RESET_MULTI_IDX) {
        task->at = 0;
    }
    task->head = *head;
    if (!(head->flags & SETTIMER)) {
        task->head.count = before.count;
        task->head.ival1 = before.ival1;
        task->head.ival2 = before.ival2;
    }
    if (task->is_rx) {
        memset(task->last, 0, head->nframes * sizeof *task->last);
        task->head.count = 0;
    }
    if (head->flags & SETTIMER) {
        task->detected = 0;
    }
}

/* Returns whether a time is invalid or longer than 400 days. */
static bool is_bad(struct bcm_timeval time) {
    return time.tv_sec < 0 || time.tv_sec > 400 * 24 * 60 * 60 || time.tv_usec < 0 || time.tv_usec >= 1000000;
}

/* Creates the task of this message with its frames, or changes the task if it already exists. */
static int set_up(const struct bcm_head *head, struct rest rest, int index, bool is_rx, struct bcm_task **made) {
    struct bcm_task **place = find(head, index, is_rx), *fresh = NULL;
    if (head->flags & SETTIMER && (is_bad(head->ival1) || is_bad(head->ival2))) {
        return refused(EINVAL, "a time is below 0, above 400 days, or has a million microseconds");
    }
    if (*place && head->nframes > (*place)->head.nframes) {
        return refused(E2BIG, "a task can't get more frames");
    }
    if (!*place && !(fresh = new_task(head, index, is_rx))) {
        return refused(ENOMEM, "no memory for a task");
    }
    struct bcm_task *task = fresh ? fresh : *place;
    int error = copy_frames(task, head, rest);
    if (error) {
        free_task(fresh);
        return error;
    }
    change_head(task, head);
    *place = *made = task;
    return 0;
}

static int set_up_tx(const struct bcm_head *head, struct rest rest, int index) {
    struct bcm_task *task;
    if (!index) {
        return refused(ENODEV, "to send, a task needs an interface");
    }
    if (head->nframes < 1 || head->nframes > MOST_FRAMES) {
        return refused(EINVAL, "a task has 1 to 256 frames");
    }
    int error = set_up(head, rest, index, false, &task);
    if (error) {
        return error;
    }
    if (head->flags & SETTIMER && !bcm_nanoseconds(head->ival1) && !bcm_nanoseconds(head->ival2)) {
        task->due = 0;
    }
    task->head.flags |= head->flags & STARTTIMER ? TX_ANNOUNCE : 0;
    if (task->head.flags & TX_ANNOUNCE) {
        bcm_send_next(task);
    }
    if (head->flags & STARTTIMER) {
        task->due = bcm_due_after(task, clock_now());
    }
    return 0;
}

static int set_up_rx(struct bcm_head *head, struct rest rest, int index) {
    struct bcm_task *task;
    if (head->flags & RX_FILTER_ID || !head->nframes) {
        head->flags |= RX_FILTER_ID;
        head->nframes = 0;
    }
    if (head->nframes > MOST_FRAMES + 1) {
        return refused(EINVAL, "a task has at most 257 frames");
    }
    if (head->flags & RX_RTR_FRAME && (head->nframes != 1 || !(head->can_id & CAN_RTR_FLAG))) {
        return refused(EINVAL, "RX_RTR_FRAME needs one frame, and CAN_RTR_FLAG");
    }
    int error = set_up(head, rest, index, true, &task);
    if (error) {
        return error;
    }
    if (head->flags & RX_RTR_FRAME && (head->flags & TX_CP_CAN_ID || task->frames[0].can_id == head->can_id)) {
        task->frames[0].can_id = head->can_id & ~CAN_RTR_FLAG;
    }
    if (head->flags & SETTIMER) {
        task->reported = task->held_until = 0;
    }
    if (head->flags & STARTTIMER && bcm_nanoseconds(task->head.ival1)) {
        task->due = clock_now() + bcm_nanoseconds(task->head.ival1);
    } else if (!bcm_nanoseconds(task->head.ival1)) {
        task->due = 0;
    }
    return want_all();
}

static int delete_task(const struct bcm_head *head, int index, bool is_rx) {
    struct bcm_task **place = find(head, index, is_rx), *task = *place;
    if (!task) {
        return refused(EINVAL, "there is no such task");
    }
    *place = task->next;
    free_task(task);
    return is_rx ? want_all() : 0;
}

static int read_task(const struct bcm_head *head, int index, bool is_rx) {
    const struct bcm_task *task = *find(head, index, is_rx);
    if (!task) {
        return refused(EINVAL, "there is no such task");
    }
    bcm_inform(task, is_rx ? RX_STATUS : TX_STATUS, task->frames, task->head.nframes, 0, index);
    outbox_flush();
    return 0;
}

static int send_once(const struct bcm_head *head, struct rest rest, int index, const struct later *later) {
    struct canfd_frame frame = {0};
    if (head->nframes != 1 || rest.length != bcm_frame_size(head->flags)) {
        return refused(EINVAL, "TX_SEND sends one frame");
    }
    memcpy(&frame, rest.data, rest.length);
    struct session *to = index ? sessions_for(index) : NULL;
    return to ? raw_send(to, &frame, head->flags & CAN_FD_FRAME, later)
              : refused(ENODEV, "to send, a task needs an interface");
}

static int bcm_sendmsg(const struct wire_request *request, const char *data, size_t length, int reply_to,
                       struct wire_reply *reply) {
    struct bcm_head head;
    struct later later = request_later(request, reply_to, (int)length);
    if (!is_bound) {
        return refused(ENOTCONN, "connect comes first");
    }
    if (length < HEAD) {
        return refused(EINVAL, "the message has no head");
    }
    memcpy(&head, data, HEAD);
    struct rest rest = {data + HEAD, length - HEAD};
    int index = bound_index ? bound_index : request->ifindex == WIRE_BOUND ? 0 : request->ifindex;
    bool has_frames = head.opcode == TX_SETUP || (head.opcode == RX_SETUP && !(head.flags & RX_FILTER_ID));
    if (rest.length % bcm_frame_size(head.flags)) {
        return refused(EINVAL, "frames are of the wrong size");
    }
    reply->value = (int32_t)(HEAD + (has_frames               ? head.nframes * bcm_frame_size(head.flags)
                                     : head.opcode == TX_SEND ? rest.length
                                                              : 0));
    switch (head.opcode) {
    case TX_SETUP: return set_up_tx(&head, rest, index);
    case RX_SETUP: return set_up_rx(&head, rest, index);
    case TX_DELETE: return delete_task(&head, index, false);
    case RX_DELETE: return delete_task(&head, index, true);
    case TX_READ: return read_task(&head, index, false);
    case RX_READ: return read_task(&head, index, true);
    case TX_SEND: return send_once(&head, rest, index, request_waits(request, reply_to) ? &later : NULL);
    default: return refused(EINVAL, "the broadcast manager has no such message");
    }
}

static void bcm_open(void) {
    raw_want(NULL, 0);
    raw_want_fd(true);
    raw_want_own();
}

static int bcm_connect(const struct sockaddr_can *address) {
    return is_bound ? refused(EISCONN, "the socket is connected already") : sessions_bind(address->can_ifindex);
}

const struct protocol bcm_protocol = {
    .open = bcm_open,
    .connect = bcm_connect,
    .sendmsg = bcm_sendmsg,
    .receive = bcm_receive,
    .due = bcm_due,
};
