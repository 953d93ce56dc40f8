/* CAN_BCM: runs the tasks. A TX task sends its frames repeatedly. An RX task reports frames that have changed or have
 * not arrived in time. */
#include "bcm.h"

#include <string.h>

void bcm_inform(const struct bcm_task *task, uint32_t opcode, const struct canfd_frame *frames, uint32_t count,
                uint64_t moment, int index) {
    static char data[WIRE_LARGEST];
    size_t each = bcm_frame_size(task->head.flags);
    struct bcm_head head = task->head;
    head.opcode = opcode;
    head.nframes = count;
    memcpy(data, &head, sizeof head);
    for (uint32_t i = 0; i < count; i++) {
        memcpy(data + sizeof head + i * each, &frames[i], each);
    }
    outbox_put(data, sizeof head + count * each, moment, index, 0);
}

/* ---- sending ---- */

void bcm_send_next(struct bcm_task *task) {
    struct session *to = sessions_for(task->index);
    if (to) {
        raw_send(to, &task->frames[task->at], bcm_is_fd(task), NULL);
    }
    task->at = (task->at + 1) % task->head.nframes;
    task->head.count -= task->head.count > 0;
}

uint64_t bcm_due_after(const struct bcm_task *task, uint64_t moment) {
    uint64_t first = bcm_nanoseconds(task->head.ival1), then = bcm_nanoseconds(task->head.ival2);
    uint64_t pause = first && task->head.count ? first : then;
    return pause ? moment + pause : 0;
}

static void send_due(struct bcm_task *task, uint64_t now) {
    bool is_counted = bcm_nanoseconds(task->head.ival1) && task->head.count;
    uint64_t due = task->due;
    bcm_send_next(task);
    if (is_counted && !task->head.count && task->head.flags & TX_COUNTEVT) {
        bcm_inform(task, TX_EXPIRED, NULL, 0, 0, task->index);
    }
    /* If a frame is sent late, the next one is still sent on time, unless the delay exceeds a period. */
    task->due = bcm_due_after(task, due);
    if (task->due && task->due <= now) {
        task->due = bcm_due_after(task, now);
    }
}

/* ---- receiving ---- */

static void hand_over(struct bcm_task *task, struct bcm_last *last, uint64_t moment, int index) {
    last->is_held = false;
    bcm_inform(task, RX_CHANGED, &last->frame, 1, moment, index);
}

/* Reports a new or changed frame to the program, either at once or at the end of the throttle period. */
static void has_changed(struct bcm_task *task, struct bcm_last *last, const struct item *item, int index) {
    uint64_t pause = bcm_nanoseconds(task->head.ival2), now = clock_now();
    last->frame = item->frame;
    last->is_received = last->is_held = true;
    if (!pause) {
        hand_over(task, last, item->moment, index);
    } else if (!task->held_until && task->reported && now - task->reported < pause) {
        task->held_until = task->reported + pause;
    } else if (!task->held_until) {
        hand_over(task, last, item->moment, index);
        task->reported = now;
    }
}

/* Called at the end of a throttle period. Reports the frames that were held back. If there were none, throttling ends.
 */
static void release(struct bcm_task *task, uint64_t now) {
    bool has_any = false;
    for (unsigned i = 0; i < (task->head.nframes ? task->head.nframes : 1); i++) {
        if (task->last[i].is_held) {
            hand_over(task, &task->last[i], 0, task->index);
            has_any = true;
        }
    }
    task->held_until = has_any ? now + bcm_nanoseconds(task->head.ival2) : 0;
    task->reported = has_any ? task->reported : 0;
}

/* Returns whether two frames differ in the bits of the mask. Like the kernel, it compares whole words of 8 bytes. */
static bool differs(const struct canfd_frame *mask, const struct canfd_frame *one, const struct canfd_frame *other,
                    unsigned length) {
    for (unsigned i = 0; i < (length + 7) / 8 * 8; i++) {
        if ((one->data[i] ^ other->data[i]) & mask->data[i]) {
            return true;
        }
    }
    return false;
}

static void compare(struct bcm_task *task, unsigned at, const struct item *item, int index) {
    struct bcm_last *last = &task->last[at];
    const struct canfd_frame *frame = &item->frame;
    if (!last->is_received || differs(&task->frames[at], frame, &last->frame, frame->len) ||
        (task->head.flags & RX_CHECK_DLC && frame->len != last->frame.len)) {
        has_changed(task, last, item, index);
    }
}

/* Compares a received frame for a task with several frames. Frame 0 is the multiplex mask: the received frame is
 * compared with the first frame that has the same bits under this mask. */
static void compare_multiplex(struct bcm_task *task, const struct item *item, int index) {
    for (unsigned i = 1; i < task->head.nframes; i++) {
        if (!differs(&task->frames[0], &item->frame, &task->frames[i], CAN_MAX_DLEN)) {
            compare(task, i, item, index);
            return;
        }
    }
}

static void receive(struct bcm_task *task, const struct item *item, int index) {
    if (task->head.flags & RX_RTR_FRAME) {
        /* bcm_due sends the reply, because nothing can be sent while input is being read. */
        task->asked++;
        task->due = clock_now();
        return;
    }
    if (task->head.flags & RX_FILTER_ID) {
        has_changed(task, &task->last[0], item, index);
    } else if (task->head.nframes == 1) {
        compare(task, 0, item, index);
    } else {
        compare_multiplex(task, item, index);
    }
    if (!(task->head.flags & RX_NO_AUTOTIMER)) {
        uint64_t limit = bcm_nanoseconds(task->head.ival1);
        task->due = limit ? clock_now() + limit : 0;
    }
}

/* Returns whether the task receives frames from this interface. */
static bool is_from(struct bcm_task *task, int index) {
    bool is_timed = bcm_nanoseconds(task->head.ival1) || bcm_nanoseconds(task->head.ival2);
    if (task->index || task->head.flags & RX_RTR_FRAME || !is_timed) {
        return !task->index || task->index == index;
    }
    task->detected = task->detected ? task->detected : index;
    return task->detected == index;
}

void bcm_receive(const struct item *item, int index) {
    for (struct bcm_task *task = bcm_tasks; task; task = task->next) {
        if (task->is_rx && task->head.can_id == item->frame.can_id && bcm_is_fd(task) == item->is_fd &&
            is_from(task, index)) {
            task->due = 0;
            receive(task, item, index);
        }
    }
}

/* Reports that no frame has arrived in time. With RX_ANNOUNCE_RESUME the next frame then counts as new. */
static void time_out(struct bcm_task *task) {
    if (task->head.flags & RX_ANNOUNCE_RESUME) {
        memset(task->last, 0, (task->head.nframes ? task->head.nframes : 1) * sizeof *task->last);
    }
    bcm_inform(task, RX_TIMEOUT, NULL, 0, 0, task->index);
}

static void do_due(struct bcm_task *task, uint64_t now) {
    if (!task->is_rx) {
        send_due(task, now);
        return;
    }
    task->due = 0;
    if (task->head.flags & RX_RTR_FRAME) {
        struct session *to = sessions_for(task->index ? task->index : bound_index);
        for (; to && task->asked; task->asked--) {
            raw_send(to, &task->frames[0], bcm_is_fd(task), NULL);
        }
    } else {
        time_out(task);
    }
}

int64_t bcm_due(void) {
    uint64_t now = clock_now(), next = 0;
    for (struct bcm_task *task = bcm_tasks; task; task = task->next) {
        if (task->due && task->due <= now) {
            do_due(task, now);
        }
        if (task->held_until && task->held_until <= now) {
            release(task, now);
        }
        uint64_t soonest =
            task->held_until && (!task->due || task->held_until < task->due) ? task->held_until : task->due;
        next = soonest && (!next || soonest < next) ? soonest : next;
    }
    outbox_flush();
    now = clock_now();
    return !next ? -1 : next > now ? (int64_t)(next - now) : 0;
}
