/* Declarations for CAN_BCM: bcm.c handles the writes of a program, and bcm_tasks.c runs the tasks. The rules are the
 * same as in net/can/bcm.c in the kernel. */
#ifndef BCM_H
#define BCM_H

#include "bridge.h"

#include <linux/can/bcm.h>

/* The header of a message: struct bcm_msg_head without the frames that follow it. */
struct bcm_head {
    uint32_t opcode, flags, count;
    struct bcm_timeval ival1, ival2;
    canid_t can_id;
    uint32_t nframes;
};
_Static_assert(sizeof(struct bcm_head) == sizeof(struct bcm_msg_head), "the head of linux/can/bcm.h");

/* The last received frame that matches one of the frames of an RX task. */
struct bcm_last {
    struct canfd_frame frame;
    bool is_received, is_held; /* the throttle holds the frame back */
};

struct bcm_task {
    struct bcm_task *next;
    bool is_rx;
    int index;            /* the task's interface; 0: an RX task for all interfaces */
    struct bcm_head head; /* with the current flags, timers and count */
    unsigned at;          /* the index of the frame that is sent next */
    uint64_t due;         /* when the next frame or the timeout is due; 0: never */
    uint64_t held_until;  /* the end of the throttle; 0: the throttle is off */
    uint64_t reported;    /* when the program last got a frame */
    unsigned asked;       /* how many remote frames have not been answered yet */
    int detected; /* for an RX task of all interfaces that has timers: the interface of its first frame. The task then
                     receives only from this interface */
    struct bcm_last *last; /* one entry for each frame of an RX task */
    struct canfd_frame frames[];
};

/* The tasks of the socket. */
extern struct bcm_task *bcm_tasks;

static inline uint64_t bcm_nanoseconds(struct bcm_timeval time) {
    return (uint64_t)time.tv_sec * SECOND + (uint64_t)time.tv_usec * 1000;
}

static inline bool bcm_is_fd(const struct bcm_task *task) {
    return task->head.flags & CAN_FD_FRAME;
}

static inline size_t bcm_frame_size(uint32_t flags) {
    return flags & CAN_FD_FRAME ? CANFD_MTU : CAN_MTU;
}

/* ---- bcm_tasks.c ---- */

/* Sends the program a message with this opcode and these frames. */
void bcm_inform(const struct bcm_task *task, uint32_t opcode, const struct canfd_frame *frames, uint32_t count,
                uint64_t moment, int index);

/* Sends the next frame of a task. As in the kernel, errors are not reported. */
void bcm_send_next(struct bcm_task *task);

/* Returns when the first frame after the time `moment` is due; 0 means never. */
uint64_t bcm_due_after(const struct bcm_task *task, uint64_t moment);

void bcm_receive(const struct item *item, int index);
int64_t bcm_due(void);

#endif
