/* The timers of CAN_ISOTP. In the kernel a timer depends only on the clock, because the kernel does not wait for a
 * processor when a frame arrives. Here each server thread that forwards a frame has to wait for a processor, and so
 * does the bridge at the other end. Therefore a timer runs in steps. A step ends when two things have happened. First,
 * the server has replied to several queries in a row, which takes more scheduling turns than a frame and the reply to
 * it. Second, all frames that the server had received for this socket have arrived. So a frame that was on the bus in
 * time is never missed. If no process has to wait for a processor, the queries take less than a millisecond. */
#include "isotp.h"

#define STEP (SECOND / 10)
#define ROUNDS 10

void isotp_timer_start(struct isotp_timer *timer, unsigned seconds) {
    *timer = (struct isotp_timer){seconds * (unsigned)(SECOND / STEP), clock_now() + STEP, 0};
}

void isotp_timer_stop(struct isotp_timer *timer) {
    timer->due = 0;
}

static void ask(struct isotp_timer *timer) {
    if (session_count) {
        session_ask_all(sessions[0]);
    }
    timer->rounds++;
}

/* Returns whether a step has ended. It does not wait for a server that is gone or does not reply. */
static bool step_is_over(struct isotp_timer *timer, uint64_t now) {
    if (!timer->rounds && timer->due <= now) {
        ask(timer);
        timer->due = now + PATIENCE * SECOND;
    }
    while (timer->rounds && timer->due > now && session_count) {
        if (!session_has_all(sessions[0])) {
            return false;
        }
        if (timer->rounds == ROUNDS) {
            return true;
        }
        ask(timer);
    }
    return timer->rounds;
}

bool isotp_timer_is_over(struct isotp_timer *timer) {
    uint64_t now = timer->due ? clock_now() : 0;
    if (!timer->due || !step_is_over(timer, now)) {
        return false;
    }
    timer->steps--;
    timer->rounds = 0;
    timer->due = timer->steps ? now + STEP : 0;
    return !timer->steps;
}
