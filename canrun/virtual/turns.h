/* Turns: which thread has the turn, how a thread waits for a turn, and how the next thread is chosen. Programs, bridges
 * and the coordinator share this file. */
#ifndef TURNS_H
#define TURNS_H

#include "run.h"

#include <signal.h>
#include <stdbool.h>

/* The memory of the run. NULL means that there is no virtual time, and that all calls are passed to the kernel. */
extern struct run *run;
extern int run_epoll;
/* The process ID of the coordinator. */
extern int coordinator_pid;

/* The number of slots that have ever been used. */
static inline uint32_t slots_used(void) {
    uint32_t used = run->used;
    return used < SLOTS ? used : SLOTS;
}
/* Returns the slot with this index. The index comes from the memory of the run and may be out of range. */
static inline struct slot *slot_at(uint32_t index) {
    return &run->slots[index % SLOTS];
}

/* Whether a thread waits for something that no thread of the run reports. TRIES_ON: the thread repeats such a wait. */
enum tries { TRIES_NOT, TRIES, TRIES_ON };

/* The data that a thread keeps about itself. */
struct my {
    struct slot *slot;
    uint32_t index;
    uint32_t is_deciding; /* while nonzero, a signal that arrives is handled later */
    uint32_t handled;     /* how many signals were handled */
    bool has_to_return;   /* a handler during this wait had no SA_RESTART */
    bool is_asynchronous; /* pthread_cancel may end the thread anywhere */
    enum tries tries;     /* whether a thread of the run will end this thread's next wait */
    bool has_tried;       /* the thread's last wait ended only to poll again, and the poll found nothing */
    uint32_t born;        /* the slot of a child that the thread is about to create */
    uint32_t looks;
    uint64_t looked_at, step;
    bool has_talked;
    bool has_acted; /* the thread made a call in this turn that may have made a descriptor ready */
};
extern __thread struct my my __attribute__((tls_model("initial-exec")));

/* The rank of a thread of a program, of a bridge, of a server that uses sockets, or of a server that only drives a bus.
 * The thread with the lowest rank goes first. */
enum { RANK_PROGRAM, RANK_BRIDGE, RANK_SESSION, RANK_DRIVER };
extern bool is_server, is_bridge;

/* Draws a random number for a thread. The number depends on the seed, the test, the index of the thread's birth, `what`
 * and `times`. */
enum chance { CHANCE_ORDER, CHANCE_JITTER, CHANCE_BYTES, CHANCES };
uint64_t draw(const struct slot *slot, enum chance what, uint64_t times);

/* Begins a test. From then on, random numbers depend on the test's name and on the ages of the existing threads, but on
 * nothing that happened earlier. */
void begin_test(const char *name);

/* Returns the slot of this thread. If the thread has no slot, it gets one. */
struct slot *my_slot(void);

/* Takes the lowest free slot for a new thread or process, so that the slot is the same in every run. */
uint32_t take_slot(void);
void free_slot(struct slot *slot);

/* Starts this thread in this slot, and waits for the thread's first turn. */
void begin_slot(uint32_t index);

/* Waits until the deadline, or until an event that sets flags. Returns the flags. `deadline` may be NEVER. */
uint32_t wait_turn(uint64_t deadline, uint64_t key, enum kind kind);

/* Lets all other threads run that can run at the current virtual time. */
void yield_turn(void);

/* Waits for the turn if it was taken from this thread. */
void regain_turn(void);
bool has_turn(void);
void await_turn(void);

/* Ends this process if the coordinator has ended. */
void check_coordinator(void);

/* Wakes at most `most` threads that wait for this key, those with the longest wait first. */
void wake(uint64_t key, int most);

/* Makes all threads of a process that wait for descriptors poll again. If `pid` is 0, this applies to all processes. */
void wake_descriptors(uint32_t pid);

/* Defers asynchronous cancellation of this thread, or allows it again. The pointer is NULL if no thread of the process
 * can be cancelled asynchronously. */
extern void (*hold_cancel)(bool is_held);

/* Returns the virtual time this many nanoseconds from now. */
uint64_t after(uint64_t nanoseconds);

/* Returns the index of the slot that has the turn, or NOBODY. */
uint32_t turn_owner(void);

/* Gives the turn to another slot, or marks it with DECIDING, if the turn is still `turn`. Returns false if the turn has
 * changed. */
bool turn_change(uint64_t turn, uint32_t to);

/* Makes the owner of the turn start to choose the next turn. Returns false if the turn was taken back. */
bool begin_deciding(void);

/* Returns the index of the slot that can run next. Returns NOBODY if there is none; run->pause then contains the
 * reason. Only the thread that is choosing the next turn may call this function. */
uint32_t next_turn(bool ignores_outside);
void hand_turn(uint32_t index);

/* Wakes the thread whose turn it is now. */
void wake_owner(uint32_t index);

/* Makes the coordinator choose the next turn if no thread has the turn. */
void ring(void);

/* Waits until a process has handled all its signals or has ended, but not indefinitely. */
void settle(uint32_t pid);

/* Keys of waits. key_of is for memory of one process; the others are for objects that several processes share. */
uint64_t key_of(const volatile void *at, uint64_t salt);
uint64_t key_of_file(uint64_t device, uint64_t inode, uint64_t offset);
uint64_t key_of_number(uint64_t number);
uint64_t key_of_children(uint32_t pid);
uint64_t key_of_signals(uint32_t pid);

/* Handles the signals that arrived while this thread was choosing the next turn. The pointer is NULL if no program has
 * signal handlers. */
extern void (*handle_deferred)(void);
/* Requests the epoll from the coordinator. Returns false if there is no coordinator. */
bool register_process(void);
/* Asks the coordinator to send the signals of an alarm of this process. */
bool register_alarm(const struct alarm *alarm);

#endif
