/* The state that all threads of a run in virtual time share: one block of memory, and one epoll.
 *
 * One thread of the run has the turn: it runs, and the clock does not move. All other threads sleep, each on a word in
 * its slot. A thread that must wait (for a deadline, a descriptor, a lock or a child) describes the wait in its slot.
 * Then it gives the turn to the next thread that can continue. If there is none, the clock moves to the earliest
 * deadline of a waiting thread. Each thread registers the descriptors that it waits for in the epoll, which reports
 * those that are ready. So no thread has to find out which threads sleep, and the order is the same in every run.
 *
 * This library does not see some waits: those inside the C library, and those of programs that do not load this
 * library. A thread in such a wait is `outside`. The coordinator finds that the thread with the turn sleeps, takes the
 * turn back, and checks /proc before the clock moves. */
#ifndef RUN_H
#define RUN_H

#include <stdbool.h>
#include <stdint.h>

#define RUN_MAGIC 0x3276646273756e63ull
#define SLOTS 2048
#define ALARMS 256
#define PORTS 65536
#define NEVER UINT64_MAX
#define SECOND 1000000000ull
/* The value of CLOCK_MONOTONIC at the start of the run. */
#define UPTIME (1000 * SECOND)
/* The turn has three parts. The low bits are the index of the slot that has the turn; NOBODY means that the coordinator
 * has it. DECIDING means that the owner of the turn is choosing the next turn. The high bits count how often a slot got
 * the turn, so that no two turns are equal. Turns of the coordinator are not counted, because their number depends on
 * the machine, for example if a new thread begins late. */
#define NOBODY 0x7fffffu
#define DECIDING 0x800000u
#define TURN_BITS 24

enum state {
    SLOT_FREE,
    SLOT_BORN,    /* a thread or process that has been created but has not begun yet */
    SLOT_READY,   /* the thread only waits for its turn */
    SLOT_RUNS,    /* the thread has the turn */
    SLOT_WAITS,   /* the thread waits; the other fields describe the wait */
    SLOT_OUTSIDE, /* the thread sleeps in a call that this library does not see, or its program lacks the library */
    SLOT_TAKEN,   /* a thread is filling the slot */
};

/* The events of a waiting thread. No event, or IS_OVER, means that the thread's deadline has passed. LOOKS_AGAIN: a
 * signal or a timer of the thread's process. IS_CANCELLED: pthread_cancel. TRIES_AGAIN: see `tries`. */
enum {
    HAS_EVENT = 1,
    IS_WOKEN = 2,
    IS_INTERRUPTED = 4,
    IS_OVER = 8,
    LOOKS_AGAIN = 16,
    IS_CANCELLED = 32,
    TRIES_AGAIN = 64
};

/* What a thread waits for, for use in messages. */
enum kind {
    KIND_MOMENT,
    KIND_DESCRIPTOR,
    KIND_LOCK,
    KIND_CHILD,
    KIND_SIGNAL,
    KIND_INTERPRETER,
    KIND_KERNEL /* a file lock, queue or semaphore that only the kernel tracks */
};

/* The first fields are those that are read in all slots whenever the next turn is chosen. */
struct slot {
    _Atomic uint32_t go; /* the word on which the thread sleeps: how often the thread got the turn */
    _Atomic uint32_t state;
    _Atomic uint32_t flags;
    uint32_t rank;       /* the thread with the lowest rank goes first */
    uint32_t generation; /* the number of the thread's current wait for descriptors */
    uint32_t kind;
    uint32_t tries; /* the thread must poll once more before the clock moves, because no thread wakes it */
    _Atomic uint32_t pid;
    _Atomic uint64_t deadline; /* in nanoseconds of virtual time, or NEVER */
    _Atomic uint64_t key;      /* the key of the lock, child or thread that this thread waits for */
    uint64_t ticket;           /* the thread's position among the threads that can continue; 0: not assigned yet */
    uint64_t number;           /* counts births, or the ages when a test began; random numbers depend on it */
    uint64_t waits, reads;     /* since birth or the test's start: how often it waited and read random bytes */
    uint64_t since;            /* the number of this wait in the run; the oldest wait is woken first */
    uint64_t tried;            /* the value of `progress` when the thread last polled */
    uint64_t thread;           /* pthread_self */
    uint64_t go_at;            /* the address of `go` in the thread's process */
    _Atomic uint32_t tid;
    uint32_t parent;             /* the parent of a new process */
    uint32_t bits;               /* the bits of a wait on a word: FUTEX_WAIT_BITSET */
    _Atomic uint32_t is_foreign; /* a program that does not load this library */
} __attribute__((aligned(128)));

/* A timer that sends a signal: alarm, setitimer, timer_create. INTERVAL_TIMER is the ID of the timer for alarm and
 * setitimer; timers of timer_create have other IDs. */
#define INTERVAL_TIMER 1
struct alarm {
    _Atomic uint32_t pid; /* 0: unused */
    uint32_t tid;         /* 0: the signal goes to the process */
    int32_t number;
    uint32_t id;
    uint64_t value;
    _Atomic uint64_t deadline;
    uint64_t period;
    uint32_t overrun;
};

/* A request from a process to the coordinator to send the signals of this alarm. With NO_ALARM the process requests the
 * run's epoll. The connection identifies the process. */
#define NO_ALARM ALARMS
struct request {
    uint32_t alarm, tid;
    int32_t number;
};

/* A timer that programs read: a timerfd. Its descriptor is a kernel timer that never runs, and the kernel timer's
 * interval contains `number`. So every process that has a descriptor of the timer can find this struct. */
#define TIMERS 1024
struct timer {
    _Atomic uint32_t number; /* 0: unused; its index in `timers` is the number modulo TIMERS */
    uint32_t owner;          /* the process that created the timer */
    uint32_t is_shared;      /* other processes may have the timer */
    int32_t clock;
    uint64_t deadline, period;
    uint64_t unread; /* how many expirations were unread at the last expiry */
};

/* A message that a process asks the coordinator to print: see tell.h. */
#define NOTICES 8
#define NOTICE 640
enum notice_state { NOTICE_NONE, NOTICE_BEGUN, NOTICE_READY };
struct notice {
    _Atomic uint32_t state;
    uint32_t ends_run;
    char text[NOTICE];
};

/* The reason why no thread has the turn. */
enum pause { PAUSE_NONE, PAUSE_BIRTH, PAUSE_OUTSIDE, PAUSE_ALARM, PAUSE_IDLE, PAUSE_UNTIL };

struct run {
    uint64_t magic;
    uint64_t epoch; /* CLOCK_REALTIME at the start */
    uint64_t until;
    uint64_t seed;     /* 0: threads continue in the order of their births */
    uint64_t test;     /* a hash of the current test's name, which is added to the seed */
    uint64_t jitter;   /* the largest number of nanoseconds by which a timed wait is extended */
    uint64_t terminal; /* the device of the terminal from which the run was started, or 0 */
    uint32_t has_ended;
    _Atomic uint32_t has_failed; /* a line was printed that explains why the run cannot continue */
    _Atomic uint64_t now __attribute__((aligned(64)));
    _Atomic uint64_t turn;
    _Atomic uint32_t used; /* the number of slots that have ever been used */
    _Atomic uint32_t pause;
    _Atomic uint32_t births; /* the deciding thread sleeps on this word until new threads have begun */
    _Atomic uint64_t waits, tickets;
    _Atomic uint64_t ending;          /* process << 32 | thread of the thread that gave the turn away at its end */
    _Atomic uint64_t progress;        /* how often a thread has begun a new wait, or ended */
    _Atomic uint32_t tries;           /* the number of threads in waits that no thread of the run ends */
    _Atomic uint64_t born;            /* how many threads have been born */
    _Atomic uint64_t moments;         /* how often the clock has moved */
    _Atomic uint64_t spun;            /* nanoseconds that passed because threads read the clock repeatedly */
    _Atomic uint8_t ports[PORTS / 8]; /* a bit for each TCP port on which a program of the run has listened */
    _Atomic uint8_t datagram_ports[PORTS / 8]; /* a bit for each UDP port known to belong to a program of the run */
    struct slot slots[SLOTS];
    struct alarm alarms[ALARMS];
    _Atomic uint32_t alarm_count; /* the number of alarms that have ever been used */
    _Atomic uint32_t timer_count; /* the number of timers that have ever been created */
    struct timer timers[TIMERS];
    _Atomic uint32_t has_signalfds;
    struct notice notices[NOTICES];
};

#define RUN_MEMORY "canbusd-virtual"
/* The environment variable with the path of the run's memory. The coordinator listens on an abstract socket name that
 * contains its process ID. */
#define RUN_SETTING "CANBUSD_RUN_VIRTUAL"
#define RUN_SLOT "CANBUSD_RUN_SLOT"
/* The environment variable with the options that repeat the run. Reports quote these options. */
#define RUN_OPTIONS "CANBUSD_RUN_OPTIONS"
#define RUN_SOCKET "canbusd-virtual/%d"

#endif
