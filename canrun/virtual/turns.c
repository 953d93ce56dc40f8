/* Turns: see turns.h. */
#define _GNU_SOURCE
#include "turns.h"
#include "raw.h"
#include "tell.h"

#include <linux/futex.h>
#include <sys/epoll.h>
#include <time.h>

struct run *run;
int run_epoll = -1;
int coordinator_pid;
bool is_server, is_bridge;
__thread struct my my;
void (*handle_deferred)(void);
void (*hold_cancel)(bool is_held);

/* How many real seconds a thread sleeps before it checks that the coordinator is still running. */
#define LIVE_SECONDS 1
#define BIRTH_NANOSECONDS 20000000
/* How many events are read at once, and how often. The product exceeds the number of slots and descriptors that can be
 * ready. */
#define EVENTS 32
#define MOST_LOOKS 2000
/* How many times a thread's end is checked without a pause; the pause between later checks, in nanoseconds; and the
 * maximum number of checks, which take about a minute. */
#define END_YIELDS 20
#define END_PAUSE 100000
#define END_LOOKS 600000

/* ---- random numbers ---- */

static uint64_t scrambled(uint64_t x) {
    x = (x ^ x >> 30) * 0xbf58476d1ce4e5b9ull;
    x = (x ^ x >> 27) * 0x94d049bb133111ebull;
    return x ^ x >> 31;
}

uint64_t draw(const struct slot *slot, enum chance what, uint64_t times) {
    uint64_t of_thread = scrambled(scrambled(run->seed ^ run->test) + slot->number);
    return scrambled(of_thread + times * CHANCES + what);
}

void begin_test(const char *name) {
    uint64_t test = 0xcbf29ce484222325ull, below = 0;
    for (; *name; name++) {
        test = (test ^ (uint8_t)*name) * 0x100000001b3ull;
    }
    run->test = test;
    run->born = 0;
    /* Each round finds the next older thread and numbers it. */
    for (struct slot *next;; run->born++) {
        next = NULL;
        for (uint32_t i = 0; i < slots_used(); i++) {
            struct slot *slot = &run->slots[i];
            bool is_next = slot->state != SLOT_FREE && slot->number > below && (!next || slot->number < next->number);
            next = is_next ? slot : next;
        }
        if (!next) {
            break;
        }
        below = next->number;
        next->number = run->born + 1;
        next->waits = next->reads = 0;
    }
    /* Threads that the previous test has left behind, such as sessions that are about to end, do not influence the
     * numbers of new threads. */
    run->born = SLOTS;
}

/* ---- slots ---- */

uint32_t take_slot(void) {
    for (uint32_t i = 0; i < SLOTS; i++) {
        struct slot *slot = &run->slots[i];
        uint32_t none = SLOT_FREE;
        if (slot->state != SLOT_FREE || !__atomic_compare_exchange_n((uint32_t *)&slot->state, &none, SLOT_TAKEN, 0,
                                                                     __ATOMIC_SEQ_CST, __ATOMIC_SEQ_CST)) {
            continue;
        }
        slot->flags = slot->is_foreign = 0;
        slot->pid = slot->tid = slot->parent = 0;
        slot->rank = slot->kind = slot->tries = 0;
        slot->deadline = NEVER;
        slot->key = slot->ticket = slot->thread = slot->go_at = 0;
        slot->generation++;
        slot->number = ++run->born;
        slot->waits = slot->reads = 0;
        uint32_t used = run->used;
        while (used < i + 1 && !__atomic_compare_exchange_n((uint32_t *)&run->used, &used, i + 1, 0, __ATOMIC_SEQ_CST,
                                                            __ATOMIC_SEQ_CST)) {
        }
        return i;
    }
    char test[TEST_ROOM];
    tell(false, "%.60s (process %ld) has no place, as there are %d threads%s", program_invocation_short_name,
         RAW(SYS_getpid, 0), SLOTS, tell_test(test));
    RAW(SYS_exit_group, 125);
    return 0;
}

void free_slot(struct slot *slot) {
    slot->pid = slot->tid = 0;
    slot->deadline = NEVER;
    slot->key = 0;
    slot->state = SLOT_FREE;
    run->progress++;
}

void begin_slot(uint32_t index) {
    struct slot *slot = slot_at(index);
    my.slot = slot;
    my.index = index;
    slot->pid = (uint32_t)RAW(SYS_getpid, 0);
    slot->tid = (uint32_t)RAW(SYS_gettid, 0);
    slot->rank = is_bridge ? RANK_BRIDGE : is_server ? RANK_DRIVER : RANK_PROGRAM;
    slot->go_at = (uintptr_t)&slot->go;
    if (has_turn()) {
        slot->state = SLOT_RUNS; /* after execve the process continues as another program */
        return;
    }
    slot->state = SLOT_READY;
    run->births++;
    RAW(SYS_futex, &run->births, FUTEX_WAKE, 64);
    ring();
    await_turn();
    slot->state = SLOT_RUNS;
    slot->ticket = 0;
}

struct slot *my_slot(void) {
    if (!my.slot) {
        begin_slot(take_slot());
    }
    return my.slot;
}

/* ---- which thread can run ---- */

static void collect_events(void) {
    struct epoll_event events[EVENTS];
    long count = EVENTS;
    /* The epoll reports each descriptor of a waiting thread once. Other descriptors, which a program has added, may
     * remain ready indefinitely. */
    for (int i = 0; count == EVENTS && i < MOST_LOOKS; i++) {
        count = RAW(SYS_epoll_pwait, run_epoll, events, EVENTS, 0, NULL, 8);
        if (count == -EBADF && register_process()) {
            count = EVENTS; /* A program that closes all descriptors has also closed the epoll. */
            continue;
        }
        for (long i = 0; i < count; i++) {
            uint32_t index = (uint32_t)events[i].data.u64, generation = (uint32_t)(events[i].data.u64 >> 32);
            struct slot *slot = slot_at(index);
            if (slot->generation == generation && slot->state == SLOT_WAITS && slot->kind == KIND_DESCRIPTOR) {
                slot->flags |= HAS_EVENT;
            }
        }
    }
}

struct look {
    uint32_t best;
    bool has_outside;
    uint64_t next;
};

static bool can_go_on(const struct slot *slot, uint64_t now) {
    return slot->state == SLOT_READY || (slot->state == SLOT_WAITS && (slot->flags || slot->deadline <= now));
}

static bool goes_before(const struct slot *one, const struct slot *other) {
    return one->rank != other->rank       ? one->rank < other->rank
           : one->ticket != other->ticket ? one->ticket < other->ticket
                                          : one->number < other->number;
}

/* Assigns a ticket to each thread that has become able to run, and finds the thread that goes first. */
static struct look look_round(void) {
    struct look look = {.best = NOBODY, .next = NEVER};
    uint64_t now = run->now, round = 0;
    for (uint32_t i = 0; i < slots_used(); i++) {
        struct slot *slot = &run->slots[i], *best = slot_at(look.best);
        uint32_t state = slot->state;
        look.has_outside |= state == SLOT_OUTSIDE;
        if (!can_go_on(slot, now)) {
            if (state == SLOT_WAITS && slot->deadline < look.next) {
                look.next = slot->deadline;
            }
            continue;
        }
        if (!slot->ticket) {
            round = round ? round : ++run->tickets;
            uint64_t place = run->seed ? draw(slot, CHANCE_ORDER, slot->waits) : slot->number;
            slot->ticket = round << 32 | (place & UINT32_MAX);
        }
        look.best = look.best == NOBODY || goes_before(slot, best) ? i : look.best;
    }
    return look;
}

/* Some waits cannot be ended by any thread of the run. This function makes the threads in such waits poll once more if
 * another thread has run since they last polled. Returns false if there are none. */
static bool try_again(void) {
    bool has_one = false;
    for (uint32_t i = 0; run->tries && i < slots_used(); i++) {
        struct slot *slot = &run->slots[i];
        if (slot->state == SLOT_WAITS && slot->tries && slot->tried != run->progress) {
            slot->tried = run->progress;
            slot->flags |= TRIES_AGAIN;
            has_one = true;
        }
    }
    return has_one;
}

/* Moves the clock to the next deadline of a thread, unless the coordinator has work before that. */
static bool go_on(uint64_t next) {
    uint64_t alarm = NEVER;
    for (uint32_t i = 0; i < run->alarm_count && i < ALARMS; i++) {
        if (run->alarms[i].pid && run->alarms[i].number && run->alarms[i].deadline < alarm) {
            alarm = run->alarms[i].deadline;
        }
    }
    uint64_t least = alarm < next ? alarm : next;
    run->pause = least == NEVER ? PAUSE_IDLE : least > run->until ? PAUSE_UNTIL : alarm <= next ? PAUSE_ALARM : 0;
    if (run->pause) {
        return false;
    }
    run->now = next;
    run->moments++;
    return true;
}

static bool has_birth(void) {
    for (uint32_t i = 0; i < slots_used(); i++) {
        if (run->slots[i].state == SLOT_BORN) {
            return true;
        }
    }
    return false;
}

/* Waits until new threads have begun, because the order must include all threads that can run. */
static bool wait_for_births(void) {
    struct timespec patience = {0, BIRTH_NANOSECONDS};
    for (uint32_t seen = run->births; has_birth(); seen = run->births) {
        if (RAW(SYS_futex, &run->births, FUTEX_WAIT, seen, &patience) == -ETIMEDOUT) {
            return !has_birth();
        }
    }
    return true;
}

uint32_t next_turn(bool ignores_outside) {
    if (!wait_for_births()) {
        run->pause = PAUSE_BIRTH;
        return NOBODY;
    }
    /* If a thread of a server has only read memory in its turn, it has made no descriptor ready. */
    bool is_quiet = is_server && !my.has_acted;
    if (!is_quiet) {
        collect_events();
    }
    for (;;) {
        struct look look = look_round();
        if (look.best != NOBODY) {
            return look.best;
        }
        if (is_quiet) {
            is_quiet = false;
            collect_events();
            continue;
        }
        if (look.has_outside && !ignores_outside) {
            run->pause = PAUSE_OUTSIDE;
            return NOBODY;
        }
        if (!try_again() && !go_on(look.next)) {
            return NOBODY;
        }
    }
}

/* ---- turns ---- */

uint32_t turn_owner(void) {
    return (uint32_t)run->turn & NOBODY;
}

bool turn_change(uint64_t turn, uint32_t to) {
    bool is_given = to != NOBODY && !(to & DECIDING);
    uint64_t next = ((turn >> TURN_BITS) + is_given) << TURN_BITS | to;
    return __atomic_compare_exchange_n((uint64_t *)&run->turn, &turn, next, 0, __ATOMIC_SEQ_CST, __ATOMIC_SEQ_CST);
}

void ring(void) {
    if (turn_owner() == NOBODY) {
        RAW(SYS_kill, coordinator_pid, SIGURG);
    }
}

bool begin_deciding(void) {
    uint64_t turn = run->turn;
    return ((uint32_t)turn & NOBODY) == my.index && turn_change(turn, my.index | DECIDING);
}

void wake_owner(uint32_t index) {
    slot_at(index)->go++;
    RAW(SYS_futex, &slot_at(index)->go, FUTEX_WAKE, 1);
}

void hand_turn(uint32_t index) {
    turn_change(run->turn, index);
    if (index == NOBODY) {
        ring();
    } else {
        wake_owner(index);
    }
}

bool has_turn(void) {
    return my.slot && turn_owner() == my.index;
}

void check_coordinator(void) {
    if (run->has_ended || RAW(SYS_kill, coordinator_pid, 0) == -ESRCH) {
        RAW(SYS_exit_group, 125); /* If the coordinator has ended, the whole run ends. */
    }
}

/* Waits until a thread that gave the turn away at its end no longer exists, because the next thread may get its stack.
 */
static void await_end(void) {
    struct timespec pause = {0, END_PAUSE};
    uint64_t ending = run->ending;
    for (int i = 0; ending && i < END_LOOKS && !RAW(SYS_tgkill, ending >> 32, (uint32_t)ending, 0); i++) {
        if (i < END_YIELDS) {
            RAW(SYS_sched_yield, 0);
        } else {
            RAW(SYS_nanosleep, &pause, NULL);
        }
    }
    run->ending = 0;
}

void await_turn(void) {
    struct timespec second = {LIVE_SECONDS, 0};
    /* In a server only the first thread checks whether the coordinator is still running, and no thread has a signal
     * handler. */
    struct timespec *patience = is_server && my.slot->tid != my.slot->pid ? NULL : &second;
    for (;;) {
        uint32_t seen = my.slot->go;
        if (has_turn()) {
            await_end();
            return;
        }
        /* With a timeout, futex returns EINTR after any handler, even if the handler has SA_RESTART. */
        long result = RAW(SYS_futex, &my.slot->go, FUTEX_WAIT, seen, patience);
        if (result == -ETIMEDOUT) {
            check_coordinator();
        } else if (result == -EINTR && !has_turn()) {
            my.slot->flags |= IS_INTERRUPTED; /* A signal of the C library itself, such as that of pthread_cancel. */
            ring();
        }
    }
}

/* Waits for the turn and continues. During the wait the thread cannot be cancelled asynchronously. */
static void await_and_run(void) {
    if (my.is_asynchronous) {
        hold_cancel(true);
    }
    await_turn();
    my.slot->state = SLOT_RUNS;
    my.slot->ticket = 0;
    my.has_acted = false;
    if (my.is_asynchronous) {
        hold_cancel(false);
    }
}

/* Gives the turn to another thread and waits for its next turn. The slot describes the wait. */
static void give_turn(void) {
    run->progress += my.tries != TRIES_ON;
    my.is_deciding++;
    if (begin_deciding()) {
        uint32_t next = next_turn(false);
        if (next == my.index) {
            turn_change(run->turn, next);
        } else {
            hand_turn(next);
        }
    } else {
        ring();
    }
    my.is_deciding--;
    if (handle_deferred) {
        handle_deferred();
    }
    await_and_run();
}

void regain_turn(void) {
    if (!has_turn()) {
        my_slot()->state = SLOT_READY;
        ring();
        await_and_run();
    }
}

uint32_t wait_turn(uint64_t deadline, uint64_t key, enum kind kind) {
    struct slot *slot = my_slot();
    slot->waits++;
    if (deadline != NEVER && run->jitter) {
        deadline += draw(slot, CHANCE_JITTER, slot->waits) % (run->jitter / 1000 + 1) * 1000;
    }
    slot->flags = 0;
    slot->deadline = deadline;
    slot->key = key;
    slot->kind = kind;
    slot->since = ++run->waits;
    my.has_to_return = false;
    slot->tries = my.tries != TRIES_NOT;
    run->tries += slot->tries;
    if (is_server) {
        slot->rank = my.has_talked ? RANK_SESSION : RANK_DRIVER;
    }
    slot->state = SLOT_WAITS;
    give_turn();
    run->tries -= slot->tries;
    my.tries = slot->tries = 0;
    slot->deadline = NEVER;
    slot->key = 0;
    return slot->flags;
}

void yield_turn(void) {
    my_slot()->waits++;
    my_slot()->state = SLOT_READY;
    give_turn();
}

uint64_t after(uint64_t nanoseconds) {
    uint64_t now = run->now;
    return nanoseconds >= NEVER / 4 ? NEVER : now + nanoseconds; /* 146 years count as endless. */
}

/* ---- keys ---- */

static uint64_t mixed(uint64_t a, uint64_t b) {
    uint64_t x = (a * 0x9e3779b97f4a7c15ull ^ b) * 0xbf58476d1ce4e5b9ull;
    x ^= x >> 29;
    return x ? x : 1;
}

uint64_t key_of(const volatile void *at, uint64_t salt) {
    return mixed((uint64_t)(uintptr_t)at + salt, my_slot()->pid);
}

/* The key is the same in every process that maps the file. */
uint64_t key_of_file(uint64_t device, uint64_t inode, uint64_t offset) {
    return mixed(mixed(device, inode), offset);
}

uint64_t key_of_number(uint64_t number) {
    return mixed(number, 0x6e756d62);
}

uint64_t key_of_children(uint32_t pid) {
    return mixed(pid, 0x6368696c64);
}

uint64_t key_of_signals(uint32_t pid) {
    return mixed(pid, 0x7369676e);
}

void wake(uint64_t key, int most) {
    while (most-- > 0) {
        struct slot *first = NULL;
        for (uint32_t i = 0; i < slots_used(); i++) {
            struct slot *slot = &run->slots[i];
            if (slot->state == SLOT_WAITS && slot->key == key && !(slot->flags & IS_WOKEN) &&
                (!first || slot->since < first->since)) {
                first = slot;
            }
        }
        if (!first) {
            return;
        }
        first->flags |= IS_WOKEN;
        ring();
    }
}

void wake_descriptors(uint32_t pid) {
    for (uint32_t i = 0; i < slots_used(); i++) {
        struct slot *slot = &run->slots[i];
        if (slot->state == SLOT_WAITS && (!pid || slot->pid == pid) && slot->kind == KIND_DESCRIPTOR) {
            slot->flags |= LOOKS_AGAIN;
        }
    }
}
