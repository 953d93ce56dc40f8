/* Threads whose waits the library does not see: see outside.h. */
#define _GNU_SOURCE
#include "outside.h"
#include "../command/program.h"
#include "messages.h"
#include "proc.h"
#include "tree.h"
#include "turns.h"

#include <dirent.h>
#include <errno.h>
#include <stdio.h>
#include <stdlib.h>
#include <string.h>
#include <sys/syscall.h>
#include <unistd.h>

#define LIBRARY "libcanbusd-virtual.so"
/* Among the processes without the library, only PROGRAM has this mapping: before PROGRAM is executed, its process is a
 * copy of the coordinator. */
#define MEMORY "/memfd:" RUN_MEMORY
/* The files that a program loads after the preloaded files. */
#define C_LIBRARY "/libc.so."
#define LOADER "/ld-linux"
/* How long a program without the library may run before the coordinator reports it: in nanoseconds of processor time,
 * or in real seconds if the program sleeps. */
#define FOREIGN_RUN 300000000
#define FOREIGN_SECONDS 1.0
/* Every FOREIGN_LOOKS checks, the coordinator examines whether the program loads the library. */
#define FOREIGN_LOOKS 4
/* A thread that has the turn counts as asleep if it still sleeps after this many further checks. */
#define SLEEP_LOOKS 4
/* The value of a slot's `parent` if no thread took the slot for the process. */
#define STRANGER UINT32_MAX

/* ---- programs that do not load the library ---- */

/* Which of these files a process has mapped: the library, the run's memory, the loader, and the C library. */
struct mapped {
    bool library, memory, loader, c_library, is_hidden;
};

/* Reads the mappings of a process. The list for a process that is ending may be cut off. The list is complete if it
 * contains the stack, which comes after the libraries. */
static struct mapped mapped_by(uint32_t pid) {
    char path[32], line[PATH_MAX + 200];
    struct mapped mapped = {false, false, false, false, false};
    bool is_whole = false;
    snprintf(path, sizeof path, "/proc/%u/maps", pid);
    FILE *maps = fopen(path, "re");
    mapped.is_hidden = !maps && errno == EACCES;
    while (maps && fgets(line, sizeof line, maps)) {
        mapped.library |= strstr(line, LIBRARY) != NULL;
        mapped.memory |= strstr(line, MEMORY) != NULL;
        mapped.loader |= strstr(line, LOADER) != NULL;
        mapped.c_library |= strstr(line, C_LIBRARY) != NULL;
        is_whole |= strstr(line, "[stack]") != NULL;
    }
    mapped.c_library &= is_whole;
    if (maps) {
        fclose(maps);
    }
    return mapped;
}

/* Returns whether the loader did not load the library into a process, because the program's file gives it more
 * privileges, or because the process may not open the run's memory. */
static bool has_other_rights(uint32_t pid, const struct mapped *mapped) {
    return mapped->is_hidden || (!mapped->memory && !proc_is_of_user(pid, geteuid()));
}

/* Returns why a process is not in virtual time, or NULL if it is in virtual time or has not begun. */
static const char *obstacle_of(uint32_t pid) {
    char path[32], name[PATH_MAX];
    snprintf(path, sizeof path, "/proc/%u/exe", pid);
    ssize_t length = readlink(path, name, sizeof name - 1);
    name[length > 0 ? length : 0] = 0;
    const char *slash = strrchr(name, '/');
    struct mapped mapped = mapped_by(pid);
    if (has_other_rights(pid, &mapped)) {
        fail("%s has other rights than the run (another user, setuid, setgid or capabilities), so it can't be in "
             "virtual time",
             who(pid, 0));
        return NULL;
    }
    if (length <= 0 || (slash && !strcmp(slash, "/canbusd-bridge")) || mapped.library || mapped.memory) {
        return NULL;
    }
    const char *obstacle = program_obstacle(path);
    /* A program that runs another program inside itself, such as valgrind, maps the other program's loader, which loads
     * the library. */
    bool is_host = obstacle && mapped.loader && !mapped.c_library;
    return is_host ? NULL : obstacle ? obstacle : mapped.c_library ? "has lost LD_PRELOAD, as by env -i" : NULL;
}

static void say_foreign(uint32_t pid, const char *obstacle) {
    say_once(pid, "%s %s, so it sees the real time; the clock of the run stands still while it runs", who(pid, 0),
             obstacle);
}

/* Reports a program without the library after it has run or slept for a long time, because it may have read the real
 * clock by then. */
static void note_foreign(uint32_t index) {
    static struct {
        uint32_t pid;
        double since;
    } found[SLOTS];
    uint32_t pid = run->slots[index].pid;
    if (found[index].pid != pid) {
        found[index].pid = pid;
        found[index].since = real_now();
        return;
    }
    bool is_long = proc_usage(pid, pid).run > FOREIGN_RUN ||
                   (proc_state(pid, 0) == 'S' && real_now() - found[index].since > FOREIGN_SECONDS);
    const char *obstacle = is_long ? obstacle_of(pid) : NULL;
    if (obstacle) {
        say_foreign(pid, obstacle);
    }
}

static bool find_foreign(struct slot *slot, int looks) {
    if (slot->is_foreign || looks < FOREIGN_LOOKS || looks % FOREIGN_LOOKS) {
        return slot->is_foreign;
    }
    slot->is_foreign = obstacle_of(slot->pid) != NULL;
    return slot->is_foreign;
}

/* ---- whether a thread sleeps ---- */

struct called {
    long number;
    unsigned long arguments[6];
    bool is_known;
};

static struct called called_by(uint32_t pid, uint32_t tid) {
    char text[256], *at;
    struct called called = {.number = -1};
    if (!proc_read(pid, tid, "syscall", text, sizeof text) || text[0] == 'r') {
        return called;
    }
    called.number = strtol(text, &at, 10);
    for (int i = 0; i < 6; i++) {
        called.arguments[i] = strtoul(at, &at, 16);
    }
    called.is_known = true;
    return called;
}

/* Returns whether a system call ends after some real time without another thread. */
static bool is_timed(const struct called *called) {
    const unsigned long *a = called->arguments;
    switch (called->number) {
    case SYS_nanosleep:
    case SYS_clock_nanosleep: return true;
    case SYS_poll: return (int)a[2] > 0;
    case SYS_epoll_wait:
    case SYS_epoll_pwait: return (int)a[3] > 0;
    case SYS_ppoll: return a[2] != 0;
    case SYS_select:
    case SYS_pselect6: return a[4] != 0;
    case SYS_futex: return ((a[1] & 127) == 0 || (a[1] & 127) == 9) && a[3] != 0;
    case SYS_rt_sigtimedwait: return a[2] != 0;
    case SYS_mq_timedsend:
    case SYS_mq_timedreceive:
    case SYS_recvmmsg:
    case SYS_io_getevents: return a[4] != 0;
    case SYS_semtimedop:
    case SYS_epoll_pwait2: return a[3] != 0;
    case SYS_io_uring_enter: return true; /* It is not known how long the call waits. */
    default: return false;
    }
}

/* Returns whether a thread that is marked as outside has returned, and sleeps on the word of its slot. */
static bool waits_for_turn(uint32_t pid, uint32_t tid, const struct called *called) {
    for (uint32_t i = 0; i < slots_used() && called->number == SYS_futex; i++) {
        struct slot *slot = &run->slots[i];
        uint32_t outside = SLOT_OUTSIDE;
        if (slot->pid == pid && slot->tid == tid && slot->go_at == called->arguments[0]) {
            __atomic_compare_exchange_n((uint32_t *)&slot->state, &outside, SLOT_READY, 0, __ATOMIC_SEQ_CST,
                                        __ATOMIC_SEQ_CST);
            return true;
        }
    }
    return false;
}

/* Ends the run if a thread is traced, because the tracer stops the thread at its calls while the tracer itself waits
 * for turns. */
static bool is_traced(uint32_t pid, uint32_t tid, char state) {
    if (state == 't') {
        fail("%s is traced, as by strace or gdb, so it can't be in virtual time", who(pid, tid));
    }
    return state == 't';
}

/* Returns whether a thread sleeps until another thread does something. */
static bool sleeps(uint32_t pid, uint32_t tid) {
    char state = proc_state(pid, tid);
    if (state == 'T') {
        say_once(pid, "%s is stopped; the run goes on without it", who(pid, 0));
        return true;
    }
    if (is_traced(pid, tid, state)) {
        return false;
    }
    if (state == 'Z' || state == 'X') {
        return true;
    }
    struct called called = called_by(pid, tid);
    if (waits_for_turn(pid, tid, &called)) {
        return false;
    }
    if (state == 'S' && called.is_known && is_timed(&called)) {
        const char *obstacle = obstacle_of(pid);
        if (obstacle) {
            say_foreign(pid, obstacle);
        }
        fail("%s waits by the real clock, in system call %ld, which virtual time does not see%s%s", who(pid, tid),
             called.number, obstacle ? ": it " : "", obstacle ? obstacle : "");
        return false;
    }
    return state == 'S';
}

/* Returns how often a thread was scheduled on a processor. */
static uint64_t times_run(uint32_t pid, uint32_t tid) {
    return proc_usage(pid, tid).times;
}

/* Returns whether all threads of a process sleep. If `tid` is not 0, checks only that thread. Adds how often the
 * checked threads ran to `times`. */
static bool all_sleep(uint32_t pid, uint32_t tid, uint64_t *times) {
    char path[40];
    bool do_sleep = true;
    if (tid) {
        *times += times_run(pid, tid);
        return sleeps(pid, tid);
    }
    snprintf(path, sizeof path, "/proc/%u/task", pid);
    DIR *folder = opendir(path);
    for (struct dirent *entry; folder && do_sleep && (entry = readdir(folder));) {
        uint32_t one = (uint32_t)atoi(entry->d_name);
        if (one) {
            *times += times_run(pid, one);
            do_sleep = sleeps(pid, one);
        }
    }
    if (folder) {
        closedir(folder);
    }
    return do_sleep;
}

static bool one_pass(uint64_t *times) {
    *times = 0;
    for (uint32_t i = 0; i < slots_used(); i++) {
        struct slot *slot = &run->slots[i];
        if (slot->state == SLOT_OUTSIDE && slot->is_foreign) {
            note_foreign(i);
        }
        if (slot->state == SLOT_OUTSIDE && !all_sleep(slot->pid, slot->is_foreign ? 0 : slot->tid, times)) {
            return false;
        }
    }
    return true;
}

static bool process_runs(uint32_t pid) {
    char path[40];
    bool runs = false;
    snprintf(path, sizeof path, "/proc/%u/task", pid);
    DIR *folder = opendir(path);
    for (struct dirent *entry; folder && !runs && (entry = readdir(folder));) {
        uint32_t tid = (uint32_t)atoi(entry->d_name);
        char state = tid ? proc_state(pid, tid) : 'X';
        runs = state == 'R' || state == 'D';
    }
    if (folder) {
        closedir(folder);
    }
    return runs;
}

bool outside_any_runs(void) {
    static uint32_t pids[TREE_MOST];
    size_t count = tree_below((uint32_t)getpid(), pids, TREE_MOST);
    for (size_t i = 0; i < count; i++) {
        if (process_runs(pids[i])) {
            return true;
        }
    }
    return false;
}

bool outside_sleeps(void) {
    uint64_t before, now;
    outside_strangers();
    /* The check is done twice, because a thread may wake another thread that was already checked. */
    return one_pass(&before) && !outside_any_runs() && one_pass(&now) && before == now;
}

/* ---- threads that sleep while they have the turn ---- */

/* Takes the turn back from a thread. A stopped thread may not have begun its turn. */
static void take_back(uint64_t turn, bool is_stopped) {
    struct slot *slot = slot_at((uint32_t)turn & NOBODY);
    uint32_t state = slot->state;
    if ((state == SLOT_RUNS || is_stopped) && turn_change(turn, NOBODY)) {
        __atomic_compare_exchange_n((uint32_t *)&slot->state, &state, SLOT_OUTSIDE, 0, __ATOMIC_SEQ_CST,
                                    __ATOMIC_SEQ_CST);
    }
}

/* Returns whether the thread has slept in this turn for several checks in a row. A thread that waits for a disk or for
 * memory runs again soon. */
static bool is_asleep_for_long(uint64_t turn, char state, uint64_t times) {
    static struct {
        uint64_t turn, times;
        int looks;
    } last;
    bool sleeps_now = state == 'S' || state == 'T' || state == 't';
    if (!sleeps_now || last.turn != turn || last.times != times) {
        last.turn = turn;
        last.times = times;
        last.looks = 0;
        return false;
    }
    return ++last.looks >= SLEEP_LOOKS;
}

bool outside_watch(uint64_t turn, int looks, bool (*is_asked)(void)) {
    struct slot *slot = slot_at((uint32_t)turn & NOBODY);
    uint32_t pid = slot->pid, tid = slot->tid;
    char state = proc_state(pid, tid);
    if (state == 'Z' || state == 'X') {
        /* If a thread ended without the library seeing it, its slot is freed here. The end of a whole process is
         * handled elsewhere. If other threads of the process are still ending, its files are not closed yet, and other
         * programs may wait for the files to be closed. */
        if ((pid != tid || state == 'Z') && !process_runs(pid) && turn_change(turn, NOBODY)) {
            free_slot(slot);
        }
    } else if (!is_traced(pid, tid, state) && find_foreign(slot, looks)) {
        take_back(turn, false);
    } else if (is_asleep_for_long(turn, state, times_run(pid, tid)) && !is_asked() && !outside_any_runs()) {
        outside_strangers();
        take_back(turn, state == 'T' || state == 't');
    }
    return state != 'R';
}

void outside_share(uint64_t turn) {
    struct slot *slot = slot_at((uint32_t)turn & NOBODY);
    uint32_t runs = SLOT_RUNS;
    for (uint32_t i = 0; i < slots_used(); i++) {
        struct slot *other = &run->slots[i];
        bool waits = other->state == SLOT_WAITS && (other->flags || other->kind == KIND_INTERPRETER);
        if (other == slot || other->pid != slot->pid || !(waits || other->state == SLOT_READY)) {
            continue;
        }
        if (turn_change(turn, i)) {
            __atomic_compare_exchange_n((uint32_t *)&slot->state, &runs, SLOT_READY, 0, __ATOMIC_SEQ_CST,
                                        __ATOMIC_SEQ_CST);
            other->flags |= other->flags ? 0 : IS_OVER;
            wake_owner(i);
        }
        return;
    }
}

/* Returns whether a process has registered in a slot. */
static bool has_begun(uint32_t pid) {
    for (uint32_t i = 0; i < slots_used(); i++) {
        if (run->slots[i].pid == pid && run->slots[i].tid && run->slots[i].state != SLOT_FREE) {
            return true;
        }
    }
    return false;
}

bool outside_runs(void) {
    for (uint32_t i = 0; i < slots_used(); i++) {
        struct slot *slot = &run->slots[i];
        bool is_awaited = slot->state == SLOT_BORN || slot->state == SLOT_OUTSIDE;
        char state = is_awaited && slot->pid ? proc_state(slot->pid, slot->tid) : 'X';
        if (state == 'R' || state == 'D') {
            return true;
        }
    }
    return false;
}

void outside_births(int looks) {
    for (uint32_t i = 0; i < slots_used(); i++) {
        struct slot *slot = &run->slots[i];
        if (slot->state != SLOT_BORN || !slot->pid || slot->parent == 0) {
            continue;
        }
        char state = proc_state(slot->pid, 0);
        if (state == 'X' || state == 'Z' || (slot->parent == STRANGER && has_begun(slot->pid))) {
            free_slot(slot);
        } else if (!is_traced(slot->pid, 0, state) && (state == 'T' || find_foreign(slot, looks))) {
            slot->tid = slot->pid;
            slot->state = SLOT_OUTSIDE;
        }
    }
}

static bool is_known(uint32_t pid) {
    for (uint32_t i = 0; i < slots_used(); i++) {
        if (run->slots[i].pid == pid && run->slots[i].state != SLOT_FREE) {
            return true;
        }
    }
    return false;
}

void outside_strangers(void) {
    static uint32_t pids[TREE_MOST];
    for (uint32_t i = 0; i < slots_used(); i++) {
        if (run->slots[i].state == SLOT_BORN && !run->slots[i].pid) {
            return; /* The process may be the one that has this slot. */
        }
    }
    size_t count = tree_below((uint32_t)getpid(), pids, TREE_MOST);
    for (size_t i = 0; i < count; i++) {
        char state = is_known(pids[i]) ? 'Z' : proc_state(pids[i], 0);
        if (state != 'Z' && state != 'X') {
            struct slot *slot = &run->slots[take_slot()];
            slot->pid = pids[i];
            slot->parent = STRANGER;
            slot->state = SLOT_BORN;
        }
    }
}
