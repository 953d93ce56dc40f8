/* Reads information about processes from /proc: see proc.h. */
#define _GNU_SOURCE
#include "proc.h"
#include "raw.h"
#include "turns.h"

#include <fcntl.h>
#include <stdio.h>
#include <stdlib.h>
#include <string.h>
#include <time.h>

/* How many seconds the sender of a signal waits until the receiver has handled the signal, because the receiver may
 * have to wait long for a processor. The other constant is the pause between two checks, in nanoseconds. */
#define SETTLE_SECONDS 60
#define SETTLE_PAUSE 200000
/* The maximum number of ancestors that a process may have below the coordinator. */
#define DEEPEST 1000
/* How many times the ancestors are read again if one of them ended during the read. */
#define CLIMBS 100

static char *put_number(char *at, uint32_t number) {
    char digits[12];
    int count = 0;
    do {
        digits[count++] = (char)('0' + number % 10);
        number /= 10;
    } while (number);
    while (count) {
        *at++ = digits[--count];
    }
    return at;
}

size_t proc_read(uint32_t pid, uint32_t tid, const char *name, char *text, size_t room) {
    char path[96] = "/proc/", *at = put_number(path + 6, pid);
    if (tid) {
        memcpy(at, "/task/", 6);
        at = put_number(at + 6, tid);
    }
    *at++ = '/';
    strcpy(at, name);
    long fd = RAW(SYS_openat, AT_FDCWD, path, O_RDONLY | O_CLOEXEC);
    text[0] = 0;
    if (fd < 0) {
        return 0;
    }
    long length = RAW(SYS_read, fd, text, room - 1);
    RAW(SYS_close, fd);
    text[length > 0 ? length : 0] = 0;
    return length > 0 ? (size_t)length : 0;
}

char proc_state(uint32_t pid, uint32_t tid) {
    char text[512];
    if (!proc_read(pid, tid, "stat", text, sizeof text)) {
        return 'X';
    }
    char *at = strrchr(text, ')');
    return at && at[1] && at[2] ? at[2] : 'X';
}

uint32_t proc_parent(uint32_t pid) {
    char text[512];
    proc_read(pid, 0, "stat", text, sizeof text);
    char *at = strrchr(text, ')');
    return at && at[1] ? (uint32_t)atoi(at + 4) : 0;
}

enum climb { IS_BELOW, IS_NOT_BELOW, HAS_CHANGED };

static enum climb climb(uint32_t pid, uint32_t top) {
    uint32_t at = pid;
    for (int i = 0; i < DEEPEST && at > 1 && at != top; i++) {
        uint32_t parent = proc_parent(at);
        if (!parent && at != pid) {
            return HAS_CHANGED; /* This ancestor has ended in the meantime, and its children have a new parent. */
        }
        at = parent;
    }
    return at == top ? IS_BELOW : IS_NOT_BELOW;
}

bool proc_is_below(uint32_t pid, uint32_t top) {
    enum climb found = HAS_CHANGED;
    for (int i = 0; i < CLIMBS && found == HAS_CHANGED; i++) {
        found = climb(pid, top);
    }
    return found == IS_BELOW;
}

struct usage proc_usage(uint32_t pid, uint32_t tid) {
    char text[100], *at = text;
    struct usage usage = {0, 0, 0};
    if (proc_read(pid, tid, "schedstat", text, sizeof text)) {
        usage.run = strtoull(at, &at, 10);
        usage.waited = strtoull(at, &at, 10);
        usage.times = strtoull(at, &at, 10);
    }
    return usage;
}

/* Reads a number from the text of /proc/PID/status. */
static uint64_t number_in(const char *text, const char *name, int base) {
    const char *at = strstr(text, name);
    return at ? strtoull(at + strlen(name), NULL, base) : 0;
}

static uint64_t mask_in(const char *text, const char *name) {
    return number_in(text, name, 16);
}

uint32_t proc_tracer(uint32_t pid) {
    char text[4096];
    return proc_read(pid, 0, "status", text, sizeof text) ? (uint32_t)number_in(text, "\nTracerPid:\t", 10) : 0;
}

/* The line contains four numbers. The first two are the real and the effective user. */
bool proc_is_of_user(uint32_t pid, uint32_t user) {
    char text[4096], *at;
    if (!proc_read(pid, 0, "status", text, sizeof text) || !(at = strstr(text, "\nUid:\t"))) {
        return true;
    }
    at += sizeof "\nUid:\t" - 1;
    return strtoul(at, &at, 10) == user && strtoul(at, &at, 10) == user;
}

bool proc_has_signal(uint32_t pid) {
    char text[4096];
    if (!proc_read(pid, 0, "status", text, sizeof text)) {
        return false;
    }
    uint64_t pending = mask_in(text, "\nShdPnd:\t") | mask_in(text, "\nSigPnd:\t");
    return pending & ~mask_in(text, "\nSigBlk:\t");
}

/* Returns whether a process has handled its signals, and all its threads sleep or wait for turns. A stopped process
 * does not handle signals. */
static bool is_settled(uint32_t pid) {
    bool is_there = false, is_stopped = false;
    for (uint32_t i = 0; i < slots_used(); i++) {
        struct slot *slot = &run->slots[i];
        if (slot->pid != pid || slot->state == SLOT_FREE || i == turn_owner()) {
            continue;
        }
        char state = proc_state(pid, slot->tid);
        bool has_ended = state == 'X' || state == 'Z';
        is_there |= !has_ended;
        is_stopped |= state == 'T' || state == 't';
        if (slot->tid && (state == 'R' || (has_ended && my.slot))) {
            return false; /* A thread that has ended stays until the coordinator has seen its end. */
        }
    }
    return !is_there || is_stopped || !proc_has_signal(pid);
}

void settle(uint32_t pid) {
    struct timespec pause = {0, SETTLE_PAUSE}, begun, now;
    uint32_t before = my.slot ? my.slot->state : 0;
    if (my.slot) {
        my.slot->state = SLOT_TAKEN; /* While this thread waits, its turn is not taken back. */
    }
    RAW(SYS_clock_gettime, CLOCK_MONOTONIC, &begun);
    now = begun;
    for (int i = 0; !is_settled(pid) && now.tv_sec - begun.tv_sec <= SETTLE_SECONDS; i++) {
        RAW(SYS_sched_yield, 0);
        if (i > 3) {
            RAW(SYS_nanosleep, &pause, NULL);
            RAW(SYS_clock_gettime, CLOCK_MONOTONIC, &now);
        }
    }
    if (my.slot) {
        my.slot->state = before;
    }
}
