/* The coordinator's messages: see messages.h. */
#define _GNU_SOURCE
#include "messages.h"
#include "proc.h"
#include "tell.h"
#include "turns.h"

#include <stdarg.h>
#include <stdio.h>
#include <string.h>
#include <time.h>

#define TOLD 256
#define LISTED 10

double real_now(void) {
    struct timespec t;
    clock_gettime(CLOCK_MONOTONIC, &t);
    return (double)t.tv_sec + (double)t.tv_nsec * 1e-9;
}

static void put(const char *format, va_list list) {
    char text[1000];
    vsnprintf(text, sizeof text, format, list);
    make_printable(text);
    fprintf(stderr, "canbusd-run: virtual time: at %.6f s %s\n", (double)run->now / SECOND, text);
}

void say(const char *format, ...) {
    va_list list;
    va_start(list, format);
    put(format, list);
    va_end(list);
}

void say_notices(void) {
    for (int i = 0; i < NOTICES; i++) {
        struct notice *notice = &run->notices[i];
        if (notice->state == NOTICE_READY && !run->has_failed) {
            say("%.*s", NOTICE - 1, notice->text);
            run->has_failed |= notice->ends_run;
            notice->state = NOTICE_NONE;
        }
    }
}

void fail(const char *format, ...) {
    va_list list;
    say_notices();
    if (run->has_failed) {
        return;
    }
    va_start(list, format);
    put(format, list);
    va_end(list);
    run->has_failed = 1;
}

void say_once(uint32_t pid, const char *format, ...) {
    static struct {
        uint32_t pid;
        const char *format;
    } told[TOLD];
    static int count;
    va_list list;
    for (int i = 0; i < count; i++) {
        if (told[i].pid == pid && told[i].format == format) {
            return;
        }
    }
    if (count < TOLD) {
        told[count].pid = pid;
        told[count++].format = format;
    }
    va_start(list, format);
    put(format, list);
    va_end(list);
}

const char *who(uint32_t pid, uint32_t tid) {
    static char text[2][100];
    static int turn;
    char name[32];
    size_t length = proc_read(pid, tid, "comm", name, sizeof name);
    char *to = text[turn++ % 2];
    name[length ? length - 1 : 0] = 0;
    make_printable(name);
    if (tid && tid != pid) {
        snprintf(to, sizeof text[0], "%s (thread %u of process %u)", name, tid, pid);
    } else {
        snprintf(to, sizeof text[0], "%s (process %u)", name, pid);
    }
    return to;
}

void say_waits(void) {
    static const char *const kinds[] = {
        "a moment", "a descriptor",    "a lock, condition or semaphore",          "a child's end",
        "a signal", "the interpreter", "a lock, queue or semaphore of the kernel"};
    int listed = 0;
    for (uint32_t i = 0; i < slots_used(); i++) {
        struct slot *slot = &run->slots[i];
        if (slot->state == SLOT_FREE || slot->rank >= RANK_SESSION) {
            continue; /* A server always waits for its clients. */
        }
        if (listed++ == LISTED) {
            fprintf(stderr, "  ..\n");
            return;
        }
        const char *what = slot->state == SLOT_OUTSIDE ? "something inside of a call that is not seen"
                                                       : kinds[slot->kind % (sizeof kinds / sizeof *kinds)];
        fprintf(stderr, "  %s waits for %s\n", who(slot->pid, slot->tid), what);
    }
}
