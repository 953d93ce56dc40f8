/* Asks the coordinator to print a message from a program: see tell.h. */
#define _GNU_SOURCE
#include "tell.h"
#include "raw.h"
#include "turns.h"

#include <stdarg.h>
#include <stdio.h>
#include <stdlib.h>
#include <string.h>
#include <time.h>

void make_printable(char *text) {
    for (; *text; text++) {
        *text = *text >= ' ' && *text <= '~' ? *text : '?';
    }
}

/* Takes a free notice, or returns NULL if there is none. */
static struct notice *take_notice(void) {
    for (int i = 0; i < NOTICES; i++) {
        uint32_t none = NOTICE_NONE;
        if (__atomic_compare_exchange_n((uint32_t *)&run->notices[i].state, &none, NOTICE_BEGUN, 0, __ATOMIC_SEQ_CST,
                                        __ATOMIC_SEQ_CST)) {
            return &run->notices[i];
        }
    }
    return NULL;
}

/* Passes a message to the coordinator. Returns false if that is not possible. */
static bool put_notice(bool ends_run, const char *text) {
    struct notice *notice = take_notice();
    if (!notice) {
        return false;
    }
    memcpy(notice->text, text, sizeof notice->text);
    notice->ends_run = ends_run;
    notice->state = NOTICE_READY;
    return RAW(SYS_kill, coordinator_pid, SIGURG) == 0;
}

static void write_here(const char *text) {
    char line[NOTICE + 40];
    RAW(SYS_write, 2, line, snprintf(line, sizeof line, "canbusd-run: virtual time: %s\n", text));
}

void tell(bool ends_run, const char *format, ...) {
    const struct timespec second = {1, 0};
    char text[NOTICE] = "";
    va_list list;
    va_start(list, format);
    vsnprintf(text, sizeof text, format, list);
    va_end(list);
    make_printable(text);
    if (!put_notice(ends_run, text)) {
        write_here(text);
        run->has_failed |= ends_run;
    }
    while (ends_run) {
        check_coordinator();
        RAW(SYS_kill, coordinator_pid, SIGURG);
        RAW(SYS_nanosleep, &second, NULL);
    }
}

const char *tell_test(char room[TEST_ROOM]) {
    const char *test = getenv("PYTEST_CURRENT_TEST");
    static const char before[] = ", in ", cut[] = "..";
    size_t most = TEST_ROOM - sizeof before - sizeof cut;
    room[0] = 0;
    if (test && *test) {
        snprintf(room, TEST_ROOM, "%s%.*s%s", before, (int)most, test, strlen(test) > most ? cut : "");
    }
    return room;
}
