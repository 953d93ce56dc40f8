/* The functions of the C library that this library replaces and also calls, and the reporting of errors. */
#define _GNU_SOURCE
#include "library.h"

#include <dlfcn.h>
#include <errno.h>
#include <stdio.h>
#include <stdlib.h>
#include <string.h>
#include <sys/syscall.h>
#include <unistd.h>

static struct real found;
static bool is_debugged;

__attribute__((constructor)) static void resolve(void) {
    const char *debug = getenv("CANBUSD_RUN_DEBUG");
    is_debugged = debug && *debug && strcmp(debug, "0");
#define X(name) found.name = (__typeof__(found.name))real_dlsym()(RTLD_NEXT, #name);
    REAL_FUNCTIONS(X)
#undef X
}

const struct real *real(void) {
    if (__builtin_expect(!found.sendmmsg, 0)) {
        resolve();
    }
    return &found;
}

int fail(int error) {
    errno = error;
    return -1;
}

/* Returns whether this is the first refusal that was caused by a limit of the server. This refusal is printed even
 * without CANBUSD_RUN_DEBUG. */
static bool is_news(int error) {
    static bool is_said[2];
    return (error == EUSERS || error == ENOSPC) &&
           !__atomic_exchange_n(&is_said[error == ENOSPC], true, __ATOMIC_RELAXED);
}

int refuse(const char *what, int error, const char *why) {
    if (is_news(error) || is_debugged) {
        char line[512];
        int length = snprintf(line, sizeof line, "canbusd-run: %s: %s: %s\n", what, strerror(error), why);
        syscall(SYS_write, STDERR_FILENO, line, MIN((size_t)length, sizeof line - 1));
    }
    return fail(error);
}
