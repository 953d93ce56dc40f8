/* Replaces dlsym for calls with a handle of the C library, such as those of ctypes.CDLL("libc.so.6"). dlsym then
 * returns this library's functions instead of the C library's. */
#define _GNU_SOURCE
#include "library.h"

#include <dlfcn.h>

/* Sanitizers call dlsym before they are ready to check other functions. */
#define EARLY __attribute__((no_sanitize("address", "undefined")))

typedef void *(*finder)(void *restrict, const char *restrict);

EARLY finder real_dlsym(void) {
    /* The symbol version of dlsym since glibc 2.34, and the first version on each architecture. */
    static const char *const versions[] = {"GLIBC_2.34", "GLIBC_2.2.5", "GLIBC_2.17", "GLIBC_2.27"};
    static finder found;
    for (size_t i = 0; !found && i < sizeof versions / sizeof *versions; i++) {
        found = (finder)dlvsym(RTLD_NEXT, "dlsym", versions[i]);
    }
    return found;
}

/* Returns this library's function if it replaces the given function of the C library. Returns any other function
 * unchanged, including functions of a library that was loaded between this one and the C library. */
static void *ours(void *function) {
    const struct real *all = real();
#define X(name)                                      \
    if (function && function == (void *)all->name) { \
        return (void *)name;                         \
    }
    REAL_FUNCTIONS(X)
#undef X
    return function;
}

/* Forces a tail call to become a jump. gcc does this at -O2 without an attribute. */
#ifdef __clang__
#define JUMP __attribute__((musttail))
#else
#define JUMP
#endif

/* The result for RTLD_NEXT depends on the caller's address. This call is therefore a jump, so that the C library sees
 * the original caller. */
EXPORT EARLY void *dlsym(void *restrict handle, const char *restrict name) {
    if (handle == RTLD_NEXT || handle == RTLD_DEFAULT) {
        JUMP return real_dlsym()(handle, name);
    }
    return ours(real_dlsym()(handle, name));
}
