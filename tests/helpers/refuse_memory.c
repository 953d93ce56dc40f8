/* Refuses memory to the program that loads it (LD_PRELOAD), as test_memory.py needs it. REFUSE names a file of three
 * 64-bit integers that the test and the program share: how often the program has requested memory, and the first and
 * the last request that are refused, counted from 1. Starting a thread also counts as a request. */
#define _GNU_SOURCE
#include <dlfcn.h>
#include <errno.h>
#include <fcntl.h>
#include <pthread.h>
#include <stdatomic.h>
#include <stdbool.h>
#include <stdint.h>
#include <stdlib.h>
#include <sys/mman.h>
#include <unistd.h>

struct plan {
    _Atomic uint64_t asked, first, last;
};

static struct plan *plan;

extern void *__libc_malloc(size_t);
extern void *__libc_calloc(size_t, size_t);
extern void *__libc_realloc(void *, size_t);

__attribute__((constructor)) static void begin(void) {
    const char *path = getenv("REFUSE");
    int file = path ? open(path, O_RDWR | O_CLOEXEC) : -1;
    if (file < 0)
        return;
    void *place = mmap(NULL, sizeof *plan, PROT_READ | PROT_WRITE, MAP_SHARED, file, 0);
    close(file);
    if (place != MAP_FAILED)
        plan = place;
}

static bool is_refused(void) {
    if (!plan)
        return false;
    uint64_t time = atomic_fetch_add(&plan->asked, 1) + 1;
    return plan->first <= time && time <= plan->last;
}

static void *refusal(void) {
    errno = ENOMEM;
    return NULL;
}

void *malloc(size_t size) {
    return is_refused() ? refusal() : __libc_malloc(size);
}

void *calloc(size_t count, size_t size) {
    return is_refused() ? refusal() : __libc_calloc(count, size);
}

void *realloc(void *old, size_t size) {
    return is_refused() ? refusal() : __libc_realloc(old, size);
}

int pthread_create(pthread_t *thread, const pthread_attr_t *attributes, void *(*body)(void *), void *argument) {
    int (*create)(pthread_t *, const pthread_attr_t *, void *(*)(void *), void *) = dlsym(RTLD_NEXT, "pthread_create");
    return is_refused() ? EAGAIN : create(thread, attributes, body, argument);
}
