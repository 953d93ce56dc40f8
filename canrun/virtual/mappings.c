/* Identifies a location in shared memory by its file and offset, which are the same in all processes that share the
 * memory. */
#define _GNU_SOURCE
#include "calls.h"

#include <fcntl.h>
#include <semaphore.h>
#include <string.h>
#include <sys/mman.h>
#include <sys/shm.h>

#define PAGE 4096ull
#define CACHED 64

struct mapping {
    uint64_t page; /* 0: unused; otherwise the address in pages */
    uint64_t device, inode, offset;
    uint32_t era;
    bool is_shared;
};

/* The cached mappings. The end of any mapping begins a new era, in which the older entries are not valid. */
static struct mapping cached[CACHED];
static uint32_t era = 1;

static uint64_t number_in(const char **at, unsigned base) {
    uint64_t n = 0;
    for (;; (*at)++) {
        char c = **at;
        unsigned digit = c >= '0' && c <= '9'   ? (unsigned)(c - '0')
                         : c >= 'a' && c <= 'f' ? (unsigned)(c - 'a') + 10
                                                : 99;
        if (digit >= base) {
            return n;
        }
        n = n * base + digit;
    }
}

/* Reads a line from maps, such as `7f00-7f01 rw-s 00000000 00:01 123 /name`. Returns whether `place` is in this
 * mapping. */
static bool is_in_line(const char *at, uint64_t place, struct mapping *found) {
    uint64_t first = number_in(&at, 16);
    uint64_t last = (at++, number_in(&at, 16));
    if (place < first || place >= last) {
        return false;
    }
    found->is_shared = at[4] == 's';
    at += 6;
    found->offset = number_in(&at, 16) + (place & ~(PAGE - 1)) - first;
    uint64_t major = (at++, number_in(&at, 16)), minor = (at++, number_in(&at, 16));
    found->device = major << 32 | minor;
    at++;
    found->inode = number_in(&at, 10);
    return true;
}

/* Searches /proc/self/maps without allocating memory from the C library. */
static void find(uint64_t place, struct mapping *found) {
    char text[PAGE + 1];
    long length, kept = 0;
    int fd = (int)RAW(SYS_openat, AT_FDCWD, "/proc/self/maps", O_RDONLY | O_CLOEXEC);
    bool is_found = false, skips = false;
    while (fd >= 0 && !is_found && (length = RAW(SYS_read, fd, text + kept, PAGE - (size_t)kept)) > 0) {
        char *at = text, *end;
        text[kept + length] = 0;
        for (; !is_found && (end = strchr(at, '\n')); at = end + 1) {
            is_found = !skips && is_in_line(at, place, found);
            skips = false;
        }
        kept = (long)strlen(at);
        skips |= kept == (long)PAGE;
        kept = skips ? 0 : kept;
        memmove(text, at, (size_t)kept);
    }
    if (fd >= 0) {
        RAW(SYS_close, fd);
    }
}

uint64_t key_of_any(const volatile void *at, uint64_t salt) {
    uint64_t place = (uint64_t)(uintptr_t)at, page = place / PAGE;
    struct mapping *mapping = &cached[page % CACHED];
    if (mapping->page != page || mapping->era != era) {
        *mapping = (struct mapping){.page = page, .era = era};
        find(place, mapping);
    }
    return mapping->is_shared ? key_of_file(mapping->device, mapping->inode, mapping->offset + place % PAGE + salt)
                              : key_of(at, salt);
}

/* ---- calls that end a mapping ---- */

EXPORT int munmap(void *at, size_t length) {
    era++;
    return (int)answer(RAW(SYS_munmap, at, length));
}

EXPORT void *mmap(void *at, size_t length, int rights, int flags, int fd, off_t offset) {
    era += (flags & MAP_FIXED) != 0;
    return (void *)answer(RAW(SYS_mmap, at, length, rights, flags, fd, offset));
}
ALSO(mmap64, mmap)

EXPORT int shmdt(const void *at) {
    era++;
    return (int)answer(RAW(SYS_shmdt, at));
}

EXPORT int sem_close(sem_t *semaphore) {
    REAL(sem_close);
    era++;
    return real(semaphore);
}
