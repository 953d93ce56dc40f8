/* Random bytes and addresses of a program. They depend on the seed, and are the same in every run. */
#define _GNU_SOURCE
#include "random.h"
#include "calls.h"

#include <fcntl.h>
#include <stdlib.h>
#include <string.h>
#include <sys/auxv.h>
#include <sys/stat.h>
#include <sys/sysmacros.h>

/* The environment variable that pytest sets when each phase of a test begins. */
#define TEST "PYTEST_CURRENT_TEST"
/* Only descriptors below this number can be recorded as /dev/random or /dev/urandom. */
#define DEVICES 1024
/* The device numbers, as in Linux's devices.txt. */
enum { MEMORY_DEVICES = 1, RANDOM_DEVICE = 8, URANDOM_DEVICE = 9 };
/* The maximum number of bytes that getentropy returns. */
#define MOST_ENTROPY 256

static void fill(void *data, size_t length) {
    char *at = data;
    struct slot *slot = my_slot();
    for (size_t part; length; length -= part, at += part) {
        uint64_t bytes = draw(slot, CHANCE_BYTES, ++slot->reads);
        part = length < sizeof bytes ? length : sizeof bytes;
        memcpy(at, &bytes, part);
    }
}

/* The kernel checks the arguments of getrandom. Then the run's random bytes replace the kernel's. */
EXPORT ssize_t getrandom(void *data, size_t length, unsigned flags) {
    ssize_t result = answer(RAW(SYS_getrandom, data, length, flags));
    if (run && result > 0) {
        fill(data, (size_t)result);
    }
    return result;
}

EXPORT int getentropy(void *data, size_t length) {
    if (length > MOST_ENTROPY) {
        return errno = EIO, -1;
    }
    return getrandom(data, length, 0) == (ssize_t)length ? 0 : -1;
}

EXPORT void arc4random_buf(void *data, size_t length);
void arc4random_buf(void *data, size_t length) {
    for (size_t done = 0; done < length;) {
        ssize_t part = getrandom((char *)data + done, length - done, 0);
        done += part > 0 ? (size_t)part : 0;
    }
}

EXPORT uint32_t arc4random(void);
uint32_t arc4random(void) {
    uint32_t number;
    arc4random_buf(&number, sizeof number);
    return number;
}

/* Draws again if a number is below `least`, so that all results are equally likely. */
EXPORT uint32_t arc4random_uniform(uint32_t bound);
uint32_t arc4random_uniform(uint32_t bound) {
    uint32_t number, least = bound ? -bound % bound : 0;
    do {
        number = arc4random();
    } while (number < least);
    return bound ? number % bound : 0;
}

/* ---- /dev/urandom ---- */

static bool may_be_device[DEVICES];

static bool is_device(int fd) {
    struct stat status;
    return !RAW(SYS_newfstatat, fd, "", &status, AT_EMPTY_PATH) && S_ISCHR(status.st_mode) &&
           major(status.st_rdev) == MEMORY_DEVICES &&
           (minor(status.st_rdev) == RANDOM_DEVICE || minor(status.st_rdev) == URANDOM_DEVICE);
}

void random_opened(int fd, const char *path) {
    if (run && fd >= 0 && fd < DEVICES && (!strcmp(path, "/dev/urandom") || !strcmp(path, "/dev/random"))) {
        may_be_device[fd] = true;
    }
}

void random_read(int fd, const struct iovec *parts, int count, ssize_t length) {
    if (length <= 0 || fd < 0 || fd >= DEVICES || !may_be_device[fd] || !is_device(fd)) {
        return;
    }
    for (int i = 0; i < count && length > 0; i++) {
        size_t part = parts[i].iov_len < (size_t)length ? parts[i].iov_len : (size_t)length;
        fill(parts[i].iov_base, part);
        length -= (ssize_t)part;
    }
}

/* ---- the start of a pytest test ---- */

static void note_setting(const char *name, const char *value) {
    if (run && !strcmp(name, TEST)) {
        regain_turn();
        begin_test(value);
    }
}

EXPORT int setenv(const char *name, const char *value, int replaces) {
    REAL(setenv);
    int result = real(name, value, replaces);
    if (!result) {
        note_setting(name, value);
    }
    return result;
}

EXPORT int putenv(char *text) {
    REAL(putenv);
    int result = real(text);
    if (!result && !strncmp(text, TEST "=", sizeof TEST)) {
        note_setting(TEST, text + sizeof TEST);
    }
    return result;
}

/* The kernel passes 16 random bytes to every program. Standard input may be a random device. */
void start_random(void) {
    void *bytes = (void *)(uintptr_t)getauxval(AT_RANDOM);
    if (bytes) {
        fill(bytes, 16);
    }
    may_be_device[0] = true;
}
