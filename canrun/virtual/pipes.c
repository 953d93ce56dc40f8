/* Opens named pipes. Such a call waits for the other end of the pipe. */
#define _GNU_SOURCE
#include "calls.h"
#include "random.h"

#include <fcntl.h>
#include <stdarg.h>
#include <sys/stat.h>
#include <unistd.h>

static uint64_t key_of_pipe(const struct stat *status) {
    return key_of_file(status->st_dev, status->st_ino, 0);
}

/* Returns whether a pipe that is open for reading has a writer. If it has none, tee returns 0. */
static bool has_writer(int fd) {
    int ends[2];
    if (RAW(SYS_pipe2, ends, O_CLOEXEC)) {
        return true;
    }
    long result = RAW(SYS_tee, fd, ends[1], 1, 2 /* SPLICE_F_NONBLOCK */);
    RAW(SYS_close, ends[0]);
    RAW(SYS_close, ends[1]);
    return result != 0;
}

static int open_pipe(int folder, const char *path, int flags, const struct stat *status) {
    int fd;
    regain_turn();
    for (;;) {
        fd = (int)RAW(SYS_openat, folder, path, flags | O_NONBLOCK, 0);
        wake(key_of_pipe(status), SLOTS);
        bool waits = (flags & O_ACCMODE) == O_WRONLY ? fd == -ENXIO : fd >= 0 && !has_writer(fd);
        if (!waits) {
            break;
        }
        uint32_t came = wait_turn_or_cancel(NEVER, key_of_pipe(status), KIND_DESCRIPTOR);
        if (fd >= 0 && came & IS_WOKEN) {
            break; /* A writer has opened the pipe, and may have closed it again. */
        }
        if (fd >= 0) {
            RAW(SYS_close, fd);
        }
        if (ends_wait(came)) {
            fd = -EINTR;
            break;
        }
    }
    if (fd >= 0) {
        RAW(SYS_fcntl, fd, F_SETFL, flags & ~O_NONBLOCK);
    }
    return (int)answer(fd);
}

static int open_at(int folder, const char *path, int flags, mode_t mode) {
    struct stat status;
    cancel_point();
    bool waits = run && !(flags & (O_NONBLOCK | O_PATH)) && (flags & O_ACCMODE) != O_RDWR &&
                 !RAW(SYS_newfstatat, folder, path, &status, 0) && S_ISFIFO(status.st_mode);
    if (waits) {
        return open_pipe(folder, path, flags, &status);
    }
    int fd = (int)answer(RAW(SYS_openat, folder, path, flags, mode));
    random_opened(fd, path);
    return fd;
}

#define MODE(flags)                        \
    mode_t mode = 0;                       \
    if (flags & (O_CREAT | __O_TMPFILE)) { \
        va_list list;                      \
        va_start(list, flags);             \
        mode = va_arg(list, mode_t);       \
        va_end(list);                      \
    }

EXPORT int open(const char *path, int flags, ...) {
    MODE(flags)
    return open_at(AT_FDCWD, path, flags, mode);
}

EXPORT int open64(const char *path, int flags, ...) {
    MODE(flags)
    return open_at(AT_FDCWD, path, flags, mode);
}

ALSO(__open, open)
ALSO(__open64, open64)

EXPORT int creat(const char *path, mode_t mode) {
    return open_at(AT_FDCWD, path, O_CREAT | O_WRONLY | O_TRUNC, mode);
}
ALSO(creat64, creat)

EXPORT int openat(int folder, const char *path, int flags, ...) {
    MODE(flags)
    return open_at(folder, path, flags, mode);
}

EXPORT int openat64(int folder, const char *path, int flags, ...) {
    MODE(flags)
    return open_at(folder, path, flags, mode);
}

EXPORT int __open_2(const char *path, int flags);
EXPORT int __open64_2(const char *path, int flags);
int __open_2(const char *path, int flags) {
    return open_at(AT_FDCWD, path, flags, 0);
}
int __open64_2(const char *path, int flags) {
    return open_at(AT_FDCWD, path, flags, 0);
}

EXPORT int __openat_2(int folder, const char *path, int flags);
EXPORT int __openat64_2(int folder, const char *path, int flags);
int __openat_2(int folder, const char *path, int flags) {
    return open_at(folder, path, flags, 0);
}
int __openat64_2(int folder, const char *path, int flags) {
    return open_at(folder, path, flags, 0);
}
