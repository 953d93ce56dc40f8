/* Makes disk calls of a program fail (LD_PRELOAD), as test_long_runs.py needs it. DISK names a file that the test and
 * the program share. It contains two 64-bit integers for each kind of call: how often the program has made the call,
 * and how often the call may succeed. Further calls fail with EIO. The kinds of calls are writing to a plain file,
 * waiting until the data is on the disk, and truncating a file. Only files that are opened for appending count, so
 * standard error may be a file that does not count. If DISK_MILLIS is set, each write to such a file takes that many
 * milliseconds longer. */
#define _GNU_SOURCE
#include <errno.h>
#include <fcntl.h>
#include <stdatomic.h>
#include <stdbool.h>
#include <stdint.h>
#include <stdlib.h>
#include <sys/mman.h>
#include <sys/stat.h>
#include <sys/syscall.h>
#include <time.h>
#include <unistd.h>

enum { WRITE, SYNC, CUT, CALLS };

static struct { _Atomic uint64_t made, most; } * plan;

static struct timespec delay;

__attribute__((constructor)) static void begin(void) {
    const char *path = getenv("DISK");
    int file = path ? open(path, O_RDWR | O_CLOEXEC) : -1;
    if (file < 0)
        return;
    void *place = mmap(NULL, CALLS * sizeof *plan, PROT_READ | PROT_WRITE, MAP_SHARED, file, 0);
    close(file);
    if (place != MAP_FAILED)
        plan = place;
    const char *millis = getenv("DISK_MILLIS");
    long count = millis ? atol(millis) : 0;
    delay = (struct timespec){count / 1000, count % 1000 * 1000000};
}

static bool is_refused(int call, int file) {
    struct stat found;
    if (!plan || fstat(file, &found) || !S_ISREG(found.st_mode) || !(fcntl(file, F_GETFL) & O_APPEND))
        return false;
    if (call == WRITE)
        nanosleep(&delay, NULL);
    if (atomic_fetch_add(&plan[call].made, 1) < plan[call].most)
        return false;
    errno = EIO;
    return true;
}

ssize_t write(int file, const void *bytes, size_t count) {
    return is_refused(WRITE, file) ? -1 : syscall(SYS_write, file, bytes, count);
}

int fdatasync(int file) {
    return is_refused(SYNC, file) ? -1 : (int)syscall(SYS_fdatasync, file);
}

int ftruncate(int file, off_t length) {
    return is_refused(CUT, file) ? -1 : (int)syscall(SYS_ftruncate, file, length);
}
