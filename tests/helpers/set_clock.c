/* Changes the clock of the program that loads it (LD_PRELOAD), as test_server_times.py needs it. The clock jumps by an
 * hour as soon as a file exists at the path in CLOCK. */
#include <stdlib.h>
#include <sys/syscall.h>
#include <time.h>
#include <unistd.h>

int clock_gettime(clockid_t clock, struct timespec *now) {
    int failed = (int)syscall(SYS_clock_gettime, clock, now);
    const char *path = getenv("CLOCK");
    if (!failed && clock == CLOCK_REALTIME && path && !access(path, F_OK))
        now->tv_sec += 3600;
    return failed;
}
