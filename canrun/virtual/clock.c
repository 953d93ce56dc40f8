/* Clocks, and waits until a point in time. */
#define _GNU_SOURCE
#include "calls.h"

#include <sched.h>
#include <sys/sysinfo.h>
#include <sys/time.h>
#include <sys/times.h>
#include <sys/timex.h>
#include <threads.h>
#include <unistd.h>

/* After this many clock reads without a wait between them, 10 microseconds of virtual time pass. After each further
 * hundred reads twice as much time passes, up to a millisecond. So a busy wait ends, and it ends in the same way in
 * every run. */
#define LOOKS 2000
#define LOOKS_MORE 100
#define FIRST_STEP 10000ull
#define LAST_STEP 1000000ull

void looked(void) {
    uint64_t now = run->now;
    if (now != my.looked_at) {
        my.looked_at = now;
        my.looks = 0;
        my.step = FIRST_STEP;
    } else if (++my.looks >= LOOKS && !my.is_deciding) {
        uint64_t step = my.step ? my.step : FIRST_STEP;
        run->spun += step;
        regain_turn();
        wait_turn(now + step, 0, KIND_MOMENT);
        my.looks = LOOKS - LOOKS_MORE;
        my.looked_at = run->now;
        my.step = step * 2 > LAST_STEP ? LAST_STEP : step * 2;
    }
}

void forget_look(void) {
    my.looks -= my.looks > 0;
}

bool is_of_day(clockid_t id) {
    return id == CLOCK_REALTIME || id == CLOCK_REALTIME_COARSE || id == CLOCK_TAI || id == CLOCK_REALTIME_ALARM;
}

static bool is_of_processor(clockid_t id) {
    return id == CLOCK_PROCESS_CPUTIME_ID || id == CLOCK_THREAD_CPUTIME_ID || id < 0;
}

uint64_t moment_of(clockid_t id, const struct timespec *t) {
    __int128 n = (__int128)t->tv_sec * SECOND + t->tv_nsec;
    n -= is_of_day(id) ? run->epoch : UPTIME;
    return n < 0 ? 0 : n >= NEVER / 4 ? NEVER : (uint64_t)n;
}

EXPORT int CALL(clock_gettime)(clockid_t id, struct timespec *t) {
    if (!run || is_of_processor(id)) {
        return (int)answer(RAW(SYS_clock_gettime, id, t));
    }
    looked();
    *t = spec_of(run->now + (is_of_day(id) ? run->epoch : UPTIME));
    return 0;
}

#ifndef FOR_BRIDGE

EXPORT int gettimeofday(struct timeval *restrict t, void *restrict zone) {
    struct timespec now;
    if (!run) {
        return (int)answer(RAW(SYS_gettimeofday, t, zone));
    }
    clock_gettime(CLOCK_REALTIME, &now);
    *t = (struct timeval){now.tv_sec, now.tv_nsec / 1000};
    return 0;
}

ALSO(__gettimeofday, gettimeofday)

EXPORT time_t time(time_t *t) {
    struct timespec now;
    clock_gettime(CLOCK_REALTIME, &now);
    if (t) {
        *t = now.tv_sec;
    }
    return now.tv_sec;
}

EXPORT int timespec_get(struct timespec *t, int base) {
    return base == TIME_UTC && !clock_gettime(CLOCK_REALTIME, t) ? base : 0;
}

EXPORT clock_t times(struct tms *used) {
    long result = RAW(SYS_times, used);
    return run ? (clock_t)((run->now + UPTIME) / (SECOND / 100)) : (clock_t)result;
}

/* Returns the system information of the machine, but with the uptime of the run. */
EXPORT int sysinfo(struct sysinfo *info) {
    int result = (int)answer(RAW(SYS_sysinfo, info));
    if (run && !result) {
        info->uptime = (long)((run->now + UPTIME) / SECOND);
    }
    return result;
}

/* ---- a program cannot set the clocks of a run ---- */

EXPORT int clock_settime(clockid_t id, const struct timespec *t) {
    return run ? (errno = EPERM, -1) : (int)answer(RAW(SYS_clock_settime, id, t));
}

EXPORT int settimeofday(const struct timeval *t, const struct timezone *zone) {
    return run ? (errno = EPERM, -1) : (int)answer(RAW(SYS_settimeofday, t, zone));
}

EXPORT int clock_adjtime(clockid_t id, struct timex *state) {
    if (run && state->modes) {
        return errno = EPERM, -1;
    }
    int result = (int)answer(RAW(SYS_clock_adjtime, id, state));
    if (run && result >= 0) {
        uint64_t now = run->now + (is_of_day(id) ? run->epoch : UPTIME);
        uint64_t part = state->status & STA_NANO ? 1 : 1000;
        state->time = (struct timeval){(time_t)(now / SECOND), (suseconds_t)(now % SECOND / part)};
    }
    return result;
}

EXPORT int adjtimex(struct timex *state) {
    return clock_adjtime(CLOCK_REALTIME, state);
}
ALSO(__adjtimex, adjtimex)
ALSO(ntp_adjtime, adjtimex)

EXPORT int ntp_gettimex(struct ntptimeval *state) {
    struct timex whole = {.modes = 0};
    int result = adjtimex(&whole);
    *state = (struct ntptimeval){
        .time = whole.time, .maxerror = whole.maxerror, .esterror = whole.esterror, .tai = whole.tai};
    return result;
}
ALSO(ntp_gettime, ntp_gettimex)

/* ---- sleeps ---- */

/* Sleeps until this deadline. Returns false if a signal arrived before the deadline. */
static bool sleep_until(uint64_t deadline) {
    cancel_point();
    regain_turn();
    if (deadline <= run->now) {
        looked();
        yield_turn();
        return true;
    }
    uint32_t flags = wait_turn_or_cancel(deadline, 0, KIND_MOMENT);
    return !(flags & IS_INTERRUPTED) || run->now >= deadline;
}

EXPORT int clock_nanosleep(clockid_t id, int flags, const struct timespec *t, struct timespec *left) {
    if (id == CLOCK_THREAD_CPUTIME_ID) {
        return EINVAL;
    }
    if (!run || is_of_processor(id)) {
        return (int)-RAW(SYS_clock_nanosleep, id, flags, t, left);
    }
    if (!is_proper(t)) {
        return EINVAL;
    }
    uint64_t deadline = flags & TIMER_ABSTIME ? moment_of(id, t) : after(length_of(t));
    if (sleep_until(deadline)) {
        return 0;
    }
    if (left && !(flags & TIMER_ABSTIME)) {
        *left = spec_of(deadline > run->now ? deadline - run->now : 0);
    }
    return EINTR;
}

EXPORT int nanosleep(const struct timespec *t, struct timespec *left) {
    if (!run) {
        return (int)answer(RAW(SYS_nanosleep, t, left));
    }
    int error = clock_nanosleep(CLOCK_MONOTONIC, 0, t, left);
    if (error) {
        errno = error;
    }
    return error ? -1 : 0;
}
ALSO(__nanosleep, nanosleep)

EXPORT int usleep(useconds_t n) {
    return nanosleep(&(struct timespec){n / 1000000, (long)(n % 1000000) * 1000}, NULL);
}

EXPORT unsigned sleep(unsigned n) {
    struct timespec left = {0, 0};
    return nanosleep(&(struct timespec){n, 0}, &left) ? (unsigned)left.tv_sec : 0;
}

EXPORT int thrd_sleep(const struct timespec *t, struct timespec *left) {
    int error = run ? clock_nanosleep(CLOCK_MONOTONIC, 0, t, left) : (int)-RAW(SYS_nanosleep, t, left);
    return error == 0 ? 0 : error == EINTR ? -1 : -2;
}

static void yield(void) {
    looked();
    regain_turn();
    yield_turn();
}

EXPORT int sched_yield(void) {
    if (!run) {
        return (int)answer(RAW(SYS_sched_yield, 0));
    }
    yield();
    return 0;
}
ALSO(__sched_yield, sched_yield)
ALSO(pthread_yield, sched_yield)

EXPORT void thrd_yield(void) {
    sched_yield();
}

#endif
