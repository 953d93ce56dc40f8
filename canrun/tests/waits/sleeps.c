/* Sleeps until a point in time. */
#include "waits.h"

#include <sys/time.h>
#include <threads.h>

static void sleeps_nanosleep(void) {
    struct timespec t = in_ms(SOON);
    begin();
    end(nanosleep(&t, NULL));
}

static void sleeps_nanosleep_left(void) {
    struct timespec t = in_ms(LONG), left = {0, 0};
    begin();
    alarm_in(SOON, SA_RESTART);
    end(nanosleep(&t, &left));
    note("left %d", left.tv_sec >= LONG / 1000 - 2 && left.tv_sec <= LONG / 1000);
}

static void sleeps_nanosleep_zero(void) {
    struct timespec t = {0, 0};
    begin();
    end(nanosleep(&t, NULL));
}

static void sleeps_nanosleep_wrong(void) {
    struct timespec t = {0, 1000000000};
    begin();
    end(nanosleep(&t, NULL));
}

static void sleeps_nanosleep_negative(void) {
    struct timespec t = {-1, 0};
    begin();
    end(nanosleep(&t, NULL));
}

static void sleeps_usleep(void) {
    begin();
    end(usleep(SOON * 1000));
}

static void sleeps_usleep_alarm(void) {
    begin();
    alarm_in(SOON, 0);
    end(usleep(LONG * 1000));
}

static void sleeps_sleep(void) {
    begin();
    end(sleep(1));
}

static void sleeps_sleep_alarm(void) {
    begin();
    alarm_in(SOON, 0);
    end(sleep(2));
}

static void sleep_by(clockid_t id, int flags) {
    begin();
    struct timespec t = flags ? after_ms(id, SOON) : in_ms(SOON);
    int error = clock_nanosleep(id, flags, &t, NULL);
    end(error);
}

static void sleeps_monotonic(void) {
    sleep_by(CLOCK_MONOTONIC, 0);
}

static void sleeps_monotonic_until(void) {
    sleep_by(CLOCK_MONOTONIC, TIMER_ABSTIME);
}

static void sleeps_realtime(void) {
    sleep_by(CLOCK_REALTIME, 0);
}

static void sleeps_realtime_until(void) {
    sleep_by(CLOCK_REALTIME, TIMER_ABSTIME);
}

static void sleeps_boottime_until(void) {
    sleep_by(CLOCK_BOOTTIME, TIMER_ABSTIME);
}

static void sleeps_tai_until(void) {
    sleep_by(CLOCK_TAI, TIMER_ABSTIME);
}

static void sleeps_until_past(void) {
    struct timespec t = {5, 0};
    begin();
    end(clock_nanosleep(CLOCK_REALTIME, TIMER_ABSTIME, &t, NULL));
}

static void sleeps_until_alarm(void) {
    begin();
    struct timespec t = after_ms(CLOCK_MONOTONIC, LONG), left = {77, 0};
    alarm_in(SOON, SA_RESTART);
    end(clock_nanosleep(CLOCK_MONOTONIC, TIMER_ABSTIME, &t, &left));
    note("left %ld", (long)left.tv_sec);
}

static void sleeps_clock_wrong(void) {
    struct timespec t = {0, -1};
    begin();
    end(clock_nanosleep(CLOCK_MONOTONIC, 0, &t, NULL));
}

static void sleeps_clock_thread(void) {
    struct timespec t = in_ms(SOON);
    begin();
    end(clock_nanosleep(CLOCK_THREAD_CPUTIME_ID, 0, &t, NULL));
}

static void sleeps_thrd_sleep(void) {
    struct timespec t = in_ms(SOON);
    begin();
    end(thrd_sleep(&t, NULL));
}

static void sleeps_thrd_sleep_alarm(void) {
    struct timespec t = in_ms(LONG);
    begin();
    alarm_in(SOON, SA_RESTART);
    end(thrd_sleep(&t, NULL) == -1);
}

static void sleeps_two_alarms(void) {
    struct timespec t = in_ms(LONG);
    begin();
    alarm_in(SOON, 0);
    setitimer(ITIMER_REAL, &(struct itimerval){{0, SOON * 1000}, {0, SOON * 1000}}, NULL);
    while (alarms < 3) {
        nanosleep(&t, NULL);
    }
    end(alarms);
}

const struct wait sleeps[] = {
    {"sleeps_nanosleep", SOON, sleeps_nanosleep},
    {"sleeps_nanosleep_left", SOON, sleeps_nanosleep_left},
    {"sleeps_nanosleep_zero", 0, sleeps_nanosleep_zero},
    {"sleeps_nanosleep_wrong", 0, sleeps_nanosleep_wrong},
    {"sleeps_nanosleep_negative", 0, sleeps_nanosleep_negative},
    {"sleeps_usleep", SOON, sleeps_usleep},
    {"sleeps_usleep_alarm", SOON, sleeps_usleep_alarm},
    {"sleeps_sleep", 1000, sleeps_sleep},
    {"sleeps_sleep_alarm", SOON, sleeps_sleep_alarm},
    {"sleeps_monotonic", SOON, sleeps_monotonic},
    {"sleeps_monotonic_until", SOON, sleeps_monotonic_until},
    {"sleeps_realtime", SOON, sleeps_realtime},
    {"sleeps_realtime_until", SOON, sleeps_realtime_until},
    {"sleeps_boottime_until", SOON, sleeps_boottime_until},
    {"sleeps_tai_until", SOON, sleeps_tai_until},
    {"sleeps_until_past", 0, sleeps_until_past},
    {"sleeps_until_alarm", SOON, sleeps_until_alarm},
    {"sleeps_clock_wrong", 0, sleeps_clock_wrong},
    {"sleeps_clock_thread", 0, sleeps_clock_thread},
    {"sleeps_thrd_sleep", SOON, sleeps_thrd_sleep},
    {"sleeps_thrd_sleep_alarm", SOON, sleeps_thrd_sleep_alarm},
    {"sleeps_two_alarms", 3 * SOON, sleeps_two_alarms},
    {NULL, 0, NULL},
};
