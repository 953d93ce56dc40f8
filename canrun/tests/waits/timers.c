/* Clocks, and timers that send signals or call functions. */
#include "waits.h"

#include <pthread.h>
#include <sys/syscall.h>
#include <sys/sysinfo.h>
#include <sys/time.h>
#include <sys/times.h>
#include <sys/timex.h>
#include <threads.h>

static void count_it(int number) {
    (void)number;
    alarms++;
}

static void handle(int number) {
    sigaction(number, &(struct sigaction){.sa_handler = count_it}, NULL);
}

static void timers_alarm(void) {
    handle(SIGALRM);
    begin();
    alarm(1);
    end(pause());
    note("%u", alarm(0));
}

static void timers_alarm_left(void) {
    handle(SIGALRM);
    alarm(3);
    begin();
    usleep(SOON * 1000);
    end(alarm(0));
}

static void timers_ualarm(void) {
    handle(SIGALRM);
    begin();
    ualarm(SOON * 1000, 0);
    end(pause());
}

static void timers_setitimer(void) {
    handle(SIGALRM);
    begin();
    setitimer(ITIMER_REAL, &(struct itimerval){{0, SOON * 1000}, {0, SOON * 1000}}, NULL);
    pause();
    end(pause());
    note("%d", (int)alarms);
}

static void timers_getitimer(void) {
    struct itimerval left;
    handle(SIGALRM);
    begin();
    setitimer(ITIMER_REAL, &(struct itimerval){{0, 0}, {3, 0}}, NULL);
    usleep(SOON * 1000);
    end(getitimer(ITIMER_REAL, &left));
    note("%ld", (long)left.it_value.tv_sec);
}

static timer_t timer_of(struct sigevent *event, clockid_t id) {
    timer_t timer;
    CHECK(!timer_create(id, event, &timer));
    return timer;
}

static void set(timer_t timer, int ms, int period) {
    CHECK(!timer_settime(timer, 0, &(struct itimerspec){in_ms(period), in_ms(ms)}, NULL));
}

static void timers_signal(void) {
    struct sigevent event = {.sigev_notify = SIGEV_SIGNAL, .sigev_signo = SIGUSR1, .sigev_value = {.sival_int = 4}};
    sigset_t one;
    siginfo_t info;
    sigemptyset(&one);
    sigaddset(&one, SIGUSR1);
    sigprocmask(SIG_BLOCK, &one, NULL);
    begin();
    set(timer_of(&event, CLOCK_MONOTONIC), SOON, 0);
    end(sigwaitinfo(&one, &info));
    note("%d %d", info.si_value.sival_int, info.si_code == SI_TIMER);
}

static void timers_absolute(void) {
    struct sigevent event = {.sigev_notify = SIGEV_SIGNAL, .sigev_signo = SIGUSR1};
    timer_t timer = timer_of(&event, CLOCK_REALTIME);
    handle(SIGUSR1);
    begin();
    timer_settime(timer, TIMER_ABSTIME, &(struct itimerspec){{0, 0}, after_ms(CLOCK_REALTIME, SOON)}, NULL);
    end(pause());
}

static volatile int called;
static pthread_mutex_t mutex = PTHREAD_MUTEX_INITIALIZER;
static pthread_cond_t condition = PTHREAD_COND_INITIALIZER;

static void call_it(union sigval value) {
    pthread_mutex_lock(&mutex);
    called += value.sival_int;
    pthread_cond_signal(&condition);
    pthread_mutex_unlock(&mutex);
}

static void timers_thread(void) {
    struct sigevent event = {
        .sigev_notify = SIGEV_THREAD, .sigev_notify_function = call_it, .sigev_value = {.sival_int = 2}};
    pthread_mutex_lock(&mutex);
    begin();
    set(timer_of(&event, CLOCK_MONOTONIC), SOON, SOON);
    while (called < 4) {
        pthread_cond_wait(&condition, &mutex);
    }
    end(called);
}

static void timers_thread_id(void) {
    struct sigevent event = {.sigev_notify = SIGEV_THREAD_ID, .sigev_signo = SIGUSR1};
    event._sigev_un._tid = gettid();
    handle(SIGUSR1);
    begin();
    set(timer_of(&event, CLOCK_BOOTTIME), SOON, 0);
    end(usleep(LONG * 1000));
}

static void timers_none(void) {
    struct sigevent event = {.sigev_notify = SIGEV_NONE};
    struct itimerspec left;
    timer_t timer = timer_of(&event, CLOCK_MONOTONIC);
    begin();
    set(timer, LONG, 0);
    usleep(SOON * 1000);
    end(timer_gettime(timer, &left));
    note("%d", left.it_value.tv_sec >= LONG / 1000 - 2 && left.it_value.tv_sec < LONG / 1000);
}

static void timers_deleted(void) {
    struct sigevent event = {.sigev_notify = SIGEV_SIGNAL, .sigev_signo = SIGUSR1};
    timer_t timer = timer_of(&event, CLOCK_MONOTONIC);
    handle(SIGUSR1);
    begin();
    set(timer, SOON / 2, 0);
    timer_delete(timer);
    end(usleep(SOON * 1000));
}

static void timers_wrong(void) {
    struct sigevent event = {.sigev_notify = SIGEV_SIGNAL, .sigev_signo = SIGUSR1};
    timer_t timer = timer_of(&event, CLOCK_MONOTONIC);
    begin();
    end(timer_settime(timer, 0, &(struct itimerspec){{0, 0}, {0, 1000000000}}, NULL));
}

/* Each clock advances by the duration of a sleep. */
static void timers_clocks(void) {
    static const clockid_t ids[] = {CLOCK_REALTIME, CLOCK_MONOTONIC, CLOCK_MONOTONIC_RAW, CLOCK_BOOTTIME, CLOCK_TAI};
    struct timespec first[5], last;
    int good = 0;
    for (int i = 0; i < 5; i++) {
        clock_gettime(ids[i], &first[i]);
    }
    begin();
    usleep(SOON * 1000);
    end(0);
    for (int i = 0; i < 5; i++) {
        clock_gettime(ids[i], &last);
        good += (last.tv_sec - first[i].tv_sec) * 1000 + (last.tv_nsec - first[i].tv_nsec) / 1000000 >= SOON;
    }
    note("%d", good);
}

static void timers_gettimeofday(void) {
    struct timeval first, last;
    struct timespec t;
    gettimeofday(&first, NULL);
    begin();
    usleep(SOON * 1000);
    end(0);
    gettimeofday(&last, NULL);
    timespec_get(&t, TIME_UTC);
    note("%d %d %d", (last.tv_sec - first.tv_sec) * 1000 + (last.tv_usec - first.tv_usec) / 1000 >= SOON,
         time(NULL) - last.tv_sec <= 1, t.tv_sec - last.tv_sec <= 1);
}

static void timers_times(void) {
    struct tms used;
    clock_t first = times(&used);
    begin();
    usleep(SOON * 1000);
    end(times(&used) - first >= SOON / 10 - 1);
}

static void timers_sysinfo(void) {
    struct sysinfo info;
    struct timespec now;
    sysinfo(&info);
    clock_gettime(CLOCK_BOOTTIME, &now);
    begin();
    end(info.uptime >= now.tv_sec - 1 && info.uptime <= now.tv_sec + 1);
}

static void timers_adjtimex(void) {
    struct timex state = {.modes = 0};
    struct timeval now;
    begin();
    int result = adjtimex(&state);
    gettimeofday(&now, NULL);
    end(result >= 0 && state.time.tv_sec >= now.tv_sec - 1 && state.time.tv_sec <= now.tv_sec);
}

const struct wait timers[] = {
    {"timers_alarm", 1000, timers_alarm},         {"timers_alarm_left", SOON, timers_alarm_left},
    {"timers_ualarm", SOON, timers_ualarm},       {"timers_setitimer", 2 * SOON, timers_setitimer},
    {"timers_getitimer", SOON, timers_getitimer}, {"timers_signal", SOON, timers_signal},
    {"timers_absolute", SOON, timers_absolute},   {"timers_thread", 2 * SOON, timers_thread},
    {"timers_thread_id", SOON, timers_thread_id}, {"timers_none", SOON, timers_none},
    {"timers_deleted", SOON, timers_deleted},     {"timers_wrong", 0, timers_wrong},
    {"timers_clocks", SOON, timers_clocks},       {"timers_gettimeofday", SOON, timers_gettimeofday},
    {"timers_times", SOON, timers_times},         {"timers_sysinfo", 0, timers_sysinfo},
    {"timers_adjtimex", 0, timers_adjtimex},      {NULL, 0, NULL},
};
