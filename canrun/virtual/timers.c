/* Timers that send signals or call a function: alarm, setitimer, timer_create. The timers are in the memory of the run,
 * and the coordinator sends their signals. */
#define _GNU_SOURCE
#include "calls.h"

#include <pthread.h>
#include <stdlib.h>
#include <sys/time.h>
#include <unistd.h>

uint64_t take_due(uint64_t *deadline, uint64_t period) {
    uint64_t now = run->now, times = 1;
    if (*deadline > now) {
        return 0;
    }
    if (period) {
        times += (now - *deadline) / period;
    }
    *deadline = period ? *deadline + times * period : NEVER;
    return times;
}

struct itimerspec left_of(uint64_t deadline, uint64_t period) {
    uint64_t left = deadline == NEVER ? 0 : deadline > run->now ? deadline - run->now : 1;
    return (struct itimerspec){spec_of(period), spec_of(left)};
}

uint64_t deadline_for(clockid_t id, const struct itimerspec *value, bool is_absolute) {
    if (!length_of(&value->it_value)) {
        return NEVER;
    }
    return is_absolute ? moment_of(id, &value->it_value) : after(length_of(&value->it_value));
}

static struct alarm *alarm_of(uint32_t id) {
    uint32_t pid = (uint32_t)RAW(SYS_getpid, 0);
    for (int i = 0; i < ALARMS; i++) {
        if (run->alarms[i].pid == pid && run->alarms[i].id == id) {
            return &run->alarms[i];
        }
    }
    return NULL;
}

/* Creates an alarm. `number` is 0 if the coordinator does not have to send a signal. Returns NULL if there is no free
 * alarm, or if the coordinator refuses the alarm. */
static struct alarm *new_alarm(uint32_t id, int number, uint32_t tid) {
    for (uint32_t i = 0; i < ALARMS; i++) {
        struct alarm *alarm = &run->alarms[i];
        uint32_t none = 0;
        if (!alarm->pid && __atomic_compare_exchange_n((uint32_t *)&alarm->pid, &none, UINT32_MAX, 0, __ATOMIC_SEQ_CST,
                                                       __ATOMIC_SEQ_CST)) {
            run->alarm_count = run->alarm_count > i + 1 ? run->alarm_count : i + 1;
            alarm->tid = tid;
            alarm->number = number;
            alarm->id = id ? id : i + 2;
            alarm->value = alarm->period = alarm->overrun = 0;
            alarm->deadline = NEVER;
            bool is_taken = !number || register_alarm(alarm);
            alarm->pid = is_taken ? (uint32_t)RAW(SYS_getpid, 0) : 0;
            return is_taken ? alarm : NULL;
        }
    }
    return NULL;
}

static uint64_t length_of_value(const struct timeval *t) {
    return (uint64_t)t->tv_sec * SECOND + (uint64_t)t->tv_usec * 1000;
}

static struct itimerval interval_left(const struct alarm *alarm) {
    struct itimerspec left = alarm ? left_of(alarm->deadline, alarm->period) : (struct itimerspec){{0, 0}, {0, 0}};
    return (struct itimerval){{left.it_interval.tv_sec, left.it_interval.tv_nsec / 1000},
                              {left.it_value.tv_sec, (left.it_value.tv_nsec + 999) / 1000}};
}

EXPORT int setitimer(__itimer_which_t which, const struct itimerval *restrict value, struct itimerval *restrict old) {
    if (!run || which != ITIMER_REAL) {
        return (int)answer(RAW(SYS_setitimer, which, value, old));
    }
    struct alarm *alarm = alarm_of(INTERVAL_TIMER);
    if (old) {
        *old = interval_left(alarm);
    }
    alarm = alarm ? alarm : new_alarm(INTERVAL_TIMER, SIGALRM, 0);
    if (!alarm) {
        return errno = EAGAIN, -1;
    }
    alarm->period = length_of_value(&value->it_interval);
    alarm->deadline = length_of_value(&value->it_value) ? after(length_of_value(&value->it_value)) : NEVER;
    return 0;
}

EXPORT int getitimer(__itimer_which_t which, struct itimerval *value) {
    if (!run || which != ITIMER_REAL) {
        return (int)answer(RAW(SYS_getitimer, which, value));
    }
    *value = interval_left(alarm_of(INTERVAL_TIMER));
    return 0;
}

EXPORT unsigned alarm(unsigned n) {
    struct itimerval old, value = {{0, 0}, {n, 0}};
    if (setitimer(ITIMER_REAL, &value, &old)) {
        return 0;
    }
    return (unsigned)old.it_value.tv_sec + (old.it_value.tv_usec > 0);
}

EXPORT useconds_t ualarm(useconds_t n, useconds_t period) {
    struct itimerval old, value = {{period / 1000000, period % 1000000}, {n / 1000000, n % 1000000}};
    return setitimer(ITIMER_REAL, &value, &old) ? 0
                                                : (useconds_t)(old.it_value.tv_sec * 1000000 + old.it_value.tv_usec);
}

/* ---- timer_create ---- */

/* A timer with SIGEV_THREAD. A thread sleeps until the timer is due, and then calls the function. */
struct caller {
    struct alarm *alarm;
    uint32_t id;
    void (*function)(union sigval);
    union sigval value;
};

static void *call_when_due(void *given) {
    struct caller it = *(struct caller *)given;
    free(given);
    while (it.alarm->id == it.id && it.alarm->pid) {
        regain_turn();
        wait_turn(it.alarm->deadline, key_of(it.alarm, 0), KIND_MOMENT);
        uint64_t due = it.alarm->deadline, times = it.alarm->id == it.id ? take_due(&due, it.alarm->period) : 0;
        if (times) {
            it.alarm->deadline = due;
            it.alarm->overrun = (uint32_t)times - 1;
            it.function(it.value);
        }
    }
    return NULL;
}

static int start_caller(struct alarm *alarm, const struct sigevent *event) {
    pthread_attr_t attributes;
    pthread_t thread;
    struct caller *it = malloc(sizeof *it);
    if (!it) {
        return ENOMEM;
    }
    *it = (struct caller){alarm, alarm->id, event->sigev_notify_function, event->sigev_value};
    pthread_attr_init(&attributes);
    pthread_attr_setdetachstate(&attributes, PTHREAD_CREATE_DETACHED);
    int error = pthread_create(&thread, &attributes, call_when_due, it);
    pthread_attr_destroy(&attributes);
    if (error) {
        free(it);
    }
    return error;
}

/* A timer_t contains the index of its alarm and, in the low byte, its clock. */
#define TIMER_OF(place, clock) ((timer_t)(uintptr_t)(((uintptr_t)(place) + 1) << 8 | ((uintptr_t)(clock)&255)))
#define PLACE_OF(timer) (((uintptr_t)(timer) >> 8) - 1)
#define CLOCK_OF(timer) ((clockid_t)((uintptr_t)(timer)&255))

static struct alarm *alarm_of_timer(timer_t timer) {
    uintptr_t place = PLACE_OF(timer);
    bool is_ours = place < ALARMS && run->alarms[place].pid == (uint32_t)RAW(SYS_getpid, 0);
    return is_ours ? &run->alarms[place] : NULL;
}

EXPORT int timer_create(clockid_t id, struct sigevent *restrict event, timer_t *restrict timer) {
    REAL(timer_create);
    if (!run || id == CLOCK_PROCESS_CPUTIME_ID || id == CLOCK_THREAD_CPUTIME_ID) {
        return real(id, event, timer);
    }
    int how = event ? event->sigev_notify : SIGEV_SIGNAL;
    bool sends = how == SIGEV_SIGNAL || how == SIGEV_THREAD_ID;
    uint32_t tid = how == SIGEV_THREAD_ID ? (uint32_t)event->_sigev_un._tid : 0;
    struct alarm *alarm = new_alarm(0, !sends ? 0 : event ? event->sigev_signo : SIGALRM, tid);
    if (!alarm) {
        return errno = EAGAIN, -1;
    }
    uintptr_t place = (uintptr_t)(alarm - run->alarms);
    alarm->value = event ? (uint64_t)(uintptr_t)event->sigev_value.sival_ptr : place;
    int error = how == SIGEV_THREAD ? start_caller(alarm, event) : 0;
    if (error) {
        alarm->pid = 0;
        return errno = error, -1;
    }
    *timer = TIMER_OF(place, id);
    return 0;
}

EXPORT int timer_settime(timer_t timer, int flags, const struct itimerspec *restrict value,
                         struct itimerspec *restrict old) {
    REAL(timer_settime);
    struct alarm *alarm = run ? alarm_of_timer(timer) : NULL;
    if (!alarm) {
        return real(timer, flags, value, old);
    }
    if (!is_proper(&value->it_value) || !is_proper(&value->it_interval)) {
        return errno = EINVAL, -1;
    }
    if (old) {
        *old = left_of(alarm->deadline, alarm->period);
    }
    alarm->period = length_of(&value->it_interval);
    alarm->deadline = deadline_for(CLOCK_OF(timer), value, flags & TIMER_ABSTIME);
    wake(key_of(alarm, 0), 1);
    return 0;
}

EXPORT int timer_gettime(timer_t timer, struct itimerspec *value) {
    REAL(timer_gettime);
    struct alarm *alarm = run ? alarm_of_timer(timer) : NULL;
    if (!alarm) {
        return real(timer, value);
    }
    *value = left_of(alarm->deadline, alarm->period);
    return 0;
}

EXPORT int timer_getoverrun(timer_t timer) {
    REAL(timer_getoverrun);
    struct alarm *alarm = run ? alarm_of_timer(timer) : NULL;
    return alarm ? (int)alarm->overrun : real(timer);
}

EXPORT int timer_delete(timer_t timer) {
    REAL(timer_delete);
    struct alarm *alarm = run ? alarm_of_timer(timer) : NULL;
    if (!alarm) {
        return real(timer);
    }
    alarm->id = 0;
    alarm->deadline = NEVER;
    wake(key_of(alarm, 0), 1);
    alarm->pid = 0;
    return 0;
}
