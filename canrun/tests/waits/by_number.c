/* Waits that are called by number with syscall(2), and waits on a word with futex(2). */
#include "waits.h"

#include <fcntl.h>
#include <linux/futex.h>
#include <poll.h>
#include <pthread.h>
#include <sys/epoll.h>
#include <sys/mman.h>
#include <sys/select.h>
#include <sys/syscall.h>
#include <sys/time.h>
#include <sys/timerfd.h>
#include <sys/wait.h>

static uint32_t word, other;

static void by_number_nanosleep(void) {
    struct timespec t = in_ms(SOON);
    begin();
    end(syscall(SYS_nanosleep, &t, NULL));
}

static void by_number_clock_nanosleep(void) {
    begin();
    struct timespec t = after_ms(CLOCK_MONOTONIC, SOON);
    end(syscall(SYS_clock_nanosleep, CLOCK_MONOTONIC, TIMER_ABSTIME, &t, NULL));
}

static void by_number_poll(void) {
    begin();
    end(syscall(SYS_poll, NULL, 0, SOON));
}

static void by_number_select(void) {
    struct timeval t = {0, SOON * 1000};
    begin();
    end(syscall(SYS_select, 0, NULL, NULL, NULL, &t));
}

static void by_number_pselect(void) {
    struct timespec t = in_ms(SOON);
    begin();
    end(syscall(SYS_pselect6, 0, NULL, NULL, NULL, &t, NULL));
}

static void by_number_epoll(void) {
    struct epoll_event event;
    begin();
    end(syscall(SYS_epoll_wait, epoll_create1(0), &event, 1, SOON));
}

static void by_number_epoll_pwait(void) {
    struct epoll_event event;
    begin();
    end(syscall(SYS_epoll_pwait, epoll_create1(0), &event, 1, SOON, NULL, 8));
}

static void by_number_read(void) {
    int ends[2];
    char byte;
    make_pipe(ends);
    begin();
    alarm_in(SOON, 0);
    end(syscall(SYS_read, ends[0], &byte, 1));
}

static void by_number_timerfd(void) {
    uint64_t times = 0;
    struct itimerspec t = {{0, 0}, in_ms(SOON)};
    int fd = (int)syscall(SYS_timerfd_create, CLOCK_MONOTONIC, 0);
    syscall(SYS_timerfd_settime, fd, 0, &t, NULL);
    begin();
    end(syscall(SYS_read, fd, &times, 8));
    note("%lu", (unsigned long)times);
}

static void count_it(int number) {
    (void)number;
    alarms++;
}

static void by_number_timer(void) {
    struct itimerspec t = {{0, 0}, in_ms(SOON)};
    struct sigevent event = {.sigev_notify = SIGEV_SIGNAL, .sigev_signo = SIGALRM};
    int timer = -1;
    sigaction(SIGALRM, &(struct sigaction){.sa_handler = count_it}, NULL);
    CHECK(!syscall(SYS_timer_create, CLOCK_MONOTONIC, &event, &timer));
    CHECK(!syscall(SYS_timer_settime, timer, 0, &t, NULL));
    begin();
    end(syscall(SYS_pause));
    note("%d", (int)alarms);
}

static void by_number_alarm(void) {
    sigaction(SIGALRM, &(struct sigaction){.sa_handler = count_it}, NULL);
    begin();
    syscall(SYS_alarm, 1);
    end(syscall(SYS_pause));
}

static void by_number_setitimer(void) {
    struct itimerval t = {{0, 0}, {0, SOON * 1000}};
    sigaction(SIGALRM, &(struct sigaction){.sa_handler = count_it}, NULL);
    begin();
    syscall(SYS_setitimer, ITIMER_REAL, &t, NULL);
    end(syscall(SYS_pause));
}

static void by_number_fork(void) {
    int status;
    begin();
    pid_t pid = (pid_t)syscall(SYS_clone, SIGCHLD, NULL, NULL, NULL, NULL);
    if (pid == 0) {
        usleep(SOON * 1000);
        _exit(5);
    }
    syscall(SYS_wait4, pid, &status, 0, NULL);
    end(WEXITSTATUS(status));
}

static long futex(uint32_t *at, int operation, uint32_t value, const void *fourth, uint32_t *fifth, uint32_t sixth) {
    return syscall(SYS_futex, at, operation, value, fourth, fifth, sixth);
}

static void by_number_futex_timeout(void) {
    struct timespec t = in_ms(SOON);
    begin();
    end(futex(&word, FUTEX_WAIT_PRIVATE, 0, &t, NULL, 0));
}

static void by_number_futex_until(void) {
    begin();
    struct timespec t = after_ms(CLOCK_REALTIME, SOON);
    end(futex(&word, FUTEX_WAIT_BITSET_PRIVATE | FUTEX_CLOCK_REALTIME, 0, &t, NULL, FUTEX_BITSET_MATCH_ANY));
}

static void by_number_futex_other(void) {
    begin();
    end(futex(&word, FUTEX_WAIT, 1, NULL, NULL, 0));
}

static void by_number_futex_wrong(void) {
    struct timespec t = {0, -1};
    begin();
    end(futex(&word, FUTEX_WAIT, 0, &t, NULL, 0));
}

static void wake_one(void *at) {
    CHECK(futex(at, FUTEX_WAKE_PRIVATE, 1, NULL, NULL, 0) == 1);
}

static void by_number_futex_wake(void) {
    begin();
    later(SOON, wake_one, &word);
    end(futex(&word, FUTEX_WAIT_PRIVATE, 0, NULL, NULL, 0));
}

static void by_number_futex_alarm(void) {
    begin();
    alarm_in(SOON, 0);
    end(futex(&word, FUTEX_WAIT_PRIVATE, 0, NULL, NULL, 0));
}

static void by_number_futex_alarm_restarts(void) {
    begin();
    alarm_in(SOON, SA_RESTART);
    later(2 * SOON, wake_one, &word);
    end(futex(&word, FUTEX_WAIT_PRIVATE, 0, NULL, NULL, 0));
}

static void by_number_futex_alarm_timeout(void) {
    struct timespec t = in_ms(LONG);
    begin();
    alarm_in(SOON, SA_RESTART);
    end(futex(&word, FUTEX_WAIT_PRIVATE, 0, &t, NULL, 0));
}

static void *wait_for_bits(void *bits) {
    futex(&word, FUTEX_WAIT_BITSET_PRIVATE, 0, NULL, NULL, (uint32_t)(intptr_t)bits);
    return bits;
}

/* The bitset selects the second thread, although the other thread has waited longer. */
static void by_number_futex_bits(void) {
    pthread_t threads[2];
    for (intptr_t i = 0; i < 2; i++) {
        pthread_create(&threads[i], NULL, wait_for_bits, (void *)(i + 1));
        usleep(1000);
    }
    begin();
    usleep(SOON * 1000);
    long woken = futex(&word, FUTEX_WAKE_BITSET_PRIVATE, 1, NULL, NULL, 2);
    pthread_join(threads[1], NULL);
    end(woken);
}

static void *wait_for_word(void *at) {
    return (void *)futex(at, FUTEX_WAIT_PRIVATE, 0, NULL, NULL, 0);
}

static void by_number_futex_requeue(void) {
    pthread_t threads[2];
    for (int i = 0; i < 2; i++) {
        pthread_create(&threads[i], NULL, wait_for_word, &word);
    }
    begin();
    usleep(SOON * 1000);
    long moved = futex(&word, FUTEX_CMP_REQUEUE_PRIVATE, 1, (void *)1, &other, 0);
    long woken = futex(&other, FUTEX_WAKE_PRIVATE, 5, NULL, NULL, 0);
    pthread_join(threads[0], NULL);
    pthread_join(threads[1], NULL);
    end(10 * moved + woken);
}

static void by_number_futex_wake_op(void) {
    pthread_t thread;
    other = 4;
    begin();
    pthread_create(&thread, NULL, wait_for_word, &word);
    usleep(SOON * 1000);
    long woken =
        futex(&word, FUTEX_WAKE_OP_PRIVATE, 1, (void *)1, &other, FUTEX_OP(FUTEX_OP_ADD, 3, FUTEX_OP_CMP_EQ, 4));
    pthread_join(thread, NULL);
    end(woken);
    note("%u", other);
}

/* Two processes use two words at the same offset in two pages. */
static void by_number_futex_shared(void) {
    char *pages = mmap(NULL, 8192, PROT_READ | PROT_WRITE, MAP_SHARED | MAP_ANONYMOUS, -1, 0);
    uint32_t *first = (uint32_t *)pages, *second = (uint32_t *)(pages + 4096);
    int status;
    begin();
    pid_t longer = fork();
    if (longer == 0) {
        _exit(futex(first, FUTEX_WAIT, 0, NULL, NULL, 0) == 0);
    }
    usleep(1000);
    pid_t pid = fork();
    if (pid == 0) {
        _exit(futex(second, FUTEX_WAIT, 0, NULL, NULL, 0) == 0);
    }
    usleep(SOON * 1000);
    long woken = futex(second, FUTEX_WAKE, 1, NULL, NULL, 0);
    waitpid(pid, &status, 0);
    end(10 * woken + WEXITSTATUS(status));
    kill(longer, SIGKILL);
}

static void *own_word(void *nothing) {
    futex(&word, FUTEX_LOCK_PI_PRIVATE, 0, NULL, NULL, 0);
    usleep(SOON * 1000);
    futex(&word, FUTEX_UNLOCK_PI_PRIVATE, 0, NULL, NULL, 0);
    return nothing;
}

static void by_number_futex_owner(void) {
    pthread_t thread;
    begin();
    pthread_create(&thread, NULL, own_word, NULL);
    usleep(SOON * 500);
    end(futex(&word, FUTEX_LOCK_PI_PRIVATE, 0, NULL, NULL, 0));
}

const struct wait by_number[] = {
    {"by_number_nanosleep", SOON, by_number_nanosleep},
    {"by_number_clock_nanosleep", SOON, by_number_clock_nanosleep},
    {"by_number_poll", SOON, by_number_poll},
    {"by_number_select", SOON, by_number_select},
    {"by_number_pselect", SOON, by_number_pselect},
    {"by_number_epoll", SOON, by_number_epoll},
    {"by_number_epoll_pwait", SOON, by_number_epoll_pwait},
    {"by_number_read", SOON, by_number_read},
    {"by_number_timerfd", SOON, by_number_timerfd},
    {"by_number_timer", SOON, by_number_timer},
    {"by_number_alarm", 1000, by_number_alarm},
    {"by_number_setitimer", SOON, by_number_setitimer},
    {"by_number_fork", SOON, by_number_fork},
    {"by_number_futex_timeout", SOON, by_number_futex_timeout},
    {"by_number_futex_until", SOON, by_number_futex_until},
    {"by_number_futex_other", 0, by_number_futex_other},
    {"by_number_futex_wrong", 0, by_number_futex_wrong},
    {"by_number_futex_wake", SOON, by_number_futex_wake},
    {"by_number_futex_alarm", SOON, by_number_futex_alarm},
    {"by_number_futex_alarm_restarts", 2 * SOON, by_number_futex_alarm_restarts},
    {"by_number_futex_alarm_timeout", SOON, by_number_futex_alarm_timeout},
    {"by_number_futex_bits", SOON, by_number_futex_bits},
    {"by_number_futex_requeue", SOON, by_number_futex_requeue},
    {"by_number_futex_wake_op", SOON, by_number_futex_wake_op},
    {"by_number_futex_shared", SOON + 1, by_number_futex_shared},
    {"by_number_futex_owner", SOON, by_number_futex_owner},
    {NULL, 0, NULL},
};
