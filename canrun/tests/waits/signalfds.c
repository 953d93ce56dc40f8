/* Descriptors from which signals are read, directly and through epoll descriptors. */
#include "waits.h"

#include <poll.h>
#include <sys/epoll.h>
#include <sys/signalfd.h>
#include <sys/time.h>
#include <sys/wait.h>

static int reader_of(int number) {
    sigset_t one;
    sigemptyset(&one);
    sigaddset(&one, number);
    sigprocmask(SIG_BLOCK, &one, NULL);
    return signalfd(-1, &one, 0);
}

static void come_in(int ms) {
    setitimer(ITIMER_REAL, &(struct itimerval){{0, 0}, {0, ms * 1000}}, NULL);
}

/* Starts another process that sleeps repeatedly. At each sleep it polls the epoll descriptor of the run. */
static void other_process(void) {
    if (fork() == 0) {
        for (int i = 0; i < 20; i++) {
            usleep(SOON * 100);
        }
        _exit(0);
    }
}

static int number_in(int fd) {
    struct signalfd_siginfo info;
    return read(fd, &info, sizeof info) == sizeof info ? (int)info.ssi_signo : -1;
}

static void signalfds_read(void) {
    int fd = reader_of(SIGALRM);
    other_process();
    begin();
    come_in(SOON);
    end(number_in(fd));
}

static void signalfds_poll(void) {
    struct pollfd polled = {reader_of(SIGALRM), POLLIN, 0};
    other_process();
    begin();
    come_in(SOON);
    end(poll(&polled, 1, LONG));
    note("%d", number_in(polled.fd));
}

static int epoll_of(int fd, uint32_t events) {
    struct epoll_event event = {.events = events, .data.u64 = 9};
    int epoll = epoll_create1(0);
    CHECK(!epoll_ctl(epoll, EPOLL_CTL_ADD, fd, &event));
    return epoll;
}

static void wait_with(uint32_t events, bool is_nested) {
    int fd = reader_of(SIGALRM), epoll = epoll_of(fd, events);
    struct epoll_event event;
    epoll = is_nested ? epoll_of(epoll, EPOLLIN) : epoll;
    other_process();
    begin();
    come_in(SOON);
    end(epoll_wait(epoll, &event, 1, LONG));
    note("%d %lu", number_in(fd), (unsigned long)event.data.u64);
}

static void signalfds_epoll(void) {
    wait_with(EPOLLIN, false);
}

static void signalfds_epoll_edge(void) {
    wait_with(EPOLLIN | EPOLLET, false);
}

static void signalfds_epoll_oneshot(void) {
    wait_with(EPOLLIN | EPOLLONESHOT, false);
}

static void signalfds_nested(void) {
    wait_with(EPOLLIN, true);
}

/* Another process sends a signal twice. */
static void signalfds_from_parent(void) {
    int status;
    begin();
    pid_t pid = fork();
    if (pid == 0) {
        int fd = reader_of(SIGTERM), epoll = epoll_of(fd, EPOLLIN), count = 0;
        struct epoll_event event;
        while (count < 2 && epoll_wait(epoll, &event, 1, LONG) == 1 && number_in(fd) == SIGTERM) {
            count++;
        }
        _exit(count);
    }
    other_process();
    for (int i = 0; i < 2; i++) {
        usleep(SOON * 500);
        kill(pid, SIGTERM);
    }
    waitpid(pid, &status, 0);
    end(WEXITSTATUS(status));
}

/* The signal is sent before the wait begins. */
static void signalfds_came_before(void) {
    int fd = reader_of(SIGALRM), epoll = epoll_of(fd, EPOLLIN);
    struct epoll_event event;
    other_process();
    begin();
    int first = epoll_wait(epoll, &event, 1, SOON / 3);
    come_in(SOON / 3);
    usleep(SOON * 2000 / 3);
    end(10 * first + epoll_wait(epoll, &event, 1, LONG));
}

static void signalfds_child(void) {
    int fd = reader_of(SIGCHLD), epoll = epoll_of(fd, EPOLLIN);
    struct epoll_event event;
    other_process();
    begin();
    if (fork() == 0) {
        usleep(SOON * 1000);
        _exit(0);
    }
    end(epoll_wait(epoll, &event, 1, LONG));
}

static void signalfds_nothing(void) {
    int fd = reader_of(SIGALRM), epoll = epoll_of(fd, EPOLLIN);
    struct epoll_event event;
    begin();
    end(epoll_wait(epoll, &event, 1, SOON));
}

static void signalfds_edge_again(void) {
    int fd = reader_of(SIGALRM), epoll = epoll_of(fd, EPOLLIN | EPOLLET);
    struct epoll_event event;
    other_process();
    begin();
    come_in(SOON);
    int first = epoll_wait(epoll, &event, 1, LONG), second = epoll_wait(epoll, &event, 1, SOON);
    end(10 * first + second);
}

const struct wait signalfds[] = {
    {"signalfds_read", SOON, signalfds_read},
    {"signalfds_poll", SOON, signalfds_poll},
    {"signalfds_epoll", SOON, signalfds_epoll},
    {"signalfds_epoll_edge", SOON, signalfds_epoll_edge},
    {"signalfds_epoll_oneshot", SOON, signalfds_epoll_oneshot},
    {"signalfds_nested", SOON, signalfds_nested},
    {"signalfds_from_parent", SOON, signalfds_from_parent},
    {"signalfds_came_before", SOON, signalfds_came_before},
    {"signalfds_child", SOON, signalfds_child},
    {"signalfds_nothing", SOON, signalfds_nothing},
    {"signalfds_edge_again", 2 * SOON, signalfds_edge_again},
    {NULL, 0, NULL},
};
