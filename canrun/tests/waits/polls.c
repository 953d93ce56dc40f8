/* Waits for descriptors: poll, select, epoll. */
#include "waits.h"

#include <poll.h>
#include <pthread.h>
#include <sys/epoll.h>
#include <sys/eventfd.h>
#include <sys/inotify.h>
#include <sys/select.h>
#include <sys/wait.h>

static struct pollfd polled_pipe(int ends[2]) {
    make_pipe(ends);
    return (struct pollfd){ends[0], POLLIN, 0};
}

static void polls_poll(void) {
    int ends[2];
    struct pollfd polled = polled_pipe(ends);
    begin();
    end(poll(&polled, 1, SOON));
}

static void polls_poll_woken(void) {
    int ends[2];
    struct pollfd polled = polled_pipe(ends);
    begin();
    later(SOON, write_byte, (void *)(intptr_t)ends[1]);
    end(poll(&polled, 1, LONG));
    note("%d", polled.revents);
}

static void polls_poll_hangup(void) {
    int ends[2];
    struct pollfd polled = polled_pipe(ends);
    begin();
    later(SOON, close_it, (void *)(intptr_t)ends[1]);
    end(poll(&polled, 1, -1));
    note("%d", polled.revents);
}

static void polls_poll_alarm(void) {
    int ends[2];
    struct pollfd polled = polled_pipe(ends);
    begin();
    alarm_in(SOON, SA_RESTART);
    end(poll(&polled, 1, LONG));
}

static int self[2];

static void on_self(int number) {
    (void)number;
    write_byte((void *)(intptr_t)self[1]);
}

static void polls_self_pipe(void) {
    struct pollfd polled = polled_pipe(self);
    begin();
    alarm_in(SOON, SA_RESTART);
    signal(SIGALRM, on_self);
    end(poll(&polled, 1, LONG));
    note("%d", poll(&polled, 1, LONG));
}

static void polls_poll_nothing(void) {
    begin();
    end(poll(NULL, 0, SOON));
}

static void polls_poll_closed(void) {
    struct pollfd polled = {700, POLLIN, 0};
    begin();
    end(poll(&polled, 1, SOON));
    note("%d", polled.revents);
}

static void polls_ppoll(void) {
    int ends[2];
    struct pollfd polled = polled_pipe(ends);
    struct timespec t = in_ms(SOON);
    begin();
    end(ppoll(&polled, 1, &t, NULL));
}

static void polls_ppoll_mask(void) {
    sigset_t none, one;
    sigemptyset(&none);
    sigemptyset(&one);
    sigaddset(&one, SIGALRM);
    sigprocmask(SIG_BLOCK, &one, NULL);
    begin();
    alarm_in(SOON, SA_RESTART);
    end(ppoll(NULL, 0, NULL, &none));
    note("%d", (int)alarms);
}

static void polls_ppoll_wrong(void) {
    struct timespec t = {0, -1};
    begin();
    end(ppoll(NULL, 0, &t, NULL));
}

static void polls_select(void) {
    int ends[2];
    struct timeval t = {0, SOON * 1000};
    fd_set set;
    make_pipe(ends);
    FD_ZERO(&set);
    FD_SET(ends[0], &set);
    begin();
    end(select(ends[0] + 1, &set, NULL, NULL, &t));
    note("%d %ld", FD_ISSET(ends[0], &set), (long)t.tv_usec);
}

static void polls_select_woken(void) {
    int ends[2];
    struct timeval t = {LONG / 1000, 0};
    fd_set set;
    make_pipe(ends);
    FD_ZERO(&set);
    FD_SET(ends[0], &set);
    begin();
    later(SOON, write_byte, (void *)(intptr_t)ends[1]);
    end(select(ends[0] + 1, &set, NULL, NULL, &t));
    note("%d %d", FD_ISSET(ends[0], &set), t.tv_sec > 0 && t.tv_sec < LONG / 1000);
}

static void polls_select_alarm(void) {
    struct timeval t = {LONG / 1000, 0};
    begin();
    alarm_in(SOON, SA_RESTART);
    end(select(0, NULL, NULL, NULL, &t));
}

static void polls_select_closed(void) {
    struct timeval t = {LONG / 1000, 0};
    fd_set set;
    FD_ZERO(&set);
    FD_SET(50, &set);
    begin();
    end(select(51, &set, NULL, NULL, &t));
}

static void polls_pselect_mask(void) {
    struct timespec t = in_ms(LONG);
    sigset_t none, one;
    sigemptyset(&none);
    sigemptyset(&one);
    sigaddset(&one, SIGALRM);
    sigprocmask(SIG_BLOCK, &one, NULL);
    begin();
    alarm_in(SOON, 0);
    end(pselect(0, NULL, NULL, NULL, &t, &none));
    note("%d", (int)alarms);
}

static int epoll_of(int fd, uint32_t events) {
    struct epoll_event event = {.events = events, .data.u64 = 5};
    int epoll = epoll_create1(0);
    CHECK(!epoll_ctl(epoll, EPOLL_CTL_ADD, fd, &event));
    return epoll;
}

static void polls_epoll(void) {
    int ends[2];
    struct epoll_event event;
    make_pipe(ends);
    int epoll = epoll_of(ends[0], EPOLLIN);
    begin();
    end(epoll_wait(epoll, &event, 1, SOON));
}

static void polls_epoll_woken(void) {
    int ends[2];
    struct epoll_event event;
    make_pipe(ends);
    int epoll = epoll_of(ends[0], EPOLLIN);
    begin();
    later(SOON, write_byte, (void *)(intptr_t)ends[1]);
    end(epoll_wait(epoll, &event, 1, -1));
    note("%lu", (unsigned long)event.data.u64);
}

static void polls_epoll_edge(void) {
    int ends[2];
    struct epoll_event event;
    make_pipe(ends);
    int epoll = epoll_of(ends[0], EPOLLIN | EPOLLET);
    write_byte((void *)(intptr_t)ends[1]);
    begin();
    int first = epoll_wait(epoll, &event, 1, SOON), second = epoll_wait(epoll, &event, 1, SOON);
    end(10 * first + second);
}

static void polls_epoll_oneshot(void) {
    int ends[2];
    struct epoll_event event;
    make_pipe(ends);
    int epoll = epoll_of(ends[0], EPOLLIN | EPOLLONESHOT);
    write_byte((void *)(intptr_t)ends[1]);
    begin();
    int first = epoll_wait(epoll, &event, 1, SOON), second = epoll_wait(epoll, &event, 1, SOON);
    end(10 * first + second);
}

static void polls_epoll_nested(void) {
    int ends[2];
    struct epoll_event event;
    make_pipe(ends);
    int outer = epoll_of(epoll_of(ends[0], EPOLLIN), EPOLLIN);
    begin();
    later(SOON, write_byte, (void *)(intptr_t)ends[1]);
    end(epoll_wait(outer, &event, 1, LONG));
}

static void polls_epoll_alarm(void) {
    struct epoll_event event;
    int epoll = epoll_create1(0);
    begin();
    alarm_in(SOON, SA_RESTART);
    end(epoll_wait(epoll, &event, 1, LONG));
}

static void polls_epoll_pwait2(void) {
    struct epoll_event event;
    struct timespec t = {0, SOON * 1000000};
    int epoll = epoll_create1(0);
    begin();
    end(epoll_pwait2(epoll, &event, 1, &t, NULL));
}

static void polls_epoll_closed(void) {
    struct epoll_event event;
    begin();
    end(epoll_wait(700, &event, 1, SOON));
}

struct added {
    int epoll, fd;
};

static void add_to_epoll(void *given) {
    struct added *it = given;
    struct epoll_event event = {.events = EPOLLIN};
    epoll_ctl(it->epoll, EPOLL_CTL_ADD, it->fd, &event);
}

static void polls_epoll_added(void) {
    int ends[2];
    struct epoll_event event;
    make_pipe(ends);
    write_byte((void *)(intptr_t)ends[1]);
    struct added added = {epoll_create1(0), ends[0]};
    begin();
    later(SOON, add_to_epoll, &added);
    end(epoll_wait(added.epoll, &event, 1, LONG));
}

static void add_to_counter(void *fd) {
    eventfd_write((int)(intptr_t)fd, 3);
}

static void polls_eventfd(void) {
    struct pollfd polled = {eventfd(0, 0), POLLIN, 0};
    eventfd_t value = 0;
    begin();
    later(SOON, add_to_counter, (void *)(intptr_t)polled.fd);
    end(poll(&polled, 1, LONG));
    eventfd_read(polled.fd, &value);
    note("%lu", (unsigned long)value);
}

static void make_file(void *path) {
    FILE *file = fopen(path, "w");
    CHECK(file);
    fclose(file);
}

static void polls_inotify(void) {
    char path[] = "/tmp/waits.XXXXXX", name[64], data[512];
    CHECK(mkdtemp(path));
    snprintf(name, sizeof name, "%s/new", path);
    int fd = inotify_init();
    inotify_add_watch(fd, path, IN_CREATE);
    begin();
    later(SOON, make_file, name);
    end(read(fd, data, sizeof data) > 0);
    unlink(name);
    rmdir(path);
}

static void *poll_the_same(void *fd) {
    struct pollfd polled = {(int)(intptr_t)fd, POLLIN, 0};
    return (void *)(intptr_t)poll(&polled, 1, LONG);
}

static void polls_two_threads(void) {
    int ends[2];
    struct pollfd polled = polled_pipe(ends);
    void *other;
    pthread_t thread;
    begin();
    pthread_create(&thread, NULL, poll_the_same, (void *)(intptr_t)ends[0]);
    later(SOON, write_byte, (void *)(intptr_t)ends[1]);
    int result = poll(&polled, 1, LONG);
    pthread_join(thread, &other);
    end(10 * result + (intptr_t)other);
}

static void polls_after_fork(void) {
    int ends[2], status;
    struct pollfd polled = polled_pipe(ends);
    begin();
    pid_t pid = fork();
    if (pid == 0) {
        _exit(poll(&polled, 1, LONG));
    }
    later(SOON, write_byte, (void *)(intptr_t)ends[1]);
    int result = poll(&polled, 1, LONG);
    waitpid(pid, &status, 0);
    end(10 * result + WEXITSTATUS(status));
}

const struct wait polls[] = {
    {"polls_poll", SOON, polls_poll},
    {"polls_poll_woken", SOON, polls_poll_woken},
    {"polls_poll_hangup", SOON, polls_poll_hangup},
    {"polls_poll_alarm", SOON, polls_poll_alarm},
    {"polls_self_pipe", SOON, polls_self_pipe},
    {"polls_poll_nothing", SOON, polls_poll_nothing},
    {"polls_poll_closed", 0, polls_poll_closed},
    {"polls_ppoll", SOON, polls_ppoll},
    {"polls_ppoll_mask", SOON, polls_ppoll_mask},
    {"polls_ppoll_wrong", 0, polls_ppoll_wrong},
    {"polls_select", SOON, polls_select},
    {"polls_select_woken", SOON, polls_select_woken},
    {"polls_select_alarm", SOON, polls_select_alarm},
    {"polls_select_closed", 0, polls_select_closed},
    {"polls_pselect_mask", SOON, polls_pselect_mask},
    {"polls_epoll", SOON, polls_epoll},
    {"polls_epoll_woken", SOON, polls_epoll_woken},
    {"polls_epoll_edge", SOON, polls_epoll_edge},
    {"polls_epoll_oneshot", SOON, polls_epoll_oneshot},
    {"polls_epoll_nested", SOON, polls_epoll_nested},
    {"polls_epoll_alarm", SOON, polls_epoll_alarm},
    {"polls_epoll_pwait2", SOON, polls_epoll_pwait2},
    {"polls_epoll_closed", 0, polls_epoll_closed},
    {"polls_epoll_added", SOON, polls_epoll_added},
    {"polls_eventfd", SOON, polls_eventfd},
    {"polls_inotify", SOON, polls_inotify},
    {"polls_two_threads", SOON, polls_two_threads},
    {"polls_after_fork", SOON, polls_after_fork},
    {NULL, 0, NULL},
};
