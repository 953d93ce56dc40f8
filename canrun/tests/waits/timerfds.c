/* Timers that programs read, and their descriptors: copies, children, other programs, reused descriptor numbers. */
#include "waits.h"

#include <fcntl.h>
#include <poll.h>
#include <sys/epoll.h>
#include <sys/socket.h>
#include <sys/stat.h>
#include <sys/timerfd.h>
#include <sys/uio.h>
#include <sys/wait.h>

static int timer_in(int ms, int period) {
    int fd = timerfd_create(CLOCK_MONOTONIC, 0);
    CHECK(!timerfd_settime(fd, 0, &(struct itimerspec){in_ms(period), in_ms(ms)}, NULL));
    return fd;
}

static long times_of(int fd) {
    uint64_t times = 0;
    return read(fd, &times, sizeof times) == sizeof times ? (long)times : -1;
}

static void timerfds_read(void) {
    begin();
    int fd = timer_in(SOON, 0);
    end(times_of(fd));
}

static void timerfds_period(void) {
    begin();
    int fd = timer_in(SOON, SOON);
    long sum = times_of(fd) + times_of(fd);
    end(sum + times_of(fd) >= 3);
}

static void timerfds_missed(void) {
    begin();
    int fd = timer_in(SOON, SOON);
    usleep(SOON * 3500);
    end(times_of(fd));
}

static void timerfds_poll(void) {
    begin();
    struct pollfd polled = {timer_in(SOON, 0), POLLIN, 0};
    end(poll(&polled, 1, LONG));
    note("%ld", times_of(polled.fd));
}

static void timerfds_epoll(void) {
    struct epoll_event event = {.events = EPOLLIN | EPOLLET};
    begin();
    int fd = timer_in(SOON, SOON), epoll = epoll_create1(0);
    epoll_ctl(epoll, EPOLL_CTL_ADD, fd, &event);
    int first = epoll_wait(epoll, &event, 1, LONG);
    long times = times_of(fd);
    end(10 * first + epoll_wait(epoll, &event, 1, LONG));
    note("%ld", times);
}

/* epoll reports only one event until the timer is read, however often it has expired. */
static void timerfds_epoll_unread(void) {
    struct epoll_event event = {.events = EPOLLIN | EPOLLET};
    begin();
    int fd = timer_in(SOON, SOON / 3), epoll = epoll_create1(0);
    epoll_ctl(epoll, EPOLL_CTL_ADD, fd, &event);
    int first = epoll_wait(epoll, &event, 1, LONG);
    end(10 * first + epoll_wait(epoll, &event, 1, SOON));
}

static void timerfds_absolute(void) {
    int fd = timerfd_create(CLOCK_REALTIME, TFD_CLOEXEC);
    begin();
    struct itimerspec at = {{0, 0}, after_ms(CLOCK_REALTIME, SOON)};
    timerfd_settime(fd, TFD_TIMER_ABSTIME, &at, NULL);
    end(times_of(fd));
}

static void timerfds_past(void) {
    int fd = timerfd_create(CLOCK_REALTIME, 0);
    begin();
    timerfd_settime(fd, TFD_TIMER_ABSTIME, &(struct itimerspec){{0, 0}, {5, 0}}, NULL);
    end(times_of(fd));
}

static void timerfds_gettime(void) {
    struct itimerspec left;
    begin();
    int fd = timer_in(LONG, 2 * LONG);
    usleep(SOON * 1000);
    end(timerfd_gettime(fd, &left));
    note("%ld %d", (long)left.it_interval.tv_sec, left.it_value.tv_sec >= LONG / 1000 - 2);
}

static void timerfds_set_again(void) {
    struct itimerspec old;
    int fd = timer_in(SOON, 0);
    usleep(2 * SOON * 1000);
    begin();
    timerfd_settime(fd, 0, &(struct itimerspec){{0, 0}, in_ms(SOON)}, &old);
    end(times_of(fd));
    note("%ld", (long)old.it_value.tv_nsec);
}

static void timerfds_off(void) {
    begin();
    struct pollfd polled = {timer_in(SOON / 2, 0), POLLIN, 0};
    timerfd_settime(polled.fd, 0, &(struct itimerspec){{0, 0}, {0, 0}}, NULL);
    end(poll(&polled, 1, SOON));
}

static void timerfds_nonblocking(void) {
    int fd = timerfd_create(CLOCK_MONOTONIC, TFD_NONBLOCK);
    begin();
    end(times_of(fd));
}

static void timerfds_wrong(void) {
    int fd = timerfd_create(CLOCK_MONOTONIC, 0);
    begin();
    int first = timerfd_settime(fd, 0, &(struct itimerspec){{0, 0}, {0, -1}}, NULL);
    end(first);
    note("%d", timerfd_settime(0, 0, &(struct itimerspec){{0, 0}, {0, 1}}, NULL));
    note("%d", timerfd_create(99, 0));
}

static void timerfds_dup(void) {
    int fd = timerfd_create(CLOCK_MONOTONIC, 0), again = dup(fd);
    begin();
    CHECK(!timerfd_settime(again, 0, &(struct itimerspec){{0, 0}, in_ms(SOON)}, NULL));
    end(times_of(fd));
}

static void timerfds_dup_left(void) {
    begin();
    int fd = timer_in(SOON, 0), again = fcntl(fd, F_DUPFD_CLOEXEC, 20);
    close(fd);
    end(times_of(again));
}

static void set_late(void *fd) {
    timerfd_settime((int)(intptr_t)fd, 0, &(struct itimerspec){{0, 0}, in_ms(SOON)}, NULL);
}

static void timerfds_set_by_other(void) {
    int fd = timerfd_create(CLOCK_MONOTONIC, 0);
    begin();
    later(SOON, set_late, (void *)(intptr_t)fd);
    end(times_of(fd));
}

static void timerfds_child(void) {
    begin();
    int fd = timer_in(SOON, 0), status;
    pid_t pid = fork();
    if (pid == 0) {
        _exit((int)times_of(fd));
    }
    waitpid(pid, &status, 0);
    end(WEXITSTATUS(status));
}

static void timerfds_child_sets(void) {
    int fd = timerfd_create(CLOCK_MONOTONIC, 0);
    begin();
    if (fork() == 0) {
        timerfd_settime(fd, 0, &(struct itimerspec){{0, 0}, in_ms(SOON)}, NULL);
        _exit(0);
    }
    end(times_of(fd));
}

/* Another program waits for the timer: dd inherits it and reads the eight bytes. */
static void timerfds_exec(void) {
    begin();
    int fd = timer_in(SOON, 0), status;
    pid_t pid = fork();
    if (pid == 0) {
        dup2(fd, 0);
        execlp("dd", "dd", "bs=8", "count=1", "of=/dev/null", "status=none", NULL);
    }
    waitpid(pid, &status, 0);
    end(WEXITSTATUS(status));
}

static void timerfds_message(void) {
    int ends[2], fd = timerfd_create(CLOCK_MONOTONIC, 0), status;
    char byte = 'x';
    union {
        struct cmsghdr head;
        char room[CMSG_SPACE(sizeof fd)];
    } control;
    struct iovec part = {&byte, 1};
    struct msghdr message = {
        .msg_iov = &part, .msg_iovlen = 1, .msg_control = &control, .msg_controllen = sizeof control};
    CHECK(!socketpair(AF_UNIX, SOCK_STREAM, 0, ends));
    begin();
    pid_t pid = fork();
    if (pid == 0) {
        close(fd);
        recvmsg(ends[1], &message, 0);
        memcpy(&fd, CMSG_DATA(&control.head), sizeof fd);
        _exit((int)times_of(fd));
    }
    control.head = (struct cmsghdr){.cmsg_len = CMSG_LEN(sizeof fd), .cmsg_level = SOL_SOCKET, .cmsg_type = SCM_RIGHTS};
    memcpy(CMSG_DATA(&control.head), &fd, sizeof fd);
    timerfd_settime(fd, 0, &(struct itimerspec){{0, 0}, in_ms(SOON)}, NULL);
    sendmsg(ends[0], &message, 0);
    waitpid(pid, &status, 0);
    end(WEXITSTATUS(status));
}

/* When the timer is due, its descriptor number belongs to another file. No data are written to that file. */
static void reuse(void (*replace)(int fd, int file)) {
    char path[] = "/tmp/waits.XXXXXX";
    struct stat status;
    int file = mkstemp(path), fd = timer_in(SOON / 2, SOON / 2);
    unlink(path);
    replace(fd, file);
    begin();
    usleep(SOON * 1000);
    poll(NULL, 0, 0);
    end(fstat(file, &status));
    note("%ld", (long)status.st_size);
}

static void replace_by_dup2(int fd, int file) {
    dup2(file, fd);
}

static void replace_by_close_range(int fd, int file) {
    close_range((unsigned)fd, (unsigned)fd, 0);
    CHECK(dup(file) == fd);
}

static void replace_by_close(int fd, int file) {
    close(fd);
    CHECK(dup(file) == fd);
}

static void timerfds_reused_dup2(void) {
    reuse(replace_by_dup2);
}

static void timerfds_reused_range(void) {
    reuse(replace_by_close_range);
}

static void timerfds_reused_close(void) {
    reuse(replace_by_close);
}

static void timerfds_many(void) {
    begin();
    for (int i = 0; i < 3000; i++) {
        close(timer_in(SOON, 0));
    }
    int fd = timer_in(SOON, 0);
    begin();
    end(times_of(fd));
}

const struct wait timerfds[] = {
    {"timerfds_read", SOON, timerfds_read},
    {"timerfds_period", 3 * SOON, timerfds_period},
    {"timerfds_missed", 7 * SOON / 2, timerfds_missed},
    {"timerfds_poll", SOON, timerfds_poll},
    {"timerfds_epoll", 2 * SOON, timerfds_epoll},
    {"timerfds_epoll_unread", 2 * SOON, timerfds_epoll_unread},
    {"timerfds_absolute", SOON, timerfds_absolute},
    {"timerfds_past", 0, timerfds_past},
    {"timerfds_gettime", SOON, timerfds_gettime},
    {"timerfds_set_again", SOON, timerfds_set_again},
    {"timerfds_off", SOON, timerfds_off},
    {"timerfds_nonblocking", 0, timerfds_nonblocking},
    {"timerfds_wrong", 0, timerfds_wrong},
    {"timerfds_dup", SOON, timerfds_dup},
    {"timerfds_dup_left", SOON, timerfds_dup_left},
    {"timerfds_set_by_other", 2 * SOON, timerfds_set_by_other},
    {"timerfds_child", SOON, timerfds_child},
    {"timerfds_child_sets", SOON, timerfds_child_sets},
    {"timerfds_exec", SOON, timerfds_exec},
    {"timerfds_message", SOON, timerfds_message},
    {"timerfds_reused_dup2", SOON, timerfds_reused_dup2},
    {"timerfds_reused_range", SOON, timerfds_reused_range},
    {"timerfds_reused_close", SOON, timerfds_reused_close},
    {"timerfds_many", SOON, timerfds_many},
    {NULL, 0, NULL},
};
