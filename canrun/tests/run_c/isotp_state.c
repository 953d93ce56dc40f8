/* CAN_ISOTP: the state of a socket while a message is sent, and after a failure: poll, SO_ERROR, the next write, close,
 * signals. */
#include "isotp.h"
#include <sys/epoll.h>
#include <sys/select.h>

static short polled(int fd, short events) {
    struct pollfd one = {fd, events, 0};
    CHECK(poll(&one, 1, 0) >= 0);
    return one.revents;
}

static int error_of(int fd) {
    int error = -1;
    socklen_t length = sizeof error;
    CHECK(getsockopt(fd, SOL_SOCKET, SO_ERROR, &error, &length) == 0 && length == sizeof error);
    return error;
}

/* Returns the events that epoll reports for a socket. The program's event data do not contain the descriptor's number.
 */
static uint32_t epolled(int fd, uint32_t events) {
    struct epoll_event event = {.events = events, .data = {.u64 = 1ull << 40}};
    int epoll = epoll_create1(0);
    CHECK(epoll >= 0 && epoll_ctl(epoll, EPOLL_CTL_ADD, fd, &event) == 0);
    int count = epoll_wait(epoll, &event, 1, 0);
    CHECK(count >= 0 && event.data.u64 == 1ull << 40 && close(epoll) == 0);
    return count ? event.events : 0;
}

/* Checks the events of a socket that has an error. `more` is POLLIN if a message arrived later, and otherwise 0. */
static void has_error(int fd, short more) {
    fd_set readable, writable;
    FD_ZERO(&readable);
    FD_ZERO(&writable);
    FD_SET(fd, &readable);
    FD_SET(fd, &writable);
    CHECK(polled(fd, POLLIN | POLLOUT) == (POLLOUT | POLLERR | more));
    CHECK(polled(fd, POLLIN) == (POLLERR | more) && polled(fd, POLLOUT) == (POLLOUT | POLLERR));
    CHECK(epolled(fd, EPOLLIN | EPOLLOUT | EPOLLET) == (EPOLLOUT | EPOLLERR | (uint32_t)more));
    CHECK(epolled(fd, EPOLLIN) == (EPOLLERR | (uint32_t)more));
    CHECK(select(fd + 1, &readable, &writable, NULL, &(struct timeval){0, 0}) == 2);
}

static void has_none(int fd) {
    CHECK(polled(fd, POLLIN | POLLOUT) == POLLOUT && epolled(fd, EPOLLIN | EPOLLOUT) == EPOLLOUT);
}

static void becomes_writable(int fd) {
    struct pollfd one = {fd, POLLOUT, 0};
    CHECK(poll(&one, 1, PATIENCE) == 1 && one.revents & POLLOUT);
}

/* A socket that is not bound sends and receives nothing. */
static void unbound(void) {
    int fd = made();
    FAILS(write(fd, "x", 1), EADDRNOTAVAIL);
    FAILS(recv(fd, &(char){0}, 1, MSG_DONTWAIT), EADDRNOTAVAIL);
    FAILS(read(fd, &(char){0}, 1), EADDRNOTAVAIL);
    CHECK(bind_isotp(fd, RX, TX) == 0);
    FAILS(recv(fd, &(char){0}, 1, MSG_DONTWAIT), EAGAIN);
    FAILS(recv(fd, &(char){0}, 1, MSG_WAITALL), EINVAL);
    CHECK(close(fd) == 0);
}

/* While a message waits for flow control the socket is not writable, and a nonblocking write fails. */
static void busy(void) {
    int fd = made();
    struct sockaddr_can own;
    socklen_t length = sizeof own;
    CHECK(bind_isotp(fd, RX, TX) == 0);
    CHECK(polled(fd, POLLOUT | POLLIN) == POLLOUT);
    CHECK(write(fd, "0123456789", 10) == 10);
    SEES("\x10\x0A"
         "012345");
    CHECK(polled(fd, POLLOUT | POLLIN) == 0);
    FAILS(send(fd, "y", 1, MSG_DONTWAIT), EAGAIN);
    FAILS(send(fd, "", 0, MSG_DONTWAIT), EAGAIN);
    CHECK(getsockname(fd, (struct sockaddr *)&own, &length) == 0 && own.can_addr.tp.tx_id == TX);
    CHECK(polled(fd, POLLOUT | POLLIN) == 0);
    SAYS("\x30\0\0");
    SEES("\x21"
         "6789");
    becomes_writable(fd);
    CHECK(write(fd, "z", 1) == 1);
    SEES("\1z");
    CHECK(close(fd) == 0);
}

/* The error of a sent message becomes the socket's error. The first call reports and clears it, so later calls do not
 * report it. */
static void fault(const char *control, size_t length, int error) {
    int fd = made();
    CHECK(bind_isotp(fd, RX, TX) == 0);
    for (int how = 0; how < 3; how++) {
        CHECK(write(fd, "0123456789", 10) == 10);
        SEES("\x10\x0A"
             "012345");
        if (length) {
            says(control, length);
        }
        becomes_writable(fd);
        has_error(fd, 0);
        if (how == 0) {
            CHECK(error_of(fd) == error);
        } else if (how == 1) {
            FAILS(write(fd, "x", 1), error);
        } else {
            FAILS(recv(fd, &(char){0}, 1, 0), error);
        }
        has_none(fd);
        CHECK(error_of(fd) == 0);
        FAILS(recv(fd, &(char){0}, 1, MSG_DONTWAIT), EAGAIN);
    }
    CHECK(write(fd, "x", 1) == 1);
    SEES("\1x");
    CHECK(close(fd) == 0);
}
#define FAULT(bytes, error) fault(bytes, sizeof(bytes) - 1, error)

/* The error of a received message becomes the socket's error. Data that arrived before stay readable. */
static void received_fault(void) {
    int fd = made();
    CHECK(bind_isotp(fd, RX, TX) == 0);
    SAYS("\x10\x14"
         "012345");
    SEES("\x30\0\0");
    SAYS("\x22"
         "6789abc");
    CHECK(comes(fd, PATIENCE));
    has_error(fd, 0);
    CHECK(error_of(fd) == EILSEQ);
    has_none(fd);
    SAYS("\1a");
    reads(fd, "a", 1);
    SAYS("\x10\x14"
         "012345");
    SEES("\x30\0\0");
    CHECK(comes(fd, PATIENCE));
    FAILS(write(fd, "x", 1), ETIMEDOUT);
    CHECK(close(fd) == 0);
}

static void on_signal(int number) {
    (void)number;
}

/* A signal whose handler lacks SA_RESTART ends a waiting write. */
static void signals(void) {
    int fd = made();
    struct sigaction action = {.sa_handler = on_signal};
    CHECK(sigaction(SIGALRM, &action, NULL) == 0);
    CHECK(bind_isotp(fd, RX, TX) == 0);
    CHECK(write(fd, "0123456789", 10) == 10);
    SEES("\x10\x0A"
         "012345");
    struct itimerval soon = {.it_value = {0, 50000}};
    CHECK(setitimer(ITIMER_REAL, &soon, NULL) == 0);
    FAILS(write(fd, "y", 1), EINTR);
    SAYS("\x30\0\0");
    SEES("\x21"
         "6789");
    CHECK(close(fd) == 0);
    fd = made();
    set_options(fd, (struct can_isotp_options){.flags = CAN_ISOTP_WAIT_TX_DONE});
    CHECK(bind_isotp(fd, RX, TX) == 0);
    CHECK(setitimer(ITIMER_REAL, &soon, NULL) == 0);
    FAILS(write(fd, "0123456789", 10), EINTR);
    SEES("\x10\x0A"
         "012345");
    SAYS("\x30\0\0"); /* The message has been aborted. */
    CHECK(!comes(peer, QUIET));
    CHECK(close(fd) == 0);
}

/* close waits until the message has been sent, so a new socket sees none of its frames. */
static void closing(void) {
    int fd = made();
    CHECK(bind_isotp(fd, RX, TX) == 0);
    CHECK(write(fd, "0123456789", 10) == 10);
    SEES("\x10\x0A"
         "012345");
    pid_t child = fork();
    if (child == 0) {
        usleep(QUIET * 1000);
        SAYS("\x30\0\0");
        _exit(0);
    }
    close(fd); /* The child has a copy, so this close does not wait. */
    SEES("\x21"
         "6789");
    int status;
    CHECK(waitpid(child, &status, 0) == child && status == 0);
}

static void closing_last(void) {
    int fd = made(), ends[2];
    CHECK(pipe(ends) == 0);
    pid_t child = fork();
    if (child == 0) {
        struct timespec before, after;
        CHECK(bind_isotp(fd, RX, TX) == 0);
        CHECK(write(fd, "0123456789", 10) == 10);
        CHECK(read(ends[0], &(char){0}, 1) == 1); /* The other copy is closed. */
        clock_gettime(CLOCK_MONOTONIC, &before);
        CHECK(close(fd) == 0);
        clock_gettime(CLOCK_MONOTONIC, &after);
        /* No flow control frame arrives, so the message fails one second after its first frame. */
        CHECK(after.tv_sec - before.tv_sec + (after.tv_nsec - before.tv_nsec) / 1e9 > 0.3);
        _exit(0);
    }
    close(fd);
    SEES("\x10\x0A"
         "012345");
    CHECK(write(ends[1], "x", 1) == 1);
    int status;
    CHECK(waitpid(child, &status, 0) == child && status == 0);
}

int main(void) {
    meet_peer();
    unbound();
    busy();
    FAULT("\x32\0\0", EMSGSIZE);
    FAULT("\x35\0\0", EBADMSG);
    FAULT("\x30\0", EBADMSG);
    FAULT("", ECOMM);
    received_fault();
    signals();
    closing();
    closing_last();
    return 0;
}
