/* poll, select and epoll, level-triggered and edge-triggered, report a frame if and only if there is one. */
#include "check.h"
#include <sys/epoll.h>
#include <sys/select.h>

static int selected(int fd, int milliseconds) {
    fd_set set;
    struct timeval limit = {milliseconds / 1000, milliseconds % 1000 * 1000};
    FD_ZERO(&set);
    FD_SET(fd, &set);
    return select(fd + 1, &set, NULL, NULL, &limit);
}

static int waited(int epoll, int milliseconds) {
    struct epoll_event event;
    return epoll_wait(epoll, &event, 1, milliseconds);
}

int main(void) {
    int writer = bound("can0"), reader = bound("can1"), level = epoll_create1(0), edge = epoll_create1(0);
    struct epoll_event on_level = {.events = EPOLLIN}, on_edge = {.events = EPOLLIN | EPOLLET};
    struct pollfd to_write = {writer, POLLOUT, 0};
    CHECK(poll(&to_write, 1, 0) == 1 && to_write.revents == POLLOUT);
    CHECK(epoll_ctl(level, EPOLL_CTL_ADD, reader, &on_level) == 0 &&
          epoll_ctl(edge, EPOLL_CTL_ADD, reader, &on_edge) == 0);
    CHECK(!comes(reader, QUIET) && selected(reader, 0) == 0 && waited(level, 0) == 0 && waited(edge, 0) == 0);
    send_numbered(writer, 0x123, 1);
    send_numbered(writer, 0x123, 2);
    CHECK(selected(reader, PATIENCE) == 1 && waited(level, PATIENCE) == 1 && waited(edge, PATIENCE) == 1);
    get(reader, 0x123, 1);
    CHECK(waited(level, PATIENCE) == 1);
    get(reader, 0x123, 2);
    while (waited(edge, QUIET) == 1) {
    }
    CHECK(waited(level, 0) == 0 && selected(reader, 0) == 0 && !comes(reader, 0));
    send_numbered(writer, 0x123, 3);
    CHECK(waited(edge, PATIENCE) == 1 && waited(edge, QUIET) == 0); /* Edge-triggered: only once. */
    get(reader, 0x123, 3);
    return 0;
}
