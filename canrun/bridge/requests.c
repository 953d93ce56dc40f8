/* Handles the requests from the program, one at a time. Each request comes with a pipe for its reply. */
#define _GNU_SOURCE
#include "bridge.h"

#include <errno.h>
#include <fcntl.h>
#include <poll.h>
#include <stdio.h>
#include <stdlib.h>
#include <string.h>
#include <sys/epoll.h>
#include <sys/socket.h>
#include <sys/stat.h>
#include <unistd.h>

/* How many nanoseconds a write waits for room if no signal can end the wait in its thread. */
#define SHORT_WAIT SECOND

struct reply {
    struct wire_reply head;
    char data[WIRE_REPLY];
};

/* While a protocol is full, the request that filled it stays in the socket. So the program's end of the pair has no
 * room, and poll does not report it as writable. Later requests stay in the socket too, but the bridge handles them. */
static int kept_length;
static unsigned kept_count;

void request_release(void) {
    bool is_full = kept_count && protocol->is_full(kept_count);
    while (kept_count && !is_full) {
        if (recv(PROGRAM, &(char){0}, 1, MSG_DONTWAIT) >= 0) {
            kept_count--;
        } else if (errno != ECONNRESET) {
            /* If the program has left data unread, recv returns ECONNRESET once instead of a request. */
            kept_count = 0;
        }
    }
    kept_length = kept_count ? kept_length : 0;
}

/* Prints one line, and only the first time it is called, on standard error of the process that created the socket. The
 * ID of that process is part of the socket's name. */
static void say(const char *what, int error) {
    static bool is_said;
    char path[64], line[400];
    const char *maker = memchr(memory->name + sizeof WIRE_NAME, '/', WIRE_NAME_ROOM - sizeof WIRE_NAME);
    snprintf(path, sizeof path, "/proc/%ld/fd/2", maker ? strtol(maker + 1, NULL, 10) : 0);
    int fd = is_said ? -1 : open(path, O_WRONLY | O_APPEND | O_NOCTTY | O_NONBLOCK | O_CLOEXEC);
    is_said = true;
    if (fd >= 0) {
        int length = snprintf(line, sizeof line, "canbusd-run: %s: %s: %s\n", what, strerror(error), refusal);
        if (write(fd, line, MIN((size_t)length, sizeof line - 1)) < 0) {
            /* If this fails, no process reads the line. */
        }
        close(fd);
    }
}

/* Refuses a write that bypassed the library. The write has already returned successfully, so the error becomes the
 * socket's error. */
static void refuse_bare(int error) {
    say("a write that went past canbusd-run, as by io_uring, was refused", error);
    error_set(error);
}

/* Sends the reply to a request. Before that, it makes the socket writable again for the program, if possible. */
static void put_reply(int to, int error, struct reply *reply) {
    request_release();
    if (to == NOBODY) {
        if (error) {
            refuse_bare(error);
        }
        return;
    }
    reply->head.error = error;
    if (error) {
        reply->head.length = (uint32_t)MIN(strlen(refusal), sizeof reply->data);
        memcpy(reply->data, refusal, reply->head.length);
    }
    if (write(to, reply, sizeof reply->head + reply->head.length) < 0) {
        /* If this fails, the program that sent the request is gone. */
    }
    close(to);
}

void request_reply(int to, int error, int value) {
    struct reply reply = {.head = {.value = value}};
    put_reply(to, error, &reply);
}

void request_done(const struct later *later, int error) {
    request_reply(later->reply_to, error, later->value);
}

struct later request_later(const struct wire_request *request, int to, int value) {
    return (struct later){.done = request_done,
                          .reply_to = to,
                          .value = value,
                          .until = request->number == WIRE_SHORT_WAIT ? clock_now() + SHORT_WAIT : 0,
                          .is_refused = request->option};
}

bool request_waits(const struct wire_request *request, int to) {
    return to == NOBODY || (raw_waits() && request->number != WIRE_NO_WAIT);
}

bool is_same_pipe(int one, int other) {
    struct stat first, second;
    return !fstat(one, &first) && !fstat(other, &second) && first.st_ino == second.st_ino &&
           first.st_dev == second.st_dev;
}

/* Ends the wait of the write with this reply pipe, unless the write already has its reply. */
static int cancel(int asks) {
    if (protocol->cancel) {
        protocol->cancel(asks);
    }
    room_cancel(asks);
    close(asks);
    return SENT_LATER;
}

/* After the socket is closed: the end of the socket pair on which a close is waiting. */
static int close_waiter = -1;

int close_waiter_fd(void) {
    return close_waiter;
}

/* Handles the close of a copy of the socket. If it was the last copy and a message is being sent, the close waits until
 * this bridge exits. */
static int begin_close(int pair) {
    struct pollfd polled = {pair, POLLIN, 0};
    if (protocol_is_busy() && poll(&polled, 1, PATIENCE * 1000) > 0 && program_is_gone() && close_waiter < 0) {
        recv(pair, &(char){0}, 1, MSG_DONTWAIT);
        close_waiter = pair;
    } else {
        close(pair);
    }
    return SENT_LATER;
}

static int no_call(void) {
    return refused(EOPNOTSUPP, "the protocol has no such call");
}

static int take_address(int (*call)(const struct sockaddr_can *address), const char *data, size_t length) {
    struct sockaddr_can address = {0};
    memcpy(&address, data, MIN(length, sizeof address));
    return call ? call(&address) : no_call();
}

static int set_option(int option, const char *data, size_t length) {
    return protocol->setsockopt ? protocol->setsockopt(option, data, length) : no_call();
}

static int get_option(int option, struct reply *reply) {
    return protocol->getsockopt ? protocol->getsockopt(option, reply->data, &reply->head.length) : no_call();
}

static int get_address(bool is_peer, struct reply *reply) {
    struct sockaddr_can address = {.can_family = AF_CAN, .can_ifindex = bound_index};
    int error = protocol->getname ? protocol->getname(&address, is_peer) : no_call();
    memcpy(reply->data, &address, sizeof address);
    reply->head.length = sizeof address;
    return error;
}

/* The index of the interface that SO_BINDTODEVICE has set. CAN sockets ignore it. */
static int device;

static int set_socket_option(const struct wire_request *request) {
    if (!protocol->set_socket || !protocol->set_socket(request->option, request->number)) {
        outbox_set(request->option, request->number);
    }
    return 0;
}

/* Handles a request with this data and this reply pipe. Returns 0, an errno, or SENT_LATER. */
static int carry_out(const struct wire_request *request, const char *data, size_t length, int to, struct reply *reply) {
    switch (request->kind) {
    case WIRE_SEND: return protocol->sendmsg(request, data, length, to, &reply->head);
    case WIRE_BIND: return take_address(protocol->bind, data, length);
    case WIRE_CONNECT: return take_address(protocol->connect, data, length);
    case WIRE_SET: return set_option(request->option, data, length);
    case WIRE_GET: return get_option(request->option, reply);
    case WIRE_SOCKET_SET: return set_socket_option(request);
    case WIRE_SET_DEVICE: device = request->ifindex; return 0;
    case WIRE_GET_DEVICE: reply->head.value = device; return 0;
    case WIRE_ADDRESS: return get_address(request->option, reply);
    case WIRE_ERROR: reply->head.value = error_take(); return 0;
    case WIRE_CLOSE: return begin_close(to);
    case WIRE_CANCEL: return cancel(to);
    case WIRE_FILL: return 0;
    case WIRE_SHARE: return quick_share(to);
    default:
        return protocol->request ? protocol->request(request, to, &reply->head, reply->data)
                                 : refused(EINVAL, "library and bridge are not of the same version");
    }
}

static ssize_t next_request(struct msghdr *message) {
    if (!protocol->is_full) {
        return recvmsg(PROGRAM, message, MSG_DONTWAIT | MSG_CMSG_CLOEXEC);
    }
    setsockopt(PROGRAM, SOL_SOCKET, SO_PEEK_OFF, &kept_length, sizeof kept_length);
    ssize_t length = recvmsg(PROGRAM, message, MSG_DONTWAIT | MSG_CMSG_CLOEXEC | MSG_PEEK | MSG_TRUNC);
    kept_length += length > 0 ? (int)length : 0;
    kept_count += length > 0;
    return length;
}

int request_news(void) {
    static int news = -1;
    struct epoll_event event = {.events = EPOLLIN | EPOLLET};
    if (news < 0 && (news = epoll_create1(EPOLL_CLOEXEC)) >= 0) {
        epoll_ctl(news, EPOLL_CTL_ADD, PROGRAM, &event);
    }
    epoll_wait(news, &event, 1, 0);
    return news;
}

bool request_is_kept(void) {
    if (!protocol->is_full) {
        return false;
    }
    setsockopt(PROGRAM, SOL_SOCKET, SO_PEEK_OFF, &kept_length, sizeof kept_length);
    return recv(PROGRAM, &(char){0}, 1, MSG_DONTWAIT | MSG_PEEK | MSG_TRUNC) > 0;
}

/* Handles a quick write, or a write that bypassed the library. A write that bypassed the library waits for room,
 * because there is no reply that could report a lack of room. */
static void serve_bare(const char *data, size_t length) {
    struct wire_request request = {.kind = WIRE_SEND, .ifindex = WIRE_BOUND, .length = (uint32_t)length};
    struct reply reply = {.head = {0}};
    if (protocol->takes && protocol->takes(data, length)) {
        return;
    }
    int error = protocol->sendmsg(&request, data, length, NOBODY, &reply.head);
    if (error != SENT_LATER) {
        put_reply(NOBODY, error, &reply);
    }
}

bool request_serve(void) {
    static char data[sizeof(struct wire_request) + WIRE_LARGEST];
    union {
        char room[CMSG_SPACE(sizeof(int))];
        struct cmsghdr align;
    } control;
    struct iovec part = {data, sizeof data};
    struct msghdr message = {
        .msg_iov = &part, .msg_iovlen = 1, .msg_control = &control, .msg_controllen = sizeof control};
    struct wire_request request;
    static struct reply reply;
    int to;
    ssize_t length = next_request(&message);
    if (length <= 0) {
        /* ECONNRESET means that the program has left frames unread. Requests that it sent earlier are still handled. */
        return length < 0 && (errno == EAGAIN || errno == EINTR || errno == ECONNRESET);
    }
    length = MIN(length, (ssize_t)sizeof data);
    struct cmsghdr *rights = CMSG_FIRSTHDR(&message);
    if (!rights) {
        serve_bare(data, (size_t)length);
        return true;
    }
    memcpy(&to, CMSG_DATA(rights), sizeof to);
    memcpy(&request, data, MIN((size_t)length, sizeof request));
    if ((size_t)length < sizeof request || request.length > (size_t)length - sizeof request) {
        close(to);
        return true;
    }
    reply.head = (struct wire_reply){.value = request.kind == WIRE_SEND ? (int)request.length : 0};
    int error = carry_out(&request, data + sizeof request, request.length, to, &reply);
    if (error != SENT_LATER) {
        put_reply(to, error, &reply);
    }
    return true;
}
