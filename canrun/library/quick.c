/* Quick writes on CAN_RAW sockets: the reply is stored in memory that the bridge shares (share.c), at a third of the
 * cost of a pipe. In virtual time the virtual time library waits for the reply; a key identifies the wait. */
#define _GNU_SOURCE
#include "library.h"

#include <errno.h>
#include <linux/can.h>
#include <linux/futex.h>
#include <poll.h>
#include <stdlib.h>
#include <string.h>
#include <sys/syscall.h>
#include <time.h>

/* How many writes to a socket, including the current one, make a process borrow the session that the bridge lends. */
#define BORROWING 4
static bool is_off;

/* This function exists only if the virtual time library is loaded. */
__attribute__((weak)) long canbusd_virtual_wait(uint32_t *word, uint32_t expected, uint64_t key,
                                                const struct timespec *time);

static struct wire_place *take_place(struct wire_memory *memory) {
    for (uint32_t i = 0; i < WIRE_PLACES; i++) {
        uint32_t state = PLACE_FREE;
        if (__atomic_compare_exchange_n(&memory->places[i].state, &state, PLACE_ASKED, false, __ATOMIC_ACQUIRE,
                                        __ATOMIC_RELAXED)) {
            return &memory->places[i];
        }
    }
    return NULL;
}

static void free_place(struct wire_place *place) {
    __atomic_store_n(&place->state, PLACE_FREE, __ATOMIC_RELEASE);
}

static int put_quick(int fd, const struct wire_quick *quick, const struct iovec *data, size_t pieces) {
    struct iovec parts[1 + pieces];
    struct msghdr message = {.msg_iov = parts, .msg_iovlen = 1 + pieces};
    parts[0] = (struct iovec){(void *)quick, sizeof *quick};
    memcpy(parts + 1, data, pieces * sizeof *data);
    /* The socket nearly always has room, so this is not checked first. In virtual time a check would cost another
     * system call. */
    return syscall(SYS_sendmsg, fd, &message, MSG_NOSIGNAL | MSG_DONTWAIT) >= 0 ? 0
           : errno != EAGAIN                                                    ? errno
           : syscall(SYS_sendmsg, fd, &message, MSG_NOSIGNAL) >= 0              ? 0
                                                                                : errno;
}

/* Returns whether no reply will come, because the bridge has exited, or because the file descriptor belonged to another
 * socket when the request was sent. */
static bool is_lost(int fd, const char *name) {
    struct pollfd polled = {fd, 0, 0};
    return memcmp(socket_of(fd).name, name, WIRE_NAME_ROOM) ||
           (syscall(SYS_ppoll, &polled, 1L, &(struct timespec){0, 0}, NULL, 0L) > 0 && polled.revents & POLLHUP);
}

static uint32_t state_of(const struct wire_place *place) {
    return __atomic_load_n(&place->state, __ATOMIC_ACQUIRE);
}

static long wait_for_reply(struct wire_place *place, uint32_t state, uint64_t key) {
    const struct timespec look = {1, 0};
    return canbusd_virtual_wait ? canbusd_virtual_wait(&place->state, state, key, &look)
                                : syscall(SYS_futex, &place->state, FUTEX_WAIT, state, &look, NULL, 0);
}

/* Waits for the reply. Signals do not end this wait, because the server's verdict arrives soon. */
static bool await_reply(int fd, const char *name, struct wire_place *place, uint64_t key) {
    for (uint32_t state; (state = state_of(place)) != PLACE_REPLIED;) {
        long result = wait_for_reply(place, state, key);
        if (result < 0 && errno == ETIMEDOUT && is_lost(fd, name) && state_of(place) != PLACE_REPLIED) {
            return false;
        }
    }
    return true;
}

static enum quick get_reply(const struct wire_place *place, struct answer *answer) {
    if (place->reply.error == WIRE_NO_ROOM) {
        return QUICK_NO_ROOM;
    }
    if (place->reply.error) {
        refuse("write", place->reply.error, place->text);
        return QUICK_REFUSED;
    }
    answer->value = place->reply.value;
    answer->length = place->reply.length;
    return QUICK_DONE;
}

static enum quick write_by(struct shared *one, const struct socket *sock, const struct wire_request *request,
                           const struct iovec *data, size_t pieces, struct answer *answer) {
    struct wire_memory *memory = one->memory;
    struct wire_place *place = take_place(memory);
    int before = errno;
    if (!place) {
        return QUICK_NONE;
    }
    struct wire_quick quick = {memory->key, request->ifindex, (uint32_t)(place - memory->places)};
    enum talk talk = loan_talk(memory, &one->copy, request, data, pieces, quick.place);
    if (talk == TALK_LEFT) {
        quick.ifindex = WIRE_LEFT;
        pieces = 0;
    }
    int error = talk == TALK_DONE ? 0 : put_quick(sock->fd, &quick, data, pieces);
    if (error) {
        free_place(place);
        refuse_unsent("write", error);
        return QUICK_REFUSED;
    }
    if (!await_reply(sock->fd, sock->name, place, memory->key + quick.place)) {
        refuse_unsent("write", EPIPE);
        return QUICK_REFUSED; /* The entry stays in use, because a reply may still arrive. */
    }
    errno = before;
    enum quick result = get_reply(place, answer);
    free_place(place);
    return result;
}

__attribute__((constructor)) static void start(void) {
    is_off = getenv("CANBUSD_RUN_VIRTUAL") && !canbusd_virtual_wait;
}

enum quick ask_quickly(const struct socket *sock, const struct wire_request *request, const struct msghdr *message,
                       struct answer *answer) {
    struct shared *one = is_off || request->length > CANFD_MTU ? NULL : share_enter(sock);
    if (!one) {
        return QUICK_NONE;
    }
    /* A program that writes only a few frames does not borrow the session. */
    if (__atomic_add_fetch(&one->writes, 1, __ATOMIC_RELAXED) >= BORROWING && loan_is_new(one->memory, &one->copy)) {
        share_borrow(one, sock->fd);
    }
    enum quick result = write_by(one, sock, request, message->msg_iov, message->msg_iovlen, answer);
    share_leave(one);
    return result;
}
