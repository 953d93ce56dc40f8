/* Quick writes: the reply to a quick write is stored in memory that this bridge shares with the program. See
 * library/quick.c. */
#define _GNU_SOURCE
#include "bridge.h"

#include <errno.h>
#include <fcntl.h>
#include <linux/futex.h>
#include <string.h>
#include <sys/mman.h>
#include <sys/random.h>
#include <sys/socket.h>
#include <sys/syscall.h>
#include <unistd.h>

/* Returns the session that may be lent, or NULL. A session may be lent only if it is the socket's only session. */
static struct session *session_to_lend(void) {
    bool is_one = is_virtual() && session_count == 1 && is_bound && sessions[0]->index == bound_index;
    return is_one && sessions[0]->fd >= 0 && sessions[0]->is_local ? sessions[0] : NULL;
}

static void send_descriptors(int to) {
    struct session *session = session_to_lend();
    int fds[2] = {WIRE_MEMORY, session ? session->fd : -1};
    size_t size = session ? sizeof fds : sizeof *fds;
    union {
        char room[CMSG_SPACE(sizeof fds)];
        struct cmsghdr align;
    } control = {.room = {0}};
    struct iovec part = {"", 1};
    struct msghdr message = {
        .msg_iov = &part, .msg_iovlen = 1, .msg_control = &control, .msg_controllen = CMSG_SPACE(size)};
    struct cmsghdr *rights = CMSG_FIRSTHDR(&message);
    rights->cmsg_level = SOL_SOCKET;
    rights->cmsg_type = SCM_RIGHTS;
    rights->cmsg_len = CMSG_LEN(size);
    memcpy(CMSG_DATA(rights), fds, size);
    memory->loan.shared = session ? session->number : 0;
    if (session) {
        session->is_shared = true;
    }
    if (sendmsg(to, &message, MSG_NOSIGNAL | MSG_DONTWAIT) < 0) {
        /* If this fails, the program that sent the request is gone. */
    }
}

int quick_share(int to) {
    send_descriptors(to);
    close(to);
    return SENT_LATER;
}

static void put_reply(struct wire_place *place, int error, int value, bool is_nowhere) {
    place->reply = (struct wire_reply){error, value, is_nowhere};
    place->text[0] = 0;
    strncat(place->text, error ? refusal : "", sizeof place->text - 1);
    __atomic_store_n(&place->state, PLACE_REPLIED, __ATOMIC_RELEASE);
    if (is_virtual()) {
        wake_number(memory->key + (uint64_t)(place - memory->places));
    } else {
        syscall(SYS_futex, &place->state, FUTEX_WAKE, 1, NULL, NULL, 0);
    }
}

bool quick_lend(void) {
    struct session *session = session_to_lend();
    bool may = session && session_brings_nothing(session) && room_is_idle() && !raw_waits();
    if (may) {
        memory->loan.session = session->number;
    }
    return may;
}

void quick_take_back(void) {
    struct wire_loan *loan = &memory->loan;
    if (!loan->session) {
        return;
    }
    struct session *session = sessions[0];
    uint32_t asked = loan->asked, left = loan->left;
    for (uint32_t i = 0; i < MIN(loan->count, WIRE_NUMBERS); i++) {
        session_note_number(session, loan->numbers[i]);
    }
    loan->session = loan->asked = loan->left = loan->count = 0;
    if ((asked || left) && MAX(asked, left) <= WIRE_PLACES) {
        struct wire_place *place = &memory->places[MAX(asked, left) - 1];
        __atomic_store_n(&place->state, PLACE_TAKEN, __ATOMIC_RELEASE);
        size_t length = left ? MIN(place->reply.length, sizeof place->text) : 0;
        put_reply(place, session_take_over(session, place->text, length, asked), CAN_MTU, false);
    }
}

bool quick_serve(const char *data, size_t length) {
    struct wire_quick quick;
    if (length < sizeof quick) {
        return false;
    }
    memcpy(&quick, data, sizeof quick);
    if (quick.key != memory->key || quick.place >= WIRE_PLACES) {
        return false;
    }
    if (quick.ifindex == WIRE_LEFT) {
        return true; /* The write got its reply when this bridge woke up. */
    }
    data += sizeof quick;
    length -= sizeof quick;
    int error = raw_write(quick.ifindex, data, length, NULL);
    if (error == ENOBUFS && raw_waits()) {
        room_look(quick.ifindex == WIRE_BOUND ? bound_index : quick.ifindex);
        error = WIRE_NO_ROOM;
    }
    put_reply(&memory->places[quick.place], error, (int)length, !error && raw_is_error(data));
    return true;
}
