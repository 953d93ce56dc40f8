/* In virtual time: CAN_RAW writes through a session that the bridge lends. See shared/wire.h and quick.c. Only the
 * thread that has the turn runs, so no other thread or process accesses the loan until this thread waits. */
#define _GNU_SOURCE
#include "library.h"

#include "../shared/messages.h"

#include <errno.h>
#include <fcntl.h>
#include <linux/can.h>
#include <stdlib.h>
#include <string.h>
#include <sys/stat.h>
#include <sys/syscall.h>

/* The lowest possible value of the copied file descriptor. It is high so that it does not change the numbers that the
 * program's own descriptors get. */
#define HIGH_DESCRIPTOR 640
/* How many seconds to wait for a reply. After that time the bridge handles the reply. */
#define PATIENCE_SECONDS 5

/* These functions exist only if the virtual time library is loaded. */
__attribute__((weak)) bool canbusd_virtual_turn(void);
__attribute__((weak)) long canbusd_virtual_talk(int fd, char *text, size_t length, size_t room, uint32_t *word,
                                                uint64_t key, const struct timespec *time);

static uint64_t inode_of(int fd) {
    struct stat status;
    return syscall(SYS_fstat, fd, &status) ? 0 : status.st_ino;
}

void loan_forget(struct loaned *copy) {
    if (copy->fd && copy->inode == inode_of(copy->fd)) {
        syscall(SYS_close, copy->fd);
    }
    *copy = (struct loaned){0};
}

void loan_keep(struct loaned *copy, int fd, uint32_t session) {
    loan_forget(copy);
    copy->session = session;
    if (fd >= 0) {
        int high = (int)syscall(SYS_fcntl, fd, F_DUPFD_CLOEXEC, HIGH_DESCRIPTOR);
        copy->fd = high >= 0 ? high : 0;
        copy->inode = high >= 0 ? inode_of(high) : 0;
        syscall(SYS_close, fd);
    }
}

bool loan_is_new(const struct wire_memory *memory, const struct loaned *copy) {
    return canbusd_virtual_talk && memory->loan.session && memory->loan.session != copy->session;
}

/* Returns whether a frame can be sent in the session now, through a descriptor that the program has not closed. */
static bool is_lent(const struct wire_loan *loan, const struct loaned *copy) {
    return loan->session && loan->session == copy->session && copy->fd && !loan->asked && !loan->left &&
           loan->count < WIRE_NUMBERS && inode_of(copy->fd) == copy->inode;
}

/* Reads the frame of a write. Returns false if the data has more than one piece, or if the frame is not a valid classic
 * frame or is an error message frame. */
static bool frame_of(const struct wire_request *request, const struct iovec *data, size_t pieces,
                     struct canfd_frame *frame) {
    return request->ifindex == WIRE_BOUND && pieces == 1 && data->iov_len == CAN_MTU &&
           copy_from(frame, data->iov_base, CAN_MTU) && !(frame->can_id & CAN_ERR_FLAG) && frame->len <= CAN_MAX_DLEN;
}

/* Returns whether the string is exactly one reply that accepts a frame, and reads the frame's number. */
static bool is_accepted(const char *text, size_t length, uint64_t *number) {
    static const char word[] = "< ack ", end[] = " >";
    const char *at = text + sizeof word - 1;
    return length > sizeof word && !memcmp(text, word, sizeof word - 1) && message_number(&at, number) &&
           at + sizeof end - 1 == text + length && !memcmp(at, end, sizeof end - 1);
}

enum talk loan_talk(struct wire_memory *memory, const struct loaned *copy, const struct wire_request *request,
                    const struct iovec *data, size_t pieces, uint32_t at) {
    struct wire_loan *loan = &memory->loan;
    struct wire_place *place = &memory->places[at];
    struct canfd_frame frame = {0};
    char text[COMMAND];
    uint64_t number;
    if (!canbusd_virtual_talk || !canbusd_virtual_turn() || !is_lent(loan, copy) ||
        !frame_of(request, data, pieces, &frame)) {
        return TALK_NONE;
    }
    message_of_frame(text, &frame, false);
    loan->asked = at + 1;
    long length = canbusd_virtual_talk(copy->fd, text, strlen(text), sizeof place->text, &place->state,
                                       memory->key + at, &(struct timespec){PATIENCE_SECONDS, 0});
    if (length < 0) {
        loan->asked = 0;
        return TALK_NONE;
    }
    if (__atomic_load_n(&place->state, __ATOMIC_ACQUIRE) != PLACE_ASKED) {
        return TALK_DONE; /* The bridge has taken the session back and read the reply. */
    }
    loan->asked = 0;
    if (is_accepted(text, (size_t)length, &number)) {
        loan->numbers[loan->count++] = number;
        place->reply = (struct wire_reply){0, CAN_MTU, 0};
        place->state = PLACE_REPLIED;
        return TALK_DONE;
    }
    loan->left = at + 1;
    place->reply.length = (uint32_t)length;
    memcpy(place->text, text, (size_t)length);
    return TALK_LEFT;
}
