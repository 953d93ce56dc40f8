/* Finds the notes of received datagrams. The number of unread bytes in the socket shows which note belongs to a
 * datagram. So the notes still match if other reads bypass the library or come from other threads and processes. */
#define _GNU_SOURCE
#include "library.h"

#include <errno.h>
#include <sched.h>
#include <string.h>
#include <sys/syscall.h>
#include <time.h>

/* How many times to wait for a bridge that is writing datagrams to the socket, because the bridge may be waiting for a
 * processor. */
#define PATIENCE 20000
#define YIELDS 100
#define PAUSE 100000 /* nanoseconds */
/* How many of the oldest notes the bridge may be overwriting now. */
#define BEING_WRITTEN 64

/* The minimum and maximum number of bytes that have been read from the socket so far. They differ while the bridge is
 * writing datagrams to the socket. */
struct span {
    int64_t least, most;
};

static struct span read_until_now(const struct wire_notes *received, int fd) {
    int left = 0, before = errno;
    int64_t put = (int64_t)__atomic_load_n(&received->put, __ATOMIC_ACQUIRE);
    syscall(SYS_ioctl, fd, FIONREAD, &left);
    int64_t meant = (int64_t)__atomic_load_n(&received->meant, __ATOMIC_ACQUIRE);
    errno = before;
    return (struct span){put - left, meant - left};
}

/* Waits briefly for the bridge. Returns false after PATIENCE waits. */
static bool wait_for_bridge(int turn) {
    if (turn < YIELDS) {
        sched_yield();
    } else {
        int before = errno;
        syscall(SYS_nanosleep, &(struct timespec){0, PAUSE}, NULL);
        errno = before;
    }
    return turn < PATIENCE;
}

/* The notes that can be read: from index `first` up to, but not including, `end`. */
struct range {
    uint64_t first, end;
};

static struct range range_of(const struct wire_notes *received) {
    uint64_t end = __atomic_load_n(&received->count, __ATOMIC_ACQUIRE), most = WIRE_NOTES - BEING_WRITTEN;
    return (struct range){end > most ? end - most : 0, end};
}

/* The result of a search for a note: the number of the note, starting at 1, or 0 if none was found; and whether it is
 * the only match. */
struct match {
    uint64_t at;
    bool is_one;
};

/* Searches for the note of a datagram, from the newest note to the oldest. A note at the right position in the socket
 * is best; among several, the first note after the one that was found last. If several readers have taken the datagram,
 * or a filter of the socket has cut it, the bytes of the datagram identify the note. */
static struct match look(const struct wire_notes *received, uint64_t found, struct span span, bool is_peeked,
                         const void *head, size_t length) {
    struct range range = range_of(received);
    struct match best = {0, true};
    bool is_fitting = false;
    for (uint64_t at = range.end; at > range.first; at--) {
        const struct wire_note *note = &received->notes[(at - 1) % WIRE_NOTES];
        int64_t place = (int64_t)(note->from + (is_peeked ? 0 : note->length));
        if (place < span.least && is_fitting) {
            break;
        }
        if (place > span.most || memcmp(note->head, head, MIN(length, note->head_length)) != 0) {
            continue;
        }
        if (!best.at || at > found) {
            best = (struct match){at, !best.at};
            is_fitting |= place >= span.least;
        }
        if (at <= found) {
            break;
        }
    }
    return best;
}

/* Finds the note of a datagram, even if several notes match because the bridge is writing datagrams to the socket. If
 * every read so far has looked for its note, the note after the one found last is the right one. Otherwise this
 * function waits for the bridge. */
static uint64_t find(const struct wire_notes *received, uint64_t found, int fd, bool is_peeked, const void *head,
                     size_t length) {
    bool are_all_found = found && !__atomic_load_n(&received->is_mixed, __ATOMIC_RELAXED);
    for (int i = 0;; i++) {
        struct span span = read_until_now(received, fd);
        struct match match = look(received, found, span, is_peeked, head, length);
        if (match.is_one || span.least == span.most || (are_all_found && match.at == found + 1) ||
            !wait_for_bridge(i)) {
            return match.at;
        }
    }
}

static void keep_found(struct wire_notes *received, uint64_t before, uint64_t at) {
    if (before && at > before + 1) {
        note_plain_read(received);
    }
    while (before < at &&
           !__atomic_compare_exchange_n(&received->found, &before, at, true, __ATOMIC_RELAXED, __ATOMIC_RELAXED)) {
    }
}

/* Whether this process looks for notes. */
static bool is_looking;

bool note_of(struct wire_memory *memory, int fd, bool is_peeked, const void *head, size_t length,
             struct wire_note *note, struct wire_way *way) {
    struct wire_notes *received = &memory->received;
    uint64_t found = __atomic_load_n(&received->found, __ATOMIC_RELAXED);
    uint64_t at = find(received, found, fd, is_peeked, head, length);
    __atomic_store_n(&is_looking, true, __ATOMIC_RELAXED);
    if (at && !is_peeked) {
        keep_found(received, found, at);
    }
    /* If a read is so late that its note has been overwritten, it gets the newest note. */
    at = at ? at : range_of(received).end;
    if (at) {
        *note = received->notes[(at - 1) % WIRE_NOTES];
    }
    if (at && way) {
        *way = received->ways[(at - 1) % WIRE_NOTES];
    }
    return at;
}

bool notes_are_looked_for(void) {
    return __atomic_load_n(&is_looking, __ATOMIC_RELAXED);
}

void note_plain_read(struct wire_notes *received) {
    if (!__atomic_load_n(&received->is_mixed, __ATOMIC_RELAXED)) {
        __atomic_store_n(&received->is_mixed, 1, __ATOMIC_RELAXED);
    }
}

uint64_t last_moment(const struct wire_memory *memory, int fd) {
    const struct wire_notes *received = &memory->received;
    struct span span = read_until_now(received, fd);
    for (int i = 0; span.least != span.most && wait_for_bridge(i); i++) {
        span = read_until_now(received, fd);
    }
    struct range range = range_of(received);
    for (uint64_t at = range.end; at > range.first; at--) {
        const struct wire_note *note = &received->notes[(at - 1) % WIRE_NOTES];
        if ((int64_t)(note->from + note->length) <= span.most) {
            return note->nanoseconds;
        }
    }
    return 0;
}
