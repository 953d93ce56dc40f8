/* Messages for the program: a ring buffer of messages for which the program's socket has no room yet, and the counts of
 * lost messages. */
#define _GNU_SOURCE
#include "bridge.h"

#include <errno.h>
#include <linux/net_tstamp.h>
#include <string.h>
#include <sys/socket.h>

#define RING 1048576
/* How many messages may wait for a program that has set no limit. The program's socket contains at most this many more.
 */
#define USUAL_ROOM 4096
/* If this many messages are waiting, the server holds back further items. The remaining room is for items that arrive
 * together with replies to commands. */
#define CROWDED 2048
/* How many messages may wait for a program that has set SO_RCVBUF and so accepts the loss of frames. */
#define SMALL_ROOM 64
/* Half of the bytes that the kernel counts for one frame in SO_RCVBUF. */
#define FRAME_ROOM 384
/* The maximum number of messages that are sent with one system call. */
#define BATCH 32
/* When to request the count of lost frames from the server: after this many frames, or this many nanoseconds after the
 * first of these frames. */
#define COUNT_FRAMES 256
#define COUNT_PAUSE 20000000

/* In the ring, a message consists of its note and its data. Each part is aligned to a multiple of PLACE bytes. */
#define PLACE 8
static char ring[RING] __attribute__((aligned(PLACE)));
/* The messages begin at `first`. If `end` is not greater than `first`, they run up to `wrap` and continue at 0. */
static size_t first, end, wrap;
static unsigned count, room = USUAL_ROOM;
static uint32_t dropped, dropped_before;
static bool is_full, is_small;
/* The number and the total length of the datagrams that were written to the program's socket. */
static uint64_t put_count, put_bytes;
/* Whether the program's socket has no room until poll reports room. In virtual time another attempt costs a system
 * call. */
static bool is_blocked;
static bool is_counted, is_stamped;
static unsigned uncounted;
static uint64_t count_at;

/* The size of the source and destination that precede a message's data, or 0 if the protocol's messages have none. */
static size_t way_size;

static size_t size_of(size_t length) {
    return sizeof(struct wire_note) + way_size + ((length + PLACE - 1) & ~(size_t)(PLACE - 1));
}

static struct wire_note *note_at(size_t at) {
    return (struct wire_note *)(void *)(ring + at);
}

/* Reserves space in the ring for a message of this length. Returns NULL if there is no room. */
static struct wire_note *place_for(size_t length) {
    size_t size = size_of(length), at = end;
    if (count == 0) {
        at = first = 0;
    } else if (end > first && RING - end < size) {
        wrap = end;
        at = 0;
    }
    size_t limit = count && at <= first ? first : RING;
    if (count >= room || limit - at < size) {
        return NULL;
    }
    end = at + size;
    count++;
    return note_at(at);
}

static char *data_of(struct wire_note *note) {
    return (char *)(note + 1) + way_size;
}

/* Adds a message to the ring. Returns the message's note, or NULL if the message is lost. */
static struct wire_note *put(const void *data, size_t length, const struct wire_note *note) {
    struct wire_note *place = place_for(length);
    if (!place) {
        outbox_flush();
        place = place_for(length);
    }
    if (is_counted && !uncounted++) {
        count_at = clock_now() + COUNT_PAUSE;
    }
    if (!place) {
        dropped++;
        return NULL;
    }
    *place = *note;
    place->length = (uint32_t)length;
    place->head_length = (uint16_t)MIN(length, sizeof place->head);
    memcpy(place->head, data, place->head_length);
    memcpy(data_of(place), data, length);
    return place;
}

void outbox_put(const void *data, size_t length, uint64_t moment, int index, uint32_t message_flags) {
    struct wire_note note = {.nanoseconds = moment,
                             .ifindex = index,
                             .dropped = is_counted ? dropped : 0,
                             .message_flags = message_flags,
                             .is_stamped = is_stamped};
    put(data, length, &note);
}

void outbox_keep_ways(void) {
    way_size = sizeof(struct wire_way);
}

void outbox_put_way(const void *data, size_t length, const struct wire_note *note, const struct wire_way *way) {
    struct wire_note whole = *note;
    whole.dropped = is_counted ? dropped : 0;
    struct wire_note *place = put(data, length, &whole);
    if (place) {
        memcpy(place + 1, way, sizeof *way);
    }
}

void outbox_ring(void) {
    put("", 0, &(struct wire_note){0});
    outbox_flush();
}

static size_t after(size_t at) {
    size_t next = at + size_of(note_at(at)->length);
    return next == wrap && end <= first ? 0 : next;
}

void outbox_has_room(void) {
    is_blocked = false;
}

/* Writes the note of a message, if the message has data. Returns the total length of all datagrams including this
 * message. */
static uint64_t write_note(struct wire_note *note, uint64_t *notes, uint64_t bytes) {
    note->from = bytes;
    if (note->length) {
        if (way_size) {
            memcpy(&memory->received.ways[*notes % WIRE_NOTES], note + 1, way_size);
        }
        memory->received.notes[(*notes)++ % WIRE_NOTES] = *note;
    }
    return bytes + note->length;
}

/* Prepares the next messages for sending, and writes their notes. Returns how many messages it prepared. */
static unsigned lay_out(struct mmsghdr messages[BATCH], struct iovec parts[BATCH]) {
    uint64_t notes = put_count, bytes = put_bytes;
    unsigned batch = MIN(count, BATCH);
    size_t at = first;
    for (unsigned i = 0; i < batch; i++, at = after(at)) {
        struct wire_note *note = note_at(at);
        parts[i] = (struct iovec){data_of(note), note->length};
        messages[i].msg_hdr = (struct msghdr){.msg_iov = &parts[i], .msg_iovlen = 1};
        bytes = write_note(note, &notes, bytes);
    }
    __atomic_store_n(&memory->received.count, notes, __ATOMIC_RELEASE);
    __atomic_store_n(&memory->received.meant, bytes, __ATOMIC_RELEASE);
    return batch;
}

/* Removes the first message after it has been sent. */
static void take_first(void) {
    put_count += note_at(first)->length > 0;
    put_bytes += note_at(first)->length;
    first = after(first);
    count--;
}

void outbox_flush(void) {
    while (count && !is_blocked) {
        struct mmsghdr messages[BATCH] = {0};
        struct iovec parts[BATCH];
        int batch = (int)lay_out(messages, parts);
        int sent = sendmmsg(PROGRAM, messages, (unsigned)batch, MSG_DONTWAIT | MSG_NOSIGNAL);
        if (sent < 0 && errno != EAGAIN && errno != EINTR) {
            count = 0; /* The program is gone. */
        }
        for (int i = 0; i < sent; i++) {
            take_first();
        }
        __atomic_store_n(&memory->received.put, put_bytes, __ATOMIC_RELEASE);
        __atomic_store_n(&memory->received.meant, put_bytes, __ATOMIC_RELEASE);
        if (sent < batch) {
            is_blocked = count > 0 && is_virtual();
            return;
        }
    }
}

bool outbox_is_crowded(void) {
    return !is_small && count >= CROWDED;
}

bool outbox_is_full(void) {
    if (!is_full && dropped != dropped_before) {
        is_full = !is_counted;
    } else if (is_full) {
        is_full = count > room / 2 && !is_counted;
    }
    dropped_before = dropped;
    return is_full;
}

bool outbox_is_empty(void) {
    return count == 0;
}

/* Sets the room for received frames (SO_RCVBUF). For a Unix socket the kernel counts datagrams at the sending end, so
 * this function sets SO_SNDBUF of the bridge's end. Frames that exceed the number of notes wait in the ring. */
static void set_room(int option, int number) {
    int most = MIN(number, WIRE_ROOM / 2), beyond = (number - most) / FRAME_ROOM;
    setsockopt(PROGRAM, SOL_SOCKET, option == SO_RCVBUF ? SO_SNDBUF : SO_SNDBUFFORCE, &most, sizeof most);
    room = MIN(SMALL_ROOM + (unsigned)beyond, USUAL_ROOM);
    is_small = true;
}

void outbox_set(int option, int number) {
    switch (option) {
    case SO_RCVBUF:
    case SO_RCVBUFFORCE: set_room(option, number); break;
    case SO_RXQ_OVFL: is_counted = number != 0; break;
    default: is_stamped = number & SOF_TIMESTAMPING_SOFTWARE;
    }
}

void outbox_server_dropped(struct session *session, uint32_t now) {
    dropped += now - session->dropped;
    session->dropped = now;
}

int64_t outbox_counts_due(void) {
    uint64_t now = uncounted ? clock_now() : 0;
    if (!uncounted) {
        return -1;
    }
    if (uncounted < COUNT_FRAMES && now < count_at) {
        return (int64_t)(count_at - now);
    }
    uncounted = 0;
    for (int i = 0; i < session_count; i++) {
        session_ask_counts(sessions[i]);
    }
    return -1;
}
