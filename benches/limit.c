/* The speed limit that canbusd is measured against: `bench` and `audit` as one
 * plain, single-threaded C program, written for speed.  Nothing in it is proved, and it
 * has no `serve`, which is in serve_limit.c.
 *
 * The record stays in memory, with 16 bytes for each event.  Frames, timestamps and
 * filter lists are in separate areas.  A send refers to its frame, and an attempt to
 * the frame that it tried.  A receive (and a queued item) refers to the attempt or
 * restart that posted it.  After the start nothing is allocated except the ring
 * buffer of each opened socket.
 */
#define _POSIX_C_SOURCE 200809L
#include <fcntl.h>
#include <stdbool.h>
#include <stddef.h>
#include <stdint.h>
#include <stdio.h>
#include <stdlib.h>
#include <string.h>
#include <sys/stat.h>
#include <unistd.h>

typedef uint8_t u8;
typedef uint16_t u16;
typedef uint32_t u32;
typedef uint64_t u64;

#define LIKELY(x) __builtin_expect(!!(x), 1)
#define UNLIKELY(x) __builtin_expect(!!(x), 0)
#define BITS(i, set) for (u32 bits_ = (set), i; bits_ && (i = (u32)__builtin_ctz(bits_), 1); bits_ &= bits_ - 1)

enum {
    MAX_IFACES = 16,
    MAX_OPEN = 64,
    MAX_TX = 1024,
    MAX_RX = 65536,
    MAX_EVENTS = 16777216,
    MAX_INSIDE = 1024,
    MAX_SESSION = 64,
    MAX_LINE = 4096,
    MAX_INPUT = 16777216,
    MAX_FILTERS = 512,
    MAX_RESTART = 1000000
};

/* ---------------------------------------------------------------- output */

enum { OUT_SIZE = 256 * 1024, OUT_HIGH = 96 * 1024 };
static char out[OUT_SIZE + 64];
static char *out_at = out;
static int out_fd = 1;

static void die(const char *text) {
    fprintf(stderr, "canbusd: %s\n", text);
    exit(1);
}

static bool flush_out(void) {
    const char *p = out;
    while (p < out_at) {
        ssize_t n = write(out_fd, p, (size_t)(out_at - p));
        if (n <= 0)
            return false;
        p += n;
    }
    out_at = out;
    return true;
}

static char *make_room(char *o) /* at the start of a line or an item */
{
    if (UNLIKELY(o > out + OUT_HIGH)) {
        out_at = o;
        if (!flush_out())
            die("write fault");
        o = out;
    }
    return o;
}

#define LIT(o, s) (memcpy((o), (s), sizeof(s) - 1), (o) + sizeof(s) - 1)

static char hex_pair[256][2], dec_pair[100][2];
static u8 hex_value[256]; /* 255: not a digit */

static void make_tables(void) {
    static const char digits[] = "0123456789ABCDEF";
    memset(hex_value, 255, sizeof hex_value);
    for (int i = 0; i < 256; i++) {
        hex_pair[i][0] = digits[i >> 4];
        hex_pair[i][1] = digits[i & 15];
    }
    for (int i = 0; i < 100; i++) {
        dec_pair[i][0] = digits[i / 10];
        dec_pair[i][1] = digits[i % 10];
    }
    for (int i = 0; i < 10; i++)
        hex_value['0' + i] = (u8)i;
    for (int i = 10; i < 16; i++)
        hex_value['A' + i - 10] = hex_value['a' + i - 10] = (u8)i;
}

static inline char *put_u64(char *o, u64 v) {
    if (LIKELY(v < 10)) {
        *o = (char)('0' + v);
        return o + 1;
    }
    char text[24], *p = text + 24;
    while (v >= 100) {
        p -= 2;
        memcpy(p, dec_pair[v % 100], 2);
        v /= 100;
    }
    if (v >= 10) {
        p -= 2;
        memcpy(p, dec_pair[v], 2);
    } else
        *--p = (char)('0' + v);
    size_t n = (size_t)(text + 24 - p);
    memcpy(o, p, n);
    return o + n;
}

static inline char *put_u32(char *o, u32 v) {
    int n = v < 10           ? 1
            : v < 100        ? 2
            : v < 1000       ? 3
            : v < 10000      ? 4
            : v < 100000     ? 5
            : v < 1000000    ? 6
            : v < 10000000   ? 7
            : v < 100000000  ? 8
            : v < 1000000000 ? 9
                             : 10;
    char *p = o + n;
    while (v >= 100) {
        p -= 2;
        memcpy(p, dec_pair[v % 100], 2);
        v /= 100;
    }
    if (v >= 10)
        memcpy(o, dec_pair[v], 2);
    else
        *o = (char)('0' + v);
    return o + n;
}

static inline char *put_pair(char *o, u32 byte) {
    memcpy(o, hex_pair[byte & 255], 2);
    return o + 2;
}

static inline char *put_hex4(char *o, u32 v) {
    return put_pair(put_pair(o, v >> 8), v);
}

static inline char *put_hex8(char *o, u32 v) {
    return put_hex4(put_hex4(o, v >> 16), v);
}

static inline char *put_bytes(char *o, const u8 *data, u32 n) {
    for (u32 i = 0; i < n; i++)
        o = put_pair(o, data[i]);
    return o;
}

static inline char *put_moment_value(char *o, u64 m) {
    u64 seconds = m / 1000000;
    u32 micros = (u32)(m % 1000000);
    o = seconds < 1000000000 ? put_u32(o, (u32)seconds) : put_u64(o, seconds);
    *o++ = '.';
    memcpy(o, dec_pair[micros / 10000], 2);
    memcpy(o + 2, dec_pair[micros / 100 % 100], 2);
    memcpy(o + 4, dec_pair[micros % 100], 2);
    return o + 6;
}

/* ---------------------------------------------------------------- the record */

enum kind { OPEN, CLOSE, FILTERS, OPTION, SEND, RECEIVE, ATTEMPT, RESTART };
enum refusal {
    FINE,
    NO_INTERFACE,
    BAD_CAPACITY,
    TOO_MANY_SOCKETS,
    NO_SOCKET,
    BUS_OFF,
    NO_BUFFERS,
    NOT_BUS_OFF,
    FD_OFF,
    RECORD_FULL,
    REFUSALS
};
enum { GOOD, GLOBAL_BIT, GLOBAL_FORM, LASTBIT, LOCAL_STUFF, LOCAL_CRC, LOCAL_FORM };
enum { IDLE, DONE, LAST, DESTROYED, NOACK };
enum { O_LOOPBACK, O_RECVOWN, O_JOIN, O_ERRMASK, O_FD };
enum { GOT_NONE, GOT_DATA, GOT_ERROR };

static const char *const refusal_text[REFUSALS] = {
    "",        "no such interface", "bad capacity", "too many sockets", "no socket",
    "bus off", "no buffers",        "not bus off",  "fd frames off",    "record full"};
static const char *const refusal_name[FD_OFF + 1] = {"",          "no-interface", "bad-capacity", "too-many-sockets",
                                                     "no-socket", "bus-off",      "no-buffers",   "not-bus-off",
                                                     "fd-off"};
static const char verdict_text[7][16] = {"good",         "global-bit", "global-form", "lastbit",
                                         "local-stuff:", "local-crc:", "local-form:"};
static const char *const class_text[5] = {"idle", "done", "lastbit", "destroyed", "noack"};
static const char *const option_text[5] = {"loopback", "recvown", "join", "errmask", "fd"};

/* kind      a                  s          x        y            z
 * OPEN      iface              refusal    socket   capacity (64 bits)
 * CLOSE                        refusal    socket   unread       dropped
 * FILTERS                      refusal    socket   place        count
 * OPTION    which              refusal    socket   value
 * SEND                         refusal    socket   frame
 * RECEIVE   none/data/error    refusal    socket   entry        error item
 * RESTART   iface              refusal             moment
 * ATTEMPT   class|winner<<4    local set  frame    moment       accepted|restarted<<16
 *           its kind byte also holds verdict<<3 and off<<6 */
typedef struct {
    u8 kind, a;
    u16 s;
    u32 x, y, z;
} entry;

typedef struct {
    u32 word;       /* identifier word; bit 29 marks an FD frame */
    u32 number_len; /* number << 8 | length */
    u8 data[8];     /* its size is a multiple of 8 bytes */
} frame;

#define FD_BIT 0x20000000u
#define EXT_BIT 0x80000000u
#define RTR_BIT 0x40000000u

static entry *record;
static u32 entries, limit;
static u64 *moments;
static u32 moment_count;
static u64 *frames; /* frames in units of 8 bytes */
static u32 frame_end = 1;
static u32 (*filter_list)[2];
static u32 filter_end;
static bool seen_fd;

static inline const frame *frame_at(u32 place) {
    return (const frame *)(frames + place);
}

static void *reserve(size_t bytes) /* not touched, so not resident yet */
{
    void *p = malloc(bytes + 64);
    if (!p)
        die("no memory");
    return p;
}

static inline u32 moment_place(u64 m) {
    if (moment_count == 0 || moments[moment_count - 1] != m)
        moments[moment_count++] = m;
    return moment_count - 1;
}

/* Caches the last printed timestamp as a string. */
static u32 text_of = UINT32_MAX, text_len;
static char moment_text[32];

static inline char *put_moment(char *o, u32 place) {
    if (UNLIKELY(place != text_of)) {
        text_of = place;
        text_len = (u32)(put_moment_value(moment_text, moments[place]) - moment_text);
    }
    memcpy(o, moment_text, 17);
    return o + text_len;
}

static inline char *put_id(char *o, u32 word) {
    if (word & EXT_BIT)
        return put_hex8(o, word & 0x1FFFFFFF);
    *o = hex_pair[word >> 8 & 15][1];
    return put_pair(o + 1, word);
}

static inline char *put_frame(char *o, const frame *f) {
    u32 len = f->number_len & 255;
    o = put_id(o, f->word);
    *o++ = '#';
    if (UNLIKELY(f->word & (RTR_BIT | FD_BIT))) {
        if (f->word & RTR_BIT) {
            *o++ = 'R';
            if (len)
                *o++ = (char)('0' + len);
            return o;
        }
        *o++ = '#';
        *o++ = '0';
    }
    return put_bytes(o, f->data, len);
}

/* An error item has the format code << 28 | interface << 24 | three bytes. */
enum { E_OFF = 1, E_RESTART, E_STATE, E_FAULT, E_ACK };
static const char error_class[6][4] = {"", "040", "100", "204", "088", "0A0"};

static inline char *put_error_data(char *o, u32 err) {
    memcpy(o, "0000000000000000", 16);
    u32 code = err >> 28;
    if (code == E_STATE) {
        put_pair(o + 2, err >> 16);
        put_pair(o + 12, err >> 8);
        put_pair(o + 14, err);
    } else if (code >= E_FAULT)
        put_hex4(o + 4, err);
    return o + 16;
}

static char *put_entry(char *o, const entry *e) {
    u32 refusal = (e->kind & 7) == ATTEMPT ? FINE : e->s;
    switch (e->kind & 7) {
    case OPEN: {
        u64 capacity = (u64)e->z << 32 | e->y;
        o = LIT(o, "open ");
        o = put_u32(o, e->a);
        *o++ = ' ';
        o = put_u64(o, capacity);
        o = LIT(o, " = ");
        if (refusal)
            break;
        o = LIT(o, "socket ");
        return put_u32(o, e->x);
    }
    case CLOSE:
        o = put_u32(LIT(o, "close "), e->x);
        o = LIT(o, " = ");
        if (refusal)
            break;
        o = put_u32(LIT(o, "closed "), e->y);
        *o++ = ' ';
        return put_u32(o, e->z);
    case FILTERS:
        o = put_u32(LIT(o, "filters "), e->x);
        *o++ = ' ';
        o = put_u32(o, e->z);
        for (u32 i = 0; i < e->z; i++) {
            *o++ = ' ';
            o = put_hex8(o, filter_list[e->y + i][0]);
            *o++ = ' ';
            o = put_hex8(o, filter_list[e->y + i][1]);
        }
        o = LIT(o, " = ");
        if (refusal)
            break;
        return LIT(o, "ok");
    case OPTION: {
        size_t n = strlen(option_text[e->a]);
        o = put_u32(LIT(o, "option "), e->x);
        *o++ = ' ';
        memcpy(o, option_text[e->a], n);
        o += n;
        *o++ = ' ';
        if (e->a == O_ERRMASK)
            o = put_hex8(o, e->y);
        else
            *o++ = (char)('0' + e->y);
        o = LIT(o, " = ");
        if (refusal)
            break;
        return LIT(o, "ok");
    }
    case SEND: {
        const frame *f = frame_at(e->y);
        o = put_u32(LIT(o, "send "), e->x);
        *o++ = ' ';
        o = put_frame(o, f);
        o = LIT(o, " = ");
        if (refusal)
            break;
        return put_u32(LIT(o, "number "), f->number_len >> 8);
    }
    case RECEIVE: {
        o = put_u32(LIT(o, "receive "), e->x);
        o = LIT(o, " = ");
        if (refusal)
            break;
        if (e->a == GOT_NONE)
            return LIT(o, "none");
        const entry *from = record + e->y;
        if (e->a == GOT_DATA) {
            const frame *f = frame_at(from->x);
            o = put_u32(LIT(o, "data "), from->a >> 4);
            *o++ = ' ';
            o = put_u32(o, f->number_len >> 8);
            *o++ = ' ';
            o = put_frame(o, f);
        } else {
            o = put_u32(LIT(o, "error "), e->z >> 24 & 15);
            o = LIT(o, " 20000");
            memcpy(o, error_class[e->z >> 28], 3);
            o[3] = '#';
            o = put_error_data(o + 4, e->z);
        }
        *o++ = ' ';
        return put_moment(o, from->y);
    }
    case ATTEMPT: {
        u32 verdict = e->kind >> 3 & 7, cls = e->a & 15;
        size_t n = strlen(verdict_text[verdict]);
        o = put_moment(LIT(o, "attempt "), e->y);
        *o++ = ' ';
        memcpy(o, verdict_text[verdict], 12);
        o += n;
        if (verdict >= LOCAL_STUFF)
            o = put_hex4(o, e->s);
        o = LIT(o, " = ");
        if (cls == IDLE)
            o = LIT(o, "idle");
        else {
            const frame *f = frame_at(e->x);
            u32 winner = e->a >> 4;
            o = put_u32(LIT(o, "tried "), winner);
            *o++ = ' ';
            o = put_u32(o, f->number_len >> 8);
            *o++ = ' ';
            o = put_frame(o, f);
            *o++ = ' ';
            n = strlen(class_text[cls]);
            memcpy(o, class_text[cls], n);
            o += n;
            *o++ = ' ';
            o = put_hex4(o, e->z);
            *o++ = ' ';
            o = put_hex4(o, e->kind & 64 ? 1u << winner : 0);
        }
        if (e->z >> 16)
            o = put_hex4(LIT(o, " restarted "), e->z >> 16);
        return o;
    }
    case RESTART:
        o = put_u32(LIT(o, "restart "), e->a);
        *o++ = ' ';
        o = put_moment(o, e->y);
        o = LIT(o, " = ");
        if (refusal)
            break;
        return LIT(o, "ok");
    }
    size_t n = strlen(refusal_name[refusal]);
    memcpy(o, refusal_name[refusal], n);
    return o + n;
}

/* ---------------------------------------------------------------- filters */

enum { HASH = 1024 };

typedef struct {
    u32 count, masked, inverted, singles; /* singles: single 29-bit identifiers */
    bool all_or, all_and;
    bool join_never, inverted_always;
    u32 join_mask, join_id;         /* all filters that are not inverted, joined */
    u32 inverted_mask, inverted_id; /* all inverted filters, joined */
    u64 marks[2048 / 64];
    u32 hash[HASH]; /* 0: an empty place */
    _Alignas(32) u32 masked_id[MAX_FILTERS];
    _Alignas(32) u32 masked_mask[MAX_FILTERS];
    _Alignas(32) u32 inverted_ids[MAX_FILTERS];
    _Alignas(32) u32 inverted_masks[MAX_FILTERS];
} filter_set;

static inline u32 hash_of(u32 word) {
    return word * 2654435761u >> 22;
}

static inline void pad(u32 *id, u32 *mask, u32 n) {
    for (; n & 7; n++) {
        id[n] = 1; /* matches nothing */
        mask[n] = 0;
    }
}

static void compile_filters(filter_set *f, u32 (*list)[2], u32 n) {
    memset(f, 0, offsetof(filter_set, hash));
    f->count = n;
    f->all_and = n > 0;
    for (u32 i = 0; i < n; i++) {
        u32 id = list[i][0], mask = list[i][1], same = id & mask;
        if (mask != 0 || id & FD_BIT)
            f->all_and = false;
        if (id & FD_BIT) {
            if ((f->inverted_id ^ same) & (f->inverted_mask & mask))
                f->inverted_always = true;
            f->inverted_mask |= mask;
            f->inverted_id |= same;
            f->inverted_ids[f->inverted] = same;
            f->inverted_masks[f->inverted++] = mask;
            continue;
        }
        if ((f->join_id ^ same) & (f->join_mask & mask))
            f->join_never = true;
        f->join_mask |= mask;
        f->join_id |= same;
        if (mask == 0)
            f->all_or = true;
        if (mask == 0xC00007FF && same < 0x800)
            f->marks[same >> 6] |= 1ull << (same & 63);
        else if (mask == 0xDFFFFFFF && (id & (EXT_BIT | RTR_BIT)) == EXT_BIT) {
            if (f->singles++ == 0)
                memset(f->hash, 0, sizeof f->hash);
            u32 h = hash_of(same);
            while (f->hash[h] && f->hash[h] != same)
                h = (h + 1) % HASH;
            f->hash[h] = same;
        } else {
            f->masked_id[f->masked] = same;
            f->masked_mask[f->masked++] = mask;
        }
    }
    pad(f->masked_id, f->masked_mask, f->masked);
    pad(f->inverted_ids, f->inverted_masks, f->inverted);
}

typedef u32 row __attribute__((vector_size(32), may_alias));

static inline bool any_matches(const u32 *id, const u32 *mask, u32 n, u32 word) {
    row any = {0};
    for (u32 i = 0; i < n; i += 8)
        any |= (row)((*(const row *)(mask + i) & word) == *(const row *)(id + i));
    u64 parts[4];
    memcpy(parts, &any, 32);
    return parts[0] | parts[1] | parts[2] | parts[3];
}

static bool passes(const filter_set *f, bool join, u32 word) {
    if (join)
        return f->count && !f->join_never && (word & f->join_mask) == f->join_id &&
               !any_matches(f->inverted_ids, f->inverted_masks, f->inverted, word);
    if (word < 0x800) {
        if (f->marks[word >> 6] >> (word & 63) & 1)
            return true;
    } else if (f->singles && !(word & RTR_BIT)) {
        for (u32 h = hash_of(word); f->hash[h]; h = (h + 1) % HASH)
            if (f->hash[h] == word)
                return true;
    }
    if (f->inverted && (f->inverted_always || (word & f->inverted_mask) != f->inverted_id))
        return true;
    return any_matches(f->masked_id, f->masked_mask, f->masked, word);
}

/* ---------------------------------------------------------------- the bus */

typedef struct {
    u32 entry, err;
} item; /* err 0: a data frame */

typedef struct {
    item *ring;
    u32 ring_mask, capacity, head, len, dropped, taken;
    u32 number, err_mask;
    u8 iface, place; /* place: the index in its interface's list */
    bool loopback, recv_own, join, fd, all, own_list;
    filter_set *filters;
} socket_t;

typedef struct {
    u32 frame, key, owner;
} waiting; /* owner: socket | loopback << 31 */

typedef struct {
    waiting *ring;
    u32 head, len;
    u16 tec, rec;
    u8 state, sockets;
    u32 err_mask; /* the masks of all its sockets, joined by OR */
    u32 sent, done, lost, refused, since_off;
    socket_t *socket[MAX_OPEN];
} iface_t;

enum { ACTIVE, WARNING, PASSIVE, OFF };

static struct {
    u32 ifaces, reporting, tx_capacity, auto_restart;
    bool peers;
} config;
static u64 heads[MAX_IFACES]; /* key << 4 | interface */
static u32 with_head;         /* the interfaces whose queue has a head */
static iface_t iface[MAX_IFACES];
static _Alignas(64) socket_t slots[MAX_OPEN];
static u32 ring_size[MAX_OPEN];
static filter_set filter_sets[MAX_OPEN];
static u64 free_slots = UINT64_MAX;
static u32 sockets_ever, tx_mask, tape_length;
static u32 live, passive, with_rec; /* sets of interfaces */
static u8 *slot_of;                 /* socket number -> slot + 1 (audit) */

static u32 power_of_two(u32 n) {
    u32 p = 1;
    while (p < n)
        p *= 2;
    return p;
}

static void start_bus(u64 input_bytes) {
    record = reserve((size_t)limit * sizeof(entry));
    moments = reserve(input_bytes + 64);
    frames = reserve(2 * input_bytes + 256);
    filter_list = reserve(2 * input_bytes + MAX_FILTERS * 8);
    u32 n = power_of_two(config.tx_capacity);
    tx_mask = n - 1;
    live = (1u << config.ifaces) - 1;
    for (u32 i = 0; i < config.ifaces; i++)
        iface[i].ring = reserve(n * sizeof(waiting));
}

static inline entry *new_entry(u32 kind, u32 a, u32 s, u32 x, u32 y, u32 z) {
    entry *e = record + entries++;
    *e = (entry){(u8)kind, (u8)a, (u16)s, x, y, z};
    return e;
}

static inline bool full(void) {
    return UNLIKELY(entries == limit);
}

static entry *do_open(u32 i, u64 capacity, socket_t **made) {
    entry *e = new_entry(OPEN, i, FINE, 0, (u32)capacity, (u32)(capacity >> 32));
    if (i >= config.ifaces)
        return e->s = NO_INTERFACE, e;
    if (capacity < 1 || capacity > MAX_RX)
        return e->s = BAD_CAPACITY, e;
    if (!free_slots)
        return e->s = TOO_MANY_SOCKETS, e;
    u32 slot = (u32)__builtin_ctzll(free_slots), size = power_of_two((u32)capacity);
    free_slots &= free_slots - 1;
    socket_t *s = slots + slot;
    item *ring = s->ring;
    if (ring_size[slot] < size) {
        free(ring);
        ring = reserve(size * sizeof(item));
        ring_size[slot] = size;
    }
    *s = (socket_t){.ring = ring,
                    .ring_mask = size - 1,
                    .capacity = (u32)capacity,
                    .number = sockets_ever,
                    .iface = (u8)i,
                    .place = iface[i].sockets,
                    .loopback = true,
                    .all = true};
    iface[i].socket[iface[i].sockets++] = s;
    if (slot_of)
        slot_of[sockets_ever] = (u8)(slot + 1);
    e->x = sockets_ever++;
    *made = s;
    return e;
}

static void join_masks(iface_t *f) {
    f->err_mask = 0;
    for (u32 i = 0; i < f->sockets; i++)
        f->err_mask |= f->socket[i]->err_mask;
}

static entry *do_close(u32 number, socket_t *s) {
    entry *e = new_entry(CLOSE, 0, FINE, number, 0, 0);
    if (!s)
        return e->s = NO_SOCKET, e;
    iface_t *f = iface + s->iface;
    e->y = s->len;
    e->z = s->dropped;
    f->socket[s->place] = f->socket[--f->sockets];
    f->socket[s->place]->place = s->place;
    join_masks(f);
    if (slot_of)
        slot_of[number] = 0;
    free_slots |= 1ull << (s - slots);
    return e;
}

static inline void settle_all(socket_t *s) {
    s->all = !s->filters || (s->join ? s->filters->all_and : s->filters->all_or);
}

/* Sets a filter list, which the caller has already stored at filter_list + filter_end. */
static entry *do_filters(u32 number, socket_t *s, u32 count) {
    entry *e = new_entry(FILTERS, 0, FINE, number, filter_end, count);
    if (!s)
        e->s = NO_SOCKET;
    else {
        s->filters = filter_sets + (s - slots);
        compile_filters(s->filters, filter_list + filter_end, count);
        settle_all(s);
    }
    filter_end += count;
    return e;
}

static entry *do_option(u32 number, socket_t *s, u32 which, u32 value) {
    entry *e = new_entry(OPTION, which, FINE, number, value, 0);
    if (which == O_FD)
        seen_fd = true;
    if (!s)
        return e->s = NO_SOCKET, e;
    switch (which) {
    case O_LOOPBACK: s->loopback = value; break;
    case O_RECVOWN: s->recv_own = value; break;
    case O_JOIN:
        s->join = value;
        settle_all(s);
        break;
    case O_FD: s->fd = value; break;
    case O_ERRMASK:
        s->err_mask = value & 0x1FFFFFFF;
        join_masks(iface + s->iface);
        break;
    }
    return e;
}

/* The frame with the lower key wins arbitration. */
static inline u32 arbitration_key(u32 word) {
    u32 rtr = word >> 30 & 1;
    if (!(word & EXT_BIT))
        return (word & 0x7FF) << 21 | rtr << 20;
    return (word & 0x1FFC0000) << 3 | 3u << 19 | (word & 0x3FFFF) << 1 | rtr;
}

static inline void set_head(u32 i) {
    iface_t *f = iface + i;
    if (f->len)
        heads[i] = (u64)f->ring[f->head & tx_mask].key << 4 | i;
    else
        with_head &= ~(1u << i);
}

/* Sends a frame whose data the caller has already stored at frames + frame_end. */
static inline entry *do_send(u32 number, socket_t *s, u32 word, u32 len) {
    u32 place = frame_end;
    frame *f = (frame *)(frames + place);
    f->word = word;
    f->number_len = len;
    frame_end += 1 + (word & RTR_BIT ? 0 : (len + 7) >> 3);
    entry *e = new_entry(SEND, 0, FINE, number, place, 0);
    if (UNLIKELY(word & FD_BIT))
        seen_fd = true;
    if (UNLIKELY(!s))
        return e->s = NO_SOCKET, e;
    if (UNLIKELY(word & FD_BIT && !s->fd))
        return e->s = FD_OFF, e;
    u32 i = s->iface;
    iface_t *at = iface + i;
    if (UNLIKELY(at->state == OFF))
        return e->s = BUS_OFF, e;
    if (UNLIKELY(at->len == config.tx_capacity)) {
        at->refused++;
        return e->s = NO_BUFFERS, e;
    }
    f->number_len |= at->sent++ << 8;
    u32 key = arbitration_key(word & ~FD_BIT);
    at->ring[(at->head + at->len) & tx_mask] = (waiting){place, key, number | (u32)s->loopback << 31};
    if (at->len++ == 0) {
        heads[i] = (u64)key << 4 | i;
        with_head |= 1u << i;
    }
    return e;
}

static inline entry *do_receive(u32 number, socket_t *s) {
    entry *e = new_entry(RECEIVE, GOT_NONE, FINE, number, 0, 0);
    if (UNLIKELY(!s))
        return e->s = NO_SOCKET, e;
    if (s->len == 0)
        return e;
    item it = s->ring[s->head];
    s->head = --s->len ? (s->head + 1) & s->ring_mask : 0;
    s->taken++;
    e->a = it.err ? GOT_ERROR : GOT_DATA;
    e->y = it.entry;
    e->z = it.err;
    return e;
}

static inline void queue_item(socket_t *s, item it) {
    if (UNLIKELY(s->len == s->capacity))
        s->dropped++;
    else
        s->ring[(s->head + s->len++) & s->ring_mask] = it;
}

static inline void post_data(const iface_t *f, item it, u32 word, u32 owner) {
    u32 plain = word & ~FD_BIT;
    for (u32 k = 0; k < f->sockets; k++) {
        socket_t *s = f->socket[k];
        if (UNLIKELY(s->number == owner) && !s->recv_own)
            continue;
        if (UNLIKELY(word & FD_BIT) && !s->fd)
            continue;
        if (s->all || passes(s->filters, s->join, plain))
            queue_item(s, it);
    }
}

static void post_error(u32 i, u32 ref, u32 code, u32 data) {
    static const u32 mask_of[6] = {0, 0x040, 0x100, 0x204, 0x088, 0x0A0};
    const iface_t *f = iface + i;
    if (!(f->err_mask & mask_of[code]))
        return;
    item it = {ref, code << 28 | i << 24 | data};
    for (u32 k = 0; k < f->sockets; k++)
        if (f->socket[k]->err_mask & mask_of[code])
            queue_item(f->socket[k], it);
}

static inline u32 side(u32 count) {
    return count >= 128 ? PASSIVE : count >= 96 ? WARNING : ACTIVE;
}

/* Updates the state of an interface after its error counters have changed; returns whether the state has changed. */
static inline bool settle_state(u32 i) {
    iface_t *f = iface + i;
    u32 state = f->tec >= 256 ? OFF : side(f->tec > f->rec ? f->tec : f->rec), bit = 1u << i;
    with_rec = f->rec ? with_rec | bit : with_rec & ~bit;
    if (LIKELY(state == f->state))
        return false;
    f->state = (u8)state;
    passive = state == PASSIVE ? passive | bit : passive & ~bit;
    live = state == OFF ? live & ~bit : live | bit;
    return true;
}

static void post_state(u32 i, u32 ref) {
    static const u8 tx_code[3] = {0x40, 0x08, 0x20}, rx_code[3] = {0x40, 0x04, 0x10};
    const iface_t *f = iface + i;
    if (f->state == OFF) {
        post_error(i, ref, E_OFF, 0);
        return;
    }
    u32 tx = side(f->tec), rx = side(f->rec);
    u32 code = (tx >= rx ? tx_code[tx] : 0u) | (rx >= tx ? rx_code[rx] : 0u);
    post_error(i, ref, E_STATE, code << 16 | (u32)f->tec << 8 | f->rec);
}

static void bring_back(u32 i) {
    iface[i].tec = iface[i].rec = 0;
    settle_state(i);
}

static inline void rx_errors(u32 set) {
    BITS(i, set)
    iface[i].rec += iface[i].rec < 255;
}

static inline void rx_goods(u32 set) {
    BITS(i, set & with_rec)
    iface[i].rec = iface[i].rec <= 127 ? iface[i].rec - 1 : 127;
}

static void post_faults(u32 i, u32 ref, u32 w, u32 cls, u32 verdict, u32 hit) {
    static const u16 named[7] = {0, 0, 0, 0, 0x040A, 0x0008, 0x021B};
    if (i != w && hit >> i & 1)
        post_error(i, ref, E_FAULT, named[verdict]);
    else if (cls == DESTROYED)
        post_error(i, ref, E_FAULT,
                   i != w                   ? 0x0400
                   : verdict == GLOBAL_BIT  ? 0x810A
                   : verdict == GLOBAL_FORM ? 0x821B
                                            : 0x8100);
    else if (i == w && cls == LAST)
        post_error(i, ref, E_FAULT, 0x821A);
    else if (i == w && cls == NOACK)
        post_error(i, ref, E_ACK, 0x8019);
}

/* Runs an attempt. Every socket gets its items in this order: the data frame, then the error message frames of its
 * interface. Error message frames about the fault come before those about the state. */
static entry *do_attempt(u32 moment, u32 verdict, u32 set) {
    u32 due = 0, ref = entries;
    entry *e = new_entry(ATTEMPT | verdict << 3, IDLE, set, 0, moment, 0);
    if (UNLIKELY(config.auto_restart))
        BITS(i, ((1u << config.ifaces) - 1) & ~live)
    if (++iface[i].since_off == config.auto_restart)
        due |= 1u << i;
    u64 best = UINT64_MAX;
    BITS(i, with_head)
    best = heads[i] < best ? heads[i] : best;
    if (UNLIKELY(!with_head)) {
        BITS(i, due) {
            bring_back(i);
            post_error(i, ref, E_RESTART, 0);
        }
        e->z = due << 16;
        return e;
    }
    u32 w = best & 15, wbit = 1u << w, receivers = live & ~wbit, cls, changed = 0;
    iface_t *winner = iface + w;
    waiting *head = winner->ring + (winner->head & tx_mask);
    u32 hit = verdict >= LOCAL_STUFF ? receivers & set : 0, ok = receivers & ~hit, accepted = 0;
    u32 touched = wbit | (receivers & with_rec);
    tape_length++;
    if (UNLIKELY(verdict == GLOBAL_BIT || verdict == GLOBAL_FORM || hit & ~passive)) {
        cls = DESTROYED;
        winner->tec += 8;
        rx_errors(receivers);
        touched |= receivers;
    } else if (UNLIKELY(config.peers && !ok)) {
        cls = NOACK;
        if (winner->state != PASSIVE)
            winner->tec += 8;
        rx_errors(hit);
        touched |= hit;
    } else {
        accepted = ok;
        rx_goods(ok);
        if (UNLIKELY(verdict == LASTBIT)) {
            cls = LAST;
            winner->tec += 8;
        } else {
            cls = DONE;
            winner->tec -= winner->tec > 0;
            rx_errors(hit);
            touched |= hit;
        }
    }
    BITS(i, touched)
    if (UNLIKELY(settle_state(i)))
        changed |= 1u << i;

    const frame *f = frame_at(head->frame);
    item it = {ref, 0};
    u32 owner = head->owner & 0x7FFFFFFF;
    BITS(i, accepted | (cls == DONE && head->owner >> 31 ? wbit : 0))
    post_data(iface + i, it, f->word, owner);
    bool off = false;
    e->x = head->frame;
    if (LIKELY(cls == DONE)) {
        winner->head++;
        winner->len--;
        winner->done++;
        set_head(w);
    } else if (UNLIKELY(winner->state == OFF)) {
        off = true;
        winner->lost += winner->len;
        winner->len = 0;
        winner->since_off = 0;
        set_head(w);
    }
    if (UNLIKELY(changed || due || (config.reporting && (cls != DONE || hit)))) {
        u32 roles = config.reporting & (receivers | wbit);
        BITS(i, roles | changed | due) {
            if (due >> i & 1) {
                bring_back(i);
                post_error(i, ref, E_RESTART, 0);
                continue;
            }
            if (roles >> i & 1)
                post_faults(i, ref, w, cls, verdict, hit);
            if (changed >> i & 1)
                post_state(i, ref);
        }
    }
    e->kind |= (u8)(off << 6);
    e->a = (u8)(cls | w << 4);
    e->z = accepted | due << 16;
    return e;
}

static entry *do_restart(u32 i, u32 moment) {
    u32 ref = entries;
    entry *e = new_entry(RESTART, i, FINE, 0, moment, 0);
    if (i >= config.ifaces)
        return e->s = NO_INTERFACE, e;
    if (iface[i].state != OFF)
        return e->s = NOT_BUS_OFF, e;
    bring_back(i);
    post_error(i, ref, E_RESTART, 0);
    return e;
}

/* ---------------------------------------------------------------- names, files, scripts */

typedef struct {
    const char *p;
    u32 n;
} word_t;

static char name[MAX_IFACES][16];
static u32 name_len[MAX_IFACES];

static bool is_name(const char *p, size_t n) {
    if (n < 1 || n > 15)
        return false;
    for (size_t i = 0; i < n; i++) {
        char c = p[i];
        if (!((c >= 'A' && c <= 'Z') || (c >= 'a' && c <= 'z') || (c >= '0' && c <= '9') || c == '_' || c == '-' ||
              c == '.'))
            return false;
    }
    return true;
}

static int find_name(const char *p, size_t n, u32 count) {
    for (u32 i = 0; i < count; i++)
        if (name_len[i] == n && memcmp(name[i], p, n) == 0)
            return (int)i;
    return -1;
}

static u32 read_names(const char *p, size_t n) {
    u32 count = 0;
    const char *end = p + n;
    for (;;) {
        const char *q = memchr(p, ',', (size_t)(end - p));
        size_t len = (size_t)((q ? q : end) - p);
        if (count == MAX_IFACES || !is_name(p, len) || find_name(p, len, count) >= 0)
            die("bad bus");
        memcpy(name[count], p, len);
        name_len[count++] = (u32)len;
        if (!q)
            return count;
        p = q + 1;
    }
}

static bool is_utf8(const u8 *p, size_t n) {
    const u8 *end = p + n;
    while (p < end) {
        u64 x;
        while (end - p >= 8 && (memcpy(&x, p, 8), !(x & 0x8080808080808080ull)))
            p += 8;
        if (p == end)
            break;
        if (*p < 0x80) {
            p++;
            continue;
        }
        int more = *p >= 0xC2 && *p <= 0xDF ? 1 : (*p & 0xF0) == 0xE0 ? 2 : *p >= 0xF0 && *p <= 0xF4 ? 3 : 0;
        if (more == 0 || end - p <= more)
            return false;
        if ((*p == 0xE0 && p[1] < 0xA0) || (*p == 0xED && p[1] > 0x9F) || (*p == 0xF0 && p[1] < 0x90) ||
            (*p == 0xF4 && p[1] > 0x8F))
            return false;
        for (int i = 1; i <= more; i++)
            if ((p[i] & 0xC0) != 0x80)
                return false;
        p += more + 1;
    }
    return true;
}

/* Reads a whole file into a buffer. The AFTER bytes after the contents may be read too. */
enum { AFTER = 16 * 1024 };

static char *read_file(const char *path, size_t *size) {
    int fd = open(path, O_RDONLY);
    if (fd < 0) {
        fprintf(stderr, "canbusd: cannot open %s\n", path);
        exit(1);
    }
    struct stat st;
    size_t room = fstat(fd, &st) == 0 && st.st_size > 0 ? (size_t)st.st_size + 1 : 65536, n = 0;
    char *text = reserve(room + AFTER);
    for (;;) {
        if (n == room) {
            room *= 2;
            text = realloc(text, room + AFTER);
            if (!text)
                die("no memory");
        }
        ssize_t got = read(fd, text + n, room - n);
        if (got < 0)
            die("read fault");
        if (got == 0)
            break;
        n += (size_t)got;
    }
    close(fd);
    memset(text + n, 0, AFTER);
    if (!is_utf8((u8 *)text, n))
        die("read fault");
    *size = n;
    return text;
}

typedef struct {
    u32 number;
    u16 set;
    u8 verdict;
} scripted;
static scripted *script;
static u32 script_len, script_at;

static void script_fault(u32 line, const char *text) {
    fprintf(stderr, "canbusd: script line %u: %s\n", line, text);
    exit(1);
}

/* Returns 0 for a good line, 1 for a bad line, and 2 for an unknown interface. */
static int read_script_line(const char *p, const char *end, scripted *s) {
    const char *start = p;
    u32 number = 0;
    while (p < end && *p >= '0' && *p <= '9' && p - start < 9)
        number = number * 10 + (u32)(*p++ - '0');
    if (p == start || p - start > 8 || p == end || *p != ' ')
        return 1;
    p++;
    size_t n = (size_t)(end - p);
    s->number = number;
    s->set = 0;
#define IS(text) (n == sizeof(text) - 1 && memcmp(p, text, n) == 0)
#define BEGINS(text) (n >= sizeof(text) - 1 && memcmp(p, text, sizeof(text) - 1) == 0)
    if (IS("good"))
        return s->verdict = GOOD, 0;
    if (IS("lastbit"))
        return s->verdict = LASTBIT, 0;
    if (IS("global bit"))
        return s->verdict = GLOBAL_BIT, 0;
    if (IS("global form"))
        return s->verdict = GLOBAL_FORM, 0;
    if (BEGINS("local stuff "))
        s->verdict = LOCAL_STUFF, p += 12;
    else if (BEGINS("local crc "))
        s->verdict = LOCAL_CRC, p += 10;
    else if (BEGINS("local form "))
        s->verdict = LOCAL_FORM, p += 11;
    else
        return 1;
#undef IS
#undef BEGINS
    bool unknown = false;
    for (;;) {
        const char *q = memchr(p, ',', (size_t)(end - p));
        size_t len = (size_t)((q ? q : end) - p);
        int i = find_name(p, len, config.ifaces);
        if (i >= 0)
            s->set |= (u16)(1u << i);
        else if (is_name(p, len))
            unknown = true;
        else
            return 1;
        if (!q)
            return unknown ? 2 : 0;
        p = q + 1;
    }
}

static int by_value(const void *a, const void *b) {
    u64 x = *(const u64 *)a, y = *(const u64 *)b;
    return x < y ? -1 : x > y;
}

static void read_script(const char *path) {
    size_t size;
    char *text = read_file(path, &size);
    const char *p = text, *end = text + size;
    u32 line = 0, fault_line = 0, *line_of = reserve((size / 3 + 1) * sizeof(u32));
    int fault = 0;
    bool rising = true;
    script = reserve((size / 3 + 1) * sizeof(scripted));
    while (p < end && !fault) {
        const char *q = memchr(p, '\n', (size_t)(end - p));
        if (!q)
            q = end;
        line++;
        if (q > p && *p != '#') {
            scripted *s = script + script_len;
            fault = read_script_line(p, q, s);
            fault_line = line;
            if (!fault) {
                if (script_len && s[-1].number >= s->number)
                    rising = false;
                line_of[script_len++] = line;
            }
        }
        p = q + 1;
    }
    if (!rising) {
        u64 *order = reserve(script_len * sizeof(u64));
        scripted *sorted = reserve(script_len * sizeof(scripted));
        u32 repeated = 0;
        for (u32 i = 0; i < script_len; i++)
            order[i] = (u64)script[i].number << 32 | i;
        qsort(order, script_len, sizeof(u64), by_value);
        for (u32 i = 0; i < script_len; i++) {
            u32 at = (u32)order[i];
            sorted[i] = script[at];
            if (i && sorted[i - 1].number == sorted[i].number && (!repeated || line_of[at] < repeated))
                repeated = line_of[at];
        }
        if (repeated)
            script_fault(repeated, "repeated attempt");
        free(order);
        free(script);
        script = sorted;
    }
    if (fault)
        script_fault(fault_line, fault == 1 ? "bad line" : "unknown interface");
    free(line_of);
    free(text);
}

/* ---------------------------------------------------------------- sessions */

enum mode { NOT_USED, NO_BUS, OPENED, RAW, ENDED };

typedef struct {
    u8 mode, iface;
    bool errdata, inside;
    u32 kept_len;
    socket_t *socket;
    char kept[MAX_INSIDE + 16];
} session_t;

static session_t session[MAX_SESSION + 1];
static u32 rx_capacity = 256;
static u32 now; /* the index of the present timestamp */

static char *put_error(char *o, const char *text) {
    size_t n = strlen(text);
    o = LIT(o, "< error ");
    memcpy(o, text, n);
    o += n;
    return LIT(o, " >");
}

static inline char *put_refusal(char *o, u32 refusal) {
    return refusal ? put_error(o, refusal_text[refusal]) : LIT(o, "< ok >");
}

/* Reads an identifier and stores the identifier word. Returns false if the identifier is bad. */
static bool read_id(const char *p, u32 n, u32 *word) {
    u32 v = 0;
    if (n > 8)
        return false;
    for (u32 i = 0; i < n; i++) {
        u32 d = hex_value[(u8)p[i]];
        if (d > 15)
            return false;
        v = v << 4 | d;
    }
    if (n == 8) {
        v &= 0x7FFFFFFF;
        *word = v | EXT_BIT;
        return v <= 0x1FFFFFFF;
    }
    *word = v;
    return n >= 1 && n <= 3 && v <= 0x7FF;
}

static bool read_hex_word(word_t w, u32 *word) {
    u32 v = 0;
    if (w.n > 8)
        return false;
    for (u32 i = 0; i < w.n; i++) {
        u32 d = hex_value[(u8)w.p[i]];
        if (d > 15)
            return false;
        v = v << 4 | d;
    }
    *word = v;
    return true;
}

static bool is_fd_length(u32 n) {
    return n <= 8 || n == 12 || n == 16 || n == 20 || n == 24 || n == 32 || n == 48 || n == 64;
}

enum command {
    C_SEND,
    C_ECHO,
    C_STATS,
    C_STATUS,
    C_SENDRTR,
    C_SENDFD,
    C_FILTER,
    C_ERRMASK,
    C_LOOPBACK,
    C_RECVOWN,
    C_JOIN,
    C_FDFRAMES,
    C_ERRDATA,
    C_RESTART,
    C_CLOSE,
    C_OPEN,
    C_RAWMODE,
    C_BCM,
    C_ISOTP,
    C_CONTROL,
    COMMANDS
};
enum { IN_NO_BUS = 1 << NO_BUS, IN_OPENED = 1 << OPENED, IN_RAW = 1 << RAW };
static const struct {
    char text[12];
    u8 n, modes;
} commands[COMMANDS] = {{"send", 4, IN_RAW},
                        {"echo", 4, IN_NO_BUS | IN_OPENED | IN_RAW},
                        {"stats", 5, IN_RAW},
                        {"status", 6, IN_RAW},
                        {"sendrtr", 7, IN_RAW},
                        {"sendfd", 6, IN_RAW},
                        {"filter", 6, IN_RAW},
                        {"errmask", 7, IN_RAW},
                        {"loopback", 8, IN_RAW},
                        {"recvown", 7, IN_RAW},
                        {"join", 4, IN_RAW},
                        {"fdframes", 8, IN_RAW},
                        {"errdata", 7, IN_RAW},
                        {"restart", 7, IN_RAW},
                        {"close", 5, IN_RAW},
                        {"open", 4, IN_NO_BUS},
                        {"rawmode", 7, IN_OPENED | IN_RAW},
                        {"bcmmode", 7, IN_OPENED | IN_RAW},
                        {"isotpmode", 9, IN_OPENED | IN_RAW},
                        {"controlmode", 11, IN_OPENED | IN_RAW}};

static char *put_stats(char *o, const session_t *s) {
    const socket_t *k = s->socket;
    const iface_t *f = iface + s->iface;
    const u32 numbers[8] = {k->taken + k->len, k->dropped, k->taken, f->sent, f->done, f->len, f->lost, f->refused};
    o = LIT(o, "< stats ");
    for (int i = 0; i < 8; i++) {
        o = put_u32(o, numbers[i]);
        *o++ = ' ';
    }
    *o++ = '>';
    return o;
}

/* Handles `send` and `sendfd`. The caller has already checked the words. */
static char *send_words(session_t *s, char *o, const word_t *w, u32 n, bool fd) {
    u32 word, len;
    if (n < 3)
        return put_error(o, "bad word count");
    if (!read_id(w[1].p, w[1].n, &word))
        return put_error(o, "bad id");
    if (w[2].n == 1 && w[2].p[0] >= '0' && w[2].p[0] <= '8')
        len = (u32)(w[2].p[0] - '0');
    else if (fd && w[2].n == 2 && w[2].p[0] >= '1' && w[2].p[0] <= '9' && w[2].p[1] >= '0' && w[2].p[1] <= '9' &&
             is_fd_length((u32)((w[2].p[0] - '0') * 10 + w[2].p[1] - '0')))
        len = (u32)((w[2].p[0] - '0') * 10 + w[2].p[1] - '0');
    else
        return put_error(o, "bad length");
    if (n - 3 != len)
        return put_error(o, "bad word count");
    u8 *data = (u8 *)(frames + frame_end + 1);
    for (u32 i = 0; i < len; i++) {
        u32 v = 0;
        if (w[3 + i].n > 2 || !read_hex_word(w[3 + i], &v))
            return put_error(o, "bad byte");
        data[i] = (u8)v;
    }
    if (full())
        return put_error(o, refusal_text[RECORD_FULL]);
    entry *e = do_send(s->socket->number, s->socket, word | (fd ? FD_BIT : 0), len);
    return e->s ? put_error(o, refusal_text[e->s]) : o;
}

static char *filter_words(session_t *s, char *o, const word_t *w, u32 n) {
    if (n < 2)
        return put_error(o, "bad word count");
    u32 count = 0;
    if (w[1].n > 3)
        return put_error(o, "bad number");
    for (u32 i = 0; i < w[1].n; i++) {
        if (w[1].p[i] < '0' || w[1].p[i] > '9')
            return put_error(o, "bad number");
        count = count * 10 + (u32)(w[1].p[i] - '0');
    }
    if (count > MAX_FILTERS)
        return put_error(o, "too many filters");
    if (n - 2 != 2 * count)
        return put_error(o, "bad word count");
    for (u32 i = 0; i < count; i++) {
        u32 *to = filter_list[filter_end + i];
        if (!read_hex_word(w[2 + 2 * i], to) || !read_hex_word(w[3 + 2 * i], to + 1))
            return put_error(o, "bad number");
        if (to[1] & FD_BIT)
            return put_error(o, "invalid filter");
    }
    if (full())
        return put_error(o, refusal_text[RECORD_FULL]);
    return put_refusal(o, do_filters(s->socket->number, s->socket, count)->s);
}

/* Handles one whole message. The byte at `end` may be read. */
static char *message(session_t *s, const char *p, const char *end, char *o) {
    word_t w[MAX_INSIDE / 2 + 1];
    u32 n = 0, c, word;
    for (;;) {
        while (p < end && (*p == ' ' || *p == '\t' || *p == '\r' || *p == '\n'))
            p++;
        if (p == end)
            break;
        const char *start = p;
        while (p < end && !(*p == ' ' || *p == '\t' || *p == '\r' || *p == '\n'))
            p++;
        w[n++] = (word_t){start, (u32)(p - start)};
    }
    if (n == 0)
        return put_error(o, "empty message");
    for (c = 0; c < COMMANDS; c++)
        if (commands[c].n == w[0].n && memcmp(commands[c].text, w[0].p, w[0].n) == 0)
            break;
    if (c == COMMANDS)
        return put_error(o, "unknown command");
    if (!(commands[c].modes >> s->mode & 1))
        return put_error(o, "wrong state");
    u32 number = s->socket ? s->socket->number : 0;
    switch (c) {
    case C_BCM:
    case C_ISOTP:
    case C_CONTROL: return put_error(o, "mode not supported");
    case C_SEND:
    case C_SENDFD: return send_words(s, o, w, n, c == C_SENDFD);
    case C_SENDRTR:
        if (n != 3)
            return put_error(o, "bad word count");
        if (!read_id(w[1].p, w[1].n, &word))
            return put_error(o, "bad id");
        if (w[2].n != 1 || w[2].p[0] < '0' || w[2].p[0] > '8')
            return put_error(o, "bad length");
        if (full())
            return put_error(o, refusal_text[RECORD_FULL]);
        c = do_send(number, s->socket, word | RTR_BIT, (u32)(w[2].p[0] - '0'))->s;
        return c ? put_error(o, refusal_text[c]) : o;
    case C_FILTER: return filter_words(s, o, w, n);
    case C_JOIN:
    case C_LOOPBACK:
    case C_RECVOWN:
    case C_FDFRAMES:
    case C_ERRDATA:
    case C_ERRMASK:
        if (n != 2)
            return put_error(o, "bad word count");
        if (c == C_ERRMASK) {
            if (!read_hex_word(w[1], &word))
                return put_error(o, "bad number");
        } else if (w[1].n == 1 && (w[1].p[0] == '0' || w[1].p[0] == '1'))
            word = w[1].p[0] == '1';
        else
            return put_error(o, "bad number");
        if (c == C_ERRDATA) {
            s->errdata = word;
            return LIT(o, "< ok >");
        }
        if (full())
            return put_error(o, refusal_text[RECORD_FULL]);
        u32 which = c == C_JOIN       ? O_JOIN
                    : c == C_LOOPBACK ? O_LOOPBACK
                    : c == C_RECVOWN  ? O_RECVOWN
                    : c == C_FDFRAMES ? O_FD
                                      : O_ERRMASK;
        return put_refusal(o, do_option(number, s->socket, which, word)->s);
    case C_OPEN: {
        if (n != 2)
            return put_error(o, "bad word count");
        int i = find_name(w[1].p, w[1].n, config.ifaces);
        if (i < 0)
            return put_error(o, refusal_text[NO_INTERFACE]);
        s->iface = (u8)i;
        s->mode = OPENED;
        return LIT(o, "< ok >");
    }
    }
    if (n != 1)
        return put_error(o, "bad word count");
    switch (c) {
    case C_ECHO: return LIT(o, "< echo >");
    case C_STATS: return put_stats(o, s);
    case C_STATUS: {
        static const char *const state_text[4] = {"active ", "warning ", "passive ", "off "};
        const iface_t *f = iface + s->iface;
        size_t len = strlen(state_text[f->state]);
        o = LIT(o, "< status ");
        memcpy(o, state_text[f->state], len);
        o = put_u32(o + len, f->tec);
        *o++ = ' ';
        return LIT(put_u32(o, f->rec), " >");
    }
    case C_RAWMODE:
        if (s->mode == OPENED) {
            if (full())
                return put_error(o, refusal_text[RECORD_FULL]);
            entry *e = do_open(s->iface, rx_capacity, &s->socket);
            if (e->s)
                return put_error(o, refusal_text[e->s]);
            s->mode = RAW;
        }
        return LIT(o, "< ok >");
    }
    if (full())
        return put_error(o, refusal_text[RECORD_FULL]);
    if (c == C_RESTART)
        return put_refusal(o, do_restart(s->iface, now)->s);
    entry *e = do_close(number, s->socket);
    if (e->s)
        return put_error(o, refusal_text[e->s]);
    s->mode = ENDED;
    o = put_u32(LIT(o, "< closed "), e->y);
    *o++ = ' ';
    return LIT(put_u32(o, e->z), " >");
}

/* Handles a `send` in its simplest form, from the byte after `<`.  Returns a pointer to the byte after `>`, or NULL for
 * any other form. The string must end with a byte that is not a digit, a space or `>`. */
static inline const char *plain_send(session_t *s, const char *p, char **o) {
    if (memcmp(p, " send ", 6) != 0)
        return NULL;
    p += 6;
    const char *start = p;
    u32 word = 0, d;
    while ((d = hex_value[(u8)*p]) < 16) {
        word = word << 4 | d;
        p++;
    }
    u32 digits = (u32)(p - start);
    if (digits == 8) {
        word &= 0x7FFFFFFF;
        if (word > 0x1FFFFFFF)
            return NULL;
        word |= EXT_BIT;
    } else if (digits - 1 > 2 || word > 0x7FF)
        return NULL;
    u32 len = (u32)((u8)p[1] - '0');
    if (*p != ' ' || len > 8)
        return NULL;
    p += 2;
    u64 data = 0;
    for (u32 i = 0; i < len; i++) {
        if (*p != ' ' || (d = hex_value[(u8)p[1]]) > 15)
            return NULL;
        u32 low = hex_value[(u8)p[2]];
        p += 2;
        if (low < 16) {
            d = d << 4 | low;
            p++;
        }
        data |= (u64)d << (8 * i);
    }
    if (*p == ' ')
        p++;
    if (*p != '>')
        return NULL;
    if (full()) {
        *o = put_error(*o, refusal_text[RECORD_FULL]);
        return p + 1;
    }
    frames[frame_end + 1] = data; /* little-endian */
    u32 refusal = do_send(s->socket->number, s->socket, word, len)->s;
    if (UNLIKELY(refusal))
        *o = put_error(*o, refusal_text[refusal]);
    return p + 1;
}

/* Returns a pointer to the next `<` or `>`, or `end` if there is none. */
static inline const char *next_mark(const char *p, const char *end) {
    while (end - p >= 8) {
        u64 x;
        memcpy(&x, p, 8);
        x = (x & 0xFDFDFDFDFDFDFDFDull) ^ 0x3C3C3C3C3C3C3C3Cull;
        x = (x - 0x0101010101010101ull) & ~x & 0x8080808080808080ull;
        if (x)
            return p + (__builtin_ctzll(x) >> 3);
        p += 8;
    }
    while (p < end && (*p & 0xFD) != 0x3C)
        p++;
    return p;
}

/* Handles input from a session. The byte at `end` is the line's LF. */
static char *feed(session_t *s, const char *p, const char *end, char *o) {
    while (s->mode != ENDED) {
        if (!s->inside) {
            while (p < end && *p != '<')
                p++;
            if (p == end)
                return o;
            p++;
            if (LIKELY(s->mode == RAW && end - p > 6)) {
                const char *q = plain_send(s, p, &o);
                if (LIKELY(q != NULL)) {
                    p = q;
                    continue;
                }
            }
            s->inside = true;
            s->kept_len = 0;
        }
        const char *q = next_mark(p, end);
        u32 room = MAX_INSIDE - s->kept_len;
        if (UNLIKELY(q - p > room)) {
            o = put_error(o, "message too long");
            s->inside = false;
            p += room + 1;
            continue;
        }
        if (q < end && *q == '<') {
            s->inside = false;
            p = q;
            continue;
        }
        u32 n = (u32)(q - p);
        if (q < end && s->kept_len == 0) {
            s->inside = false;
            o = message(s, p, q, o);
            p = q + 1;
            continue;
        }
        memcpy(s->kept + s->kept_len, p, n);
        s->kept_len += n;
        if (q == end)
            return o;
        p = q + 1;
        s->inside = false;
        s->kept[s->kept_len] = '>';
        s->kept[s->kept_len + 1] = '\n';
        if (s->mode != RAW || !plain_send(s, s->kept, &o))
            o = message(s, s->kept, s->kept + s->kept_len, o);
    }
    return o;
}

static inline char *put_item(char *o, const entry *e, bool errdata) {
    const entry *from = record + e->y;
    if (LIKELY(e->a == GOT_DATA)) {
        const frame *f = frame_at(from->x);
        if (UNLIKELY(f->word & (RTR_BIT | FD_BIT))) {
            if (f->word & RTR_BIT) {
                o = put_id(LIT(o, "< remote "), f->word);
                *o++ = ' ';
                o = put_moment(o, from->y);
                *o++ = ' ';
                *o++ = (char)('0' + (f->number_len & 255));
                return LIT(o, " >");
            }
            o = LIT(o, "< fdframe ");
        } else
            o = LIT(o, "< frame ");
        o = put_id(o, f->word);
        *o++ = ' ';
        o = put_moment(o, from->y);
        *o++ = ' ';
        o = put_bytes(o, f->data, f->number_len & 255);
        return LIT(o, " >");
    }
    o = LIT(o, "< error ");
    memcpy(o, error_class[e->z >> 28], 4);
    o[3] = ' ';
    o = put_moment(o + 4, from->y);
    *o++ = ' ';
    if (errdata) {
        o = put_error_data(o, e->z);
        *o++ = ' ';
    }
    *o++ = '>';
    return o;
}

static char *drain(session_t *s, char *o) {
    if (s->mode != RAW)
        return o;
    u32 number = s->socket->number;
    for (;;) {
        if (full())
            return put_error(o, refusal_text[RECORD_FULL]);
        entry *e = do_receive(number, s->socket);
        if (e->a == GOT_NONE)
            return o;
        o = make_room(put_item(o, e, s->errdata));
    }
}

/* ---------------------------------------------------------------- bench */

/* Caches, for each winner, the last set of interfaces and its string: the names joined by commas. */
static struct {
    u32 set, len;
    char text[256 + 16];
} set_text[MAX_IFACES];

static char *put_set(char *o, u32 set) {
    if (!set) {
        *o = '-';
        return o + 1;
    }
    BITS(i, set) {
        memcpy(o, name[i], 16);
        o += name_len[i];
        *o++ = ',';
    }
    return o - 1;
}

static char *attempt_line(char *o) {
    if (full())
        return LIT(o, "record full\n");
    u32 verdict = GOOD, set = 0;
    while (script_at < script_len && script[script_at].number < tape_length)
        script_at++;
    if (script_at < script_len && script[script_at].number == tape_length) {
        verdict = script[script_at].verdict;
        set = script[script_at].set;
    }
    const entry *e = do_attempt(now, verdict, set);
    u32 cls = e->a & 15, w = e->a >> 4, accepted = e->z & 0xFFFF;
    if (cls == IDLE)
        o = LIT(o, "idle");
    else {
        static const char middle[5][12] = {"", " done ", " lastbit ", " destroyed ", " noack "};
        static const u8 middle_len[5] = {0, 6, 9, 11, 7};
        o = LIT(o, "tried ");
        memcpy(o, name[w], 16);
        o += name_len[w];
        *o++ = ' ';
        o = put_u32(o, frame_at(e->x)->number_len >> 8);
        memcpy(o, middle[cls], 12);
        o += middle_len[cls];
        if (UNLIKELY(set_text[w].set != accepted || !set_text[w].len)) {
            set_text[w].set = accepted;
            set_text[w].len = (u32)(put_set(set_text[w].text, accepted) - set_text[w].text);
        }
        memcpy(o, set_text[w].text, set_text[w].len);
        o += set_text[w].len;
        if (UNLIKELY(e->kind & 64)) {
            *o++ = ' ';
            o = put_set(o, 1u << w);
        } else
            o = LIT(o, " -");
    }
    if (UNLIKELY(e->z >> 16))
        o = put_set(LIT(o, " restarted "), e->z >> 16);
    *o++ = '\n';
    return o;
}

static bool read_moment(const char *p, const char *end, u64 *m) {
    const char *start = p;
    u64 v = 0;
    while (p < end && *p >= '0' && *p <= '9' && p - start < 11)
        v = v * 10 + (u64)(*p++ - '0');
    if (p == start || p - start > 10 || end - p != 7 || *p != '.')
        return false;
    for (p++; p < end; p++) {
        if (*p < '0' || *p > '9')
            return false;
        v = v * 10 + (u64)(*p - '0');
    }
    *m = v;
    return true;
}

/* Parses the session number at p. Returns a pointer to the byte after the number, or NULL if the number is bad. */
static inline const char *read_session(const char *p, const char *end, u32 *s) {
    if (p == end || *p < '1' || *p > '9')
        return NULL;
    u32 v = (u32)(*p++ - '0');
    if (p < end && *p >= '0' && *p <= '9')
        v = v * 10 + (u32)(*p++ - '0');
    *s = v;
    return v <= MAX_SESSION ? p : NULL;
}

static inline char *put_number(char *o, u32 s) {
    o = put_u32(o, s);
    *o++ = ' ';
    return o;
}

/* Handles one line. The byte at `end` may be read and is LF.  Returns false for a bad line. */
static inline bool line(const char *p, const char *end, char **at) {
    size_t n = (size_t)(end - p);
    char *o = *at, *from;
    const char *q;
    u32 number;
    u64 m;
    if (n == 0 || *p == '#')
        return true;
    switch (*p) {
    case 'a':
        if (n == 7 && memcmp(p, "attempt", 7) == 0) {
            *at = attempt_line(o);
            return true;
        }
        if (n < 3 || memcmp(p, "at ", 3) != 0 || !read_moment(p + 3, end, &m))
            return false;
        now = moment_place(m);
        return true;
    case 'f':
        if (n < 6 || memcmp(p, "feed ", 5) != 0)
            return false;
        q = read_session(p + 5, end, &number);
        if (!q || q == end || *q != ' ' || !session[number].mode)
            return false;
        from = put_number(o, number);
        o = feed(session + number, q + 1, end, from);
        break;
    case 'd':
        if (n < 6 || memcmp(p, "drain ", 6) != 0)
            return false;
        q = read_session(p + 6, end, &number);
        if (!q || q != end || !session[number].mode)
            return false;
        from = put_number(o, number);
        o = drain(session + number, from);
        break;
    case 's':
        if (n < 8 || memcmp(p, "session ", 8) != 0)
            return false;
        q = read_session(p + 8, end, &number);
        if (!q || q != end || session[number].mode)
            return false;
        session[number].mode = NO_BUS;
        from = put_number(o, number);
        o = LIT(from, "< hi >");
        break;
    case 'e':
        if (n < 4 || memcmp(p, "end ", 4) != 0)
            return false;
        q = read_session(p + 4, end, &number);
        if (!q || q != end || !session[number].mode)
            return false;
        if (session[number].mode == RAW && !full())
            do_close(session[number].socket->number, session[number].socket);
        session[number].mode = ENDED;
        return true;
    default: return false;
    }
    if (o != from) {
        *o++ = '\n';
        *at = o;
    }
    return true;
}

enum { CHUNK = 64 * 1024 };
static char input[MAX_LINE + 1 + CHUNK + 64];

static u32 bad_line;

static const char *bench(void) {
    size_t kept = 0, total = 0;
    u32 number = 0;
    char *o = out;
    const char *fault = NULL;
    for (u32 reads = 0; !fault; reads++) {
        if (reads == MAX_INPUT) {
            fault = "input too long";
            break;
        }
        ssize_t got = read(0, input + kept, CHUNK);
        if (got < 0)
            fault = "read fault";
        if (got <= 0)
            break;
        size_t taken = (size_t)got;
        if (taken > MAX_INPUT - total)
            taken = MAX_INPUT - total;
        total += taken;
        const char *p = input, *end = input + kept + taken;
        for (;;) {
            const char *q = memchr(p, '\n', (size_t)(end - p));
            if (!q) {
                if (end - p > MAX_LINE)
                    bad_line = number + 1;
                break;
            }
            number++;
            o = make_room(o);
            if (UNLIKELY(q - p > MAX_LINE || !line(p, q, &o))) {
                bad_line = number;
                break;
            }
            p = q + 1;
        }
        out_at = o;
        if (bad_line)
            return "bad line";
        if (taken < (size_t)got)
            fault = "input too long";
        kept = (size_t)(end - p);
        memmove(input, p, kept);
    }
    if (!fault && kept) {
        input[kept] = '\n';
        o = make_room(o);
        if (!line(input, input + kept, &o)) {
            bad_line = number + 1;
            fault = "bad line";
        }
    }
    out_at = o;
    return fault;
}

static void write_record(const char *path) {
    int fd = open(path, O_WRONLY | O_CREAT | O_TRUNC, 0666);
    if (fd < 0) {
        fprintf(stderr, "canbusd: cannot open %s\n", path);
        exit(1);
    }
    out_fd = fd;
    u32 version = seen_fd ? 3 : config.auto_restart ? 2 : 1;
    char *o = out;
    o += sprintf(o, "canbus record %u\nbus %u %s %04X %u %u", version, config.ifaces, config.peers ? "peers" : "always",
                 config.reporting, config.tx_capacity, limit);
    if (version > 1)
        o += sprintf(o, " %u", config.auto_restart);
    *o++ = '\n';
    for (u32 i = 0; i < entries; i++) {
        o = put_entry(make_room(o), record + i);
        *o++ = '\n';
    }
    o += sprintf(o, "end %u\n", entries);
    out_at = o;
    if (!flush_out() || close(fd) < 0)
        die("write fault");
}

/* ---------------------------------------------------------------- audit */

/* A line is correct if it is identical to the line that the replay writes. Only a line that differs is parsed by the
 * strict rules below, to distinguish `bad line` from `wrong`. */

static inline socket_t *socket_of(u64 number) {
    return number < sockets_ever && slot_of[number] ? slots + slot_of[number] - 1 : NULL;
}

typedef struct {
    const char *p, *end;
} cursor;

static bool take(cursor *c, const char *text) {
    size_t n = strlen(text);
    if ((size_t)(c->end - c->p) < n || memcmp(c->p, text, n) != 0)
        return false;
    c->p += n;
    return true;
}

static bool take_number(cursor *c, u64 most, u64 *v) {
    const char *start = c->p;
    u64 x = 0;
    while (c->p < c->end && *c->p >= '0' && *c->p <= '9') {
        u64 d = (u64)(*c->p - '0');
        if (x > (UINT64_MAX - d) / 10)
            return false;
        x = x * 10 + d;
        c->p++;
    }
    *v = x;
    return c->p > start && !(*start == '0' && c->p - start > 1) && x <= most;
}

static bool take_hex(cursor *c, u32 digits, u32 *v) /* upper case only */
{
    u32 x = 0;
    if ((size_t)(c->end - c->p) < digits)
        return false;
    for (u32 i = 0; i < digits; i++) {
        u8 b = (u8)c->p[i];
        if (hex_value[b] > 15 || b >= 'a')
            return false;
        x = x << 4 | hex_value[b];
    }
    c->p += digits;
    *v = x;
    return true;
}

static bool take_moment(cursor *c, u64 *m) {
    u64 seconds, micros = 0;
    if (!take_number(c, 9999999999ull, &seconds) || c->end - c->p < 7 || *c->p != '.')
        return false;
    for (int i = 1; i <= 6; i++) {
        if (c->p[i] < '0' || c->p[i] > '9')
            return false;
        micros = micros * 10 + (u64)(c->p[i] - '0');
    }
    c->p += 7;
    *m = seconds * 1000000 + micros;
    return true;
}

/* Parses a data, remote or FD frame, and appends its data to `frames`. */
static bool take_frame(cursor *c, u32 *word, u32 *len) {
    const char *mark = c->p;
    while (mark < c->end && hex_value[(u8)*mark] < 16)
        mark++;
    u32 n = (u32)(mark - c->p);
    if ((n != 3 && n != 8) || mark == c->end || *mark != '#' || !take_hex(c, n, word))
        return false;
    if (*word > (n == 8 ? 0x1FFFFFFFu : 0x7FFu))
        return false;
    if (n == 8)
        *word |= EXT_BIT;
    c->p++;
    *len = 0;
    if (c->p < c->end && *c->p == 'R') {
        *word |= RTR_BIT;
        c->p++;
        if (c->p < c->end && *c->p >= '1' && *c->p <= '8')
            *len = (u32)(*c->p++ - '0');
        return true;
    }
    u32 most = 8;
    if (take(c, "#0")) {
        *word |= FD_BIT;
        most = 64;
    }
    u8 *data = (u8 *)(frames + frame_end + 1);
    while (c->p + 1 < c->end && hex_value[(u8)*c->p] < 16) {
        u32 high = hex_value[(u8)c->p[0]], low = hex_value[(u8)c->p[1]];
        if (low > 15 || *len == most || c->p[0] >= 'a' || c->p[1] >= 'a')
            return false;
        data[(*len)++] = (u8)(high << 4 | low);
        c->p += 2;
    }
    return is_fd_length(*len);
}

/* Parses the event at c. If `run` is set, also executes the part of the event that was parsed. Returns the kind of the
 * event, or -1 for a bad event. */
static int take_event(cursor *c, bool run, bool *fd, entry **done) {
    u64 i, n, m;
    u32 v, len;
    *fd = false;
    *done = NULL;
    if (c->p == c->end)
        return -1;
    switch (*c->p) {
    case 's':
        if (!take(c, "send ") || !take_number(c, UINT32_MAX, &n) || !take(c, " ") || !take_frame(c, &v, &len))
            return -1;
        *fd = v & FD_BIT;
        if (run)
            *done = do_send((u32)n, socket_of(n), v, len);
        return SEND;
    case 'r':
        if (take(c, "receive ")) {
            if (!take_number(c, UINT32_MAX, &n))
                return -1;
            if (run)
                *done = do_receive((u32)n, socket_of(n));
            return RECEIVE;
        }
        if (!take(c, "restart ") || !take_number(c, MAX_IFACES - 1, &i) || !take(c, " ") || !take_moment(c, &m))
            return -1;
        if (run)
            *done = do_restart((u32)i, moment_place(m));
        return RESTART;
    case 'a':
        if (!take(c, "attempt ") || !take_moment(c, &m) || !take(c, " "))
            return -1;
        for (v = GOOD; v <= LOCAL_FORM; v++)
            if (take(c, verdict_text[v]))
                break;
        len = 0;
        if (v > LOCAL_FORM || (v >= LOCAL_STUFF && !take_hex(c, 4, &len)))
            return -1;
        if (run)
            *done = do_attempt(moment_place(m), v, len);
        return ATTEMPT;
    case 'o':
        if (take(c, "open ")) {
            if (!take_number(c, MAX_IFACES - 1, &i) || !take(c, " ") || !take_number(c, UINT64_MAX, &n))
                return -1;
            socket_t *made;
            if (run)
                *done = do_open((u32)i, n, &made);
            return OPEN;
        }
        if (!take(c, "option ") || !take_number(c, UINT32_MAX, &n) || !take(c, " "))
            return -1;
        u32 which;
        for (which = O_LOOPBACK; which <= O_FD; which++)
            if (take(c, option_text[which]))
                break;
        if (which > O_FD || !take(c, " ") || !take_hex(c, which == O_ERRMASK ? 8 : 1, &v) ||
            (which != O_ERRMASK && v > 1))
            return -1;
        *fd = which == O_FD;
        if (run)
            *done = do_option((u32)n, socket_of(n), which, v);
        return OPTION;
    case 'c':
        if (!take(c, "close ") || !take_number(c, UINT32_MAX, &n))
            return -1;
        if (run)
            *done = do_close((u32)n, socket_of(n));
        return CLOSE;
    case 'f':
        if (!take(c, "filters ") || !take_number(c, UINT32_MAX, &i) || !take(c, " ") ||
            !take_number(c, MAX_FILTERS, &n))
            return -1;
        for (m = 0; m < n; m++) {
            u32 *to = filter_list[filter_end + m];
            if (!take(c, " ") || !take_hex(c, 8, to) || !take(c, " ") || !take_hex(c, 8, to + 1) || to[1] & FD_BIT)
                return -1;
        }
        if (run)
            *done = do_filters((u32)i, socket_of(i), (u32)n);
        return FILTERS;
    }
    return -1;
}

static bool take_reply(cursor *c, int kind, bool fd_send, bool *fd) {
    u64 n;
    u32 v, len;
    for (u32 r = NO_INTERFACE; r <= FD_OFF; r++) {
        cursor whole = *c;
        if (take(&whole, refusal_name[r]) && whole.p == whole.end)
            return r != FD_OFF || fd_send;
    }
#define REST(x) ((x) && c->p == c->end)
    switch (kind) {
    case OPEN: return REST(take(c, "socket ") && take_number(c, UINT32_MAX, &n));
    case CLOSE:
        return REST(take(c, "closed ") && take_number(c, UINT64_MAX, &n) && take(c, " ") &&
                    take_number(c, UINT64_MAX, &n));
    case FILTERS:
    case OPTION:
    case RESTART: return REST(take(c, "ok"));
    case SEND: return REST(take(c, "number ") && take_number(c, UINT64_MAX, &n));
    case RECEIVE:
        if (take(c, "none"))
            return c->p == c->end;
        if (take(c, "data ")) {
            if (!take_number(c, MAX_IFACES - 1, &n) || !take(c, " ") || !take_number(c, UINT64_MAX, &n) ||
                !take(c, " ") || !take_frame(c, &v, &len))
                return false;
            *fd |= (v & FD_BIT) != 0;
            return REST(take(c, " ") && take_moment(c, &n));
        }
        if (!take(c, "error ") || !take_number(c, MAX_IFACES - 1, &n) || !take(c, " ") || !take_hex(c, 8, &v) ||
            (v & 0xE0000000) != 0x20000000)
            return false;
        return REST(take(c, "#") && take_hex(c, 8, &v) && take_hex(c, 8, &v) && take(c, " ") && take_moment(c, &n));
    }
    if (!take(c, "idle")) {
        if (!take(c, "tried ") || !take_number(c, MAX_IFACES - 1, &n) || !take(c, " ") ||
            !take_number(c, UINT64_MAX, &n) || !take(c, " ") || !take_frame(c, &v, &len) || !take(c, " "))
            return false;
        *fd |= (v & FD_BIT) != 0;
        u32 k;
        for (k = DONE; k <= NOACK; k++)
            if (take(c, class_text[k]))
                break;
        if (k > NOACK || !take(c, " ") || !take_hex(c, 4, &v) || !take(c, " ") || !take_hex(c, 4, &v))
            return false;
    }
    if (c->p == c->end)
        return true;
    return REST(take(c, " restarted ") && take_hex(c, 4, &v) && v != 0 && config.auto_restart != 0);
#undef REST
}

static bool strict_line(const char *p, const char *end, u32 version, bool *fd) {
    cursor c = {p, end};
    entry *none;
    bool fd_event;
    int kind = take_event(&c, false, &fd_event, &none);
    if (kind < 0 || !take(&c, " = "))
        return false;
    *fd = fd_event;
    return take_reply(&c, kind, kind == SEND && fd_event, fd) && (!*fd || version == 3);
}

static void bad_audit_line(u64 number) {
    fprintf(stderr, "canbusd: line %llu: bad line\n", (unsigned long long)number);
    exit(1);
}

static bool read_config(const char *p, const char *end, u32 version) {
    cursor c = {p, end};
    u64 ifaces, tx, most, restart = 0;
    u32 reporting;
    if (!take(&c, "bus ") || !take_number(&c, MAX_IFACES, &ifaces) || !ifaces || !take(&c, " "))
        return false;
    config.peers = take(&c, "peers");
    if (!config.peers && !take(&c, "always"))
        return false;
    if (!take(&c, " ") || !take_hex(&c, 4, &reporting) || !take(&c, " ") || !take_number(&c, MAX_TX, &tx) || !tx ||
        !take(&c, " ") || !take_number(&c, MAX_EVENTS, &most) || !most)
        return false;
    if (version > 1 && (!take(&c, " ") || !take_number(&c, MAX_RESTART, &restart) || (version == 2 && restart == 0)))
        return false;
    config.ifaces = (u32)ifaces;
    config.reporting = reporting & ((1u << ifaces) - 1);
    config.tx_capacity = (u32)tx;
    config.auto_restart = (u32)restart;
    limit = (u32)most;
    return c.p == c.end;
}

static int audit(const char *path) {
    size_t size;
    const char *text = read_file(path, &size), *end = text + size;
    u32 version = 0;
    for (u32 v = 1; v <= 3; v++) {
        char first[] = "canbus record 0\n";
        first[14] = (char)('0' + v);
        if (size >= 16 && memcmp(text, first, 16) == 0)
            version = v;
    }
    if (!version)
        die("bad version");
    const char *p = text + 16, *q = memchr(p, '\n', (size_t)(end - p));
    if (!q || !read_config(p, q, version))
        bad_audit_line(2);
    start_bus(size);
    slot_of = calloc((size_t)limit + 1, 1);
    if (!slot_of)
        die("no memory");
    u64 number = 3, count = 0, wrong = UINT64_MAX;
    bool any_fd = false, fd;
    for (p = q + 1;; number++, count++) {
        if (LIKELY(wrong == UINT64_MAX && entries < limit)) {
            cursor c = {p, end};
            entry *e;
            if (LIKELY(take_event(&c, true, &fd, &e) >= 0)) {
                size_t n = (size_t)(put_entry(out, e) - out);
                if (LIKELY((size_t)(end - p) > n && memcmp(p, out, n) == 0 && p[n] == '\n' && (!fd || version == 3))) {
                    any_fd |= fd;
                    p += n + 1;
                    continue;
                }
            }
        }
        q = memchr(p, '\n', (size_t)(end - p));
        if (!q)
            bad_audit_line(number);
        if (q - p >= 4 && memcmp(p, "end ", 4) == 0)
            break;
        if (!strict_line(p, q, version, &fd))
            bad_audit_line(number);
        any_fd |= fd;
        if (wrong == UINT64_MAX)
            wrong = count;
        p = q + 1;
    }
    char last[32];
    int n = sprintf(last, "end %llu", (unsigned long long)count);
    if (q - p != n || memcmp(p, last, (size_t)n) != 0)
        bad_audit_line(number);
    if (q + 1 != end)
        bad_audit_line(number + 1);
    if (version == 3 && !any_fd)
        die("bad version");
    if (wrong != UINT64_MAX) {
        fprintf(stderr, "canbusd: entry %llu: wrong\n", (unsigned long long)wrong);
        return 1;
    }
    out_at = out + sprintf(out, "ok %llu entries\n", (unsigned long long)count);
    if (!flush_out())
        die("write fault");
    return 0;
}

/* ---------------------------------------------------------------- the command line */

static void usage(const char *what) {
    fprintf(stderr,
            "error: %s\nusage: limit bench [--ack always|peers] [--report] [--txqueue N]"
            " [--rxqueue N] [--limit N]\n             [--record FILE] [--auto-restart N] BUS\n"
            "       limit audit FILE\n",
            what);
    exit(2);
}

static u32 number_word(const char *p) {
    u64 v = 0;
    if (!*p)
        usage("a number is wanted");
    for (; *p; p++) {
        if (*p < '0' || *p > '9')
            usage("a number is wanted");
        v = v * 10 + (u64)(*p - '0');
        if (v > UINT32_MAX)
            usage("a number is too large");
    }
    return (u32)v;
}

static int run_bench(int n, char **words) {
    static const char *const known[] = {"--ack",    "--txqueue",      "--rxqueue", "--limit",
                                        "--record", "--auto-restart", "--report"};
    const char *value[7] = {0}, *bus = NULL;
    bool positional = false;
    for (int i = 0; i < n; i++) {
        const char *w = words[i];
        if (positional || w[0] != '-' || !w[1]) {
            if (bus)
                usage("one BUS is wanted");
            bus = w;
            continue;
        }
        if (strcmp(w, "--") == 0) {
            positional = true;
            continue;
        }
        const char *equals = strchr(w, '=');
        size_t len = equals ? (size_t)(equals - w) : strlen(w);
        int k;
        for (k = 0; k < 7; k++)
            if (strlen(known[k]) == len && memcmp(known[k], w, len) == 0)
                break;
        if (k == 7 || value[k])
            usage("unexpected argument");
        if (k == 6) {
            if (equals)
                usage("--report takes no value");
            value[k] = "";
        } else if (equals)
            value[k] = equals + 1;
        else if (i + 1 == n || (words[i + 1][0] == '-' && words[i + 1][1]))
            usage("a value is wanted");
        else
            value[k] = words[++i];
    }
    if (!bus)
        usage("one BUS is wanted");
    if (value[0] && strcmp(value[0], "always") != 0 && strcmp(value[0], "peers") != 0)
        usage("--ack: always or peers");
    config.peers = value[0] && value[0][0] == 'p';
    config.tx_capacity = value[1] ? number_word(value[1]) : 10;
    rx_capacity = value[2] ? number_word(value[2]) : 256;
    limit = value[3] ? number_word(value[3]) : 1000000;
    config.auto_restart = value[5] ? number_word(value[5]) : 0;
    const char *at = strchr(bus, '@');
    config.ifaces = read_names(bus, at ? (size_t)(at - bus) : strlen(bus));
    config.reporting = value[6] ? (1u << config.ifaces) - 1 : 0;
    if (at)
        read_script(at + 1);
    if (config.tx_capacity < 1 || config.tx_capacity > MAX_TX || rx_capacity < 1 || rx_capacity > MAX_RX || limit < 1 ||
        limit > MAX_EVENTS || config.auto_restart > MAX_RESTART)
        die("bad bus");
    start_bus(MAX_INPUT);
    now = moment_place(0);
    const char *fault = bench();
    if (!flush_out())
        die("write fault");
    if (fault) {
        if (bad_line) {
            fprintf(stderr, "canbusd: line %u: bad line\n", bad_line);
            return 1;
        }
        die(fault);
    }
    if (value[4])
        write_record(value[4]);
    return 0;
}

int main(int argc, char **argv) {
    make_tables();
    if (argc >= 2 && strcmp(argv[1], "bench") == 0)
        return run_bench(argc - 2, argv + 2);
    if (argc >= 2 && strcmp(argv[1], "audit") == 0) {
        if (argc == 4 && strcmp(argv[2], "--") == 0)
            return audit(argv[3]);
        if (argc != 3 || argv[2][0] == '-')
            usage("one FILE is wanted");
        return audit(argv[2]);
    }
    usage("bench or audit is wanted");
}
