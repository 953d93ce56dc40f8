/* The speed limit that `canbusd serve` is measured against: a plain, single-threaded
 * server of socketcand's raw mode, with epoll.
 *
 * The server has one bus without faults, with mode always and pace 0.  Each iteration of its
 * loop reads the input from every session, runs the bus until no frame is waiting, and then
 * writes to every session all of its queued output, in one call.  A receive queue consists of
 * unwritten output and a count.  It grows only while the session's socket is full.
 *
 * Commands: echo, open, rawmode, send, filter, recvown, loopback, stats, close.  All other
 * commands are unknown.
 *
 * If the server is built with -DWRONG, `--wrong KIND` makes it do one thing wrong now and
 * then, so that tests can check whether a client notices.
 */
#define _GNU_SOURCE
#include <arpa/inet.h>
#include <errno.h>
#include <netinet/in.h>
#include <netinet/tcp.h>
#include <signal.h>
#include <stdbool.h>
#include <stdint.h>
#include <stdio.h>
#include <stdlib.h>
#include <string.h>
#include <sys/epoll.h>
#include <sys/socket.h>
#include <sys/un.h>
#include <time.h>
#include <unistd.h>

typedef uint8_t u8;
typedef uint32_t u32;
typedef unsigned long long u64;

#define LIKELY(x) __builtin_expect(!!(x), 1)
#define UNLIKELY(x) __builtin_expect(!!(x), 0)

enum {
    MAX_IFACES = 16,
    MAX_SESSIONS = 64,
    MAX_TX = 1024,
    MAX_RX = 65536,
    MAX_INSIDE = 1024,
    MAX_FILTERS = 512,
    BLOCK = 65536,
    ITEM = 64,
    LISTENER = MAX_SESSIONS
};

#define EXT_BIT 0x80000000u
#define ERR_BIT 0x20000000u

static void die(const char *text) {
    fprintf(stderr, "serve_limit: %s\n", text);
    exit(1);
}

/* ---------------------------------------------------------------- deliberate faults */

enum wrong { RIGHT, OWNED, DROP, SWAP, DOUBLE, DATA, REFUSE, FORGET, COUNT, MUTE, WRONGS };

#ifdef WRONG
enum { CAN_BE_WRONG = 1 };
static const char *const wrong_text[WRONGS] = {"right", "owned",  "drop",   "swap",  "double",
                                               "data",  "refuse", "forget", "count", "mute"};
static u32 wrong, wrong_turns, wrong_every = 1000;

static bool turn(u32 kind) /* true every 1000th time */
{
    return wrong == kind && ++wrong_turns % wrong_every == 0;
}
#else
enum { CAN_BE_WRONG = 0 };

static inline bool turn(u32 kind) {
    (void)kind;
    return false;
}
#endif

/* ---------------------------------------------------------------- state */

enum mode { NOT_USED, NO_BUS, OPENED, RAW, ENDED, GONE };

typedef struct {          /* a frame that waits to be sent */
    u32 key, word, owner; /* owner: the number of the sending socket */
    u8 len, loopback, data[8];
} frame;

typedef struct {
    frame *ring;
    u32 head, len;
    u64 sent, done, refused;
} iface_t;

typedef struct {
    int fd;
    u8 mode, iface;
    bool inside, recv_own, loopback, all, blocked;
    u32 number, filters;
    u32 (*filter)[2];
    char *text; /* from..cut is being written; cut..to is not taken yet */
    size_t from, cut, to, size;
    u32 waiting; /* how many frames cut..to has */
    u64 taken, dropped;
    u32 kept_len, held_len, held_word;
    char kept[MAX_INSIDE + 16], held[ITEM];
} session_t;

static char name[MAX_IFACES][16];
static u32 name_len[MAX_IFACES], ifaces;
static iface_t iface[MAX_IFACES];
static u64 heads[MAX_IFACES]; /* key << 4 | interface */
static u32 with_head;         /* the interfaces whose queue has a head */
static u32 tx_capacity = 10, rx_capacity = 256, tx_mask;
static session_t session[MAX_SESSIONS];
static session_t *raw[MAX_SESSIONS];
static u32 raws, sockets_ever;
static u32 limit = 4000, accepted, ended;
static bool echo_only;
static int epoll_fd, listen_fd;
static char block[BLOCK + 64];
static char hex_pair[256][2], dec_pair[100][2];
static u8 hex_value[256]; /* 255: not a digit */

static void make_tables(void) {
    static const char digits[] = "0123456789ABCDEF";
    memset(hex_value, 255, sizeof hex_value);
    for (int i = 0; i < 256; i++) {
        hex_pair[i][0] = digits[i >> 4];
        hex_pair[i][1] = digits[i & 15];
    }
    for (int i = 0; i < 100; i++) {
        dec_pair[i][0] = digits[i / 10];
        dec_pair[i][1] = digits[i % 10];
    }
    for (int i = 0; i < 10; i++)
        hex_value['0' + i] = (u8)i;
    for (int i = 10; i < 16; i++)
        hex_value['A' + i - 10] = hex_value['a' + i - 10] = (u8)i;
}

/* ---------------------------------------------------------------- output to a session */

static void watch(const session_t *s, int op) {
    struct epoll_event e = {.events = s->blocked ? EPOLLOUT : EPOLLIN};
    e.data.u32 = (u32)(s - session);
    epoll_ctl(epoll_fd, op, s->fd, &e);
}

/* Returns a pointer to free space for n more bytes after the queued output. Enlarges the buffer if necessary. */
static char *place(session_t *s, size_t n) {
    if (UNLIKELY(s->size - s->to < n)) {
        if (s->from > s->size / 2) {
            memmove(s->text, s->text + s->from, s->to - s->from);
            s->cut -= s->from;
            s->to -= s->from;
            s->from = 0;
        }
        if (s->size - s->to < n) {
            s->size = 2 * s->size + n + 16384;
            s->text = realloc(s->text, s->size);
            if (!s->text)
                die("no memory");
        }
    }
    return s->text + s->to;
}

static void answer(session_t *s, const char *text) {
    size_t n = strlen(text);
    if (n) {
        memcpy(place(s, n), text, n);
        s->to += n;
    }
}

/* Writes as much of the queued output as the socket accepts. */
static void flush(session_t *s) {
    while (s->mode != GONE) {
        if (s->from == s->cut) {
            s->taken += s->waiting;
            s->waiting = 0;
            s->cut = s->to;
            if (s->from == s->to) {
                s->from = s->cut = s->to = 0;
                if (s->blocked) {
                    s->blocked = false;
                    watch(s, EPOLL_CTL_MOD);
                }
                return;
            }
        }
        ssize_t n = write(s->fd, s->text + s->from, s->cut - s->from);
        if (n >= 0)
            s->from += (size_t)n;
        else if (errno == EAGAIN) {
            if (!s->blocked) {
                s->blocked = true;
                watch(s, EPOLL_CTL_MOD);
            }
            return;
        } else if (errno != EINTR)
            s->mode = GONE;
    }
}

/* ---------------------------------------------------------------- the bus */

/* The frame with the lower key wins arbitration. */
static inline u32 arbitration_key(u32 word) {
    if (!(word & EXT_BIT))
        return (word & 0x7FF) << 21;
    return (word & 0x1FFC0000) << 3 | 3u << 19 | (word & 0x3FFFF) << 1;
}

static bool passes(const session_t *s, u32 word) {
    for (u32 i = 0; i < s->filters; i++) {
        u32 id = s->filter[i][0], mask = s->filter[i][1];
        if (((word & mask) == (id & mask)) != !!(id & ERR_BIT))
            return true;
    }
    return false;
}

static inline char *put_id(char *o, u32 word) {
    if (word & EXT_BIT) {
        for (int shift = 24; shift >= 0; shift -= 8, o += 2)
            memcpy(o, hex_pair[(word & 0x1FFFFFFF) >> shift & 255], 2);
        return o;
    }
    *o = hex_pair[word >> 8 & 15][1];
    memcpy(o + 1, hex_pair[word & 255], 2);
    return o + 3;
}

static inline char *put_moment(char *o) {
    static time_t second = -1;
    static char text[24];
    static u32 len;
    struct timespec t;
    clock_gettime(CLOCK_REALTIME, &t);
    if (UNLIKELY(t.tv_sec != second)) {
        second = t.tv_sec;
        len = (u32)snprintf(text, sizeof text, "%lld.", (long long)second);
    }
    u32 micros = (u32)t.tv_nsec / 1000;
    memcpy(o, text, 16);
    o += len;
    memcpy(o, dec_pair[micros / 10000], 2);
    memcpy(o + 2, dec_pair[micros / 100 % 100], 2);
    memcpy(o + 4, dec_pair[micros % 100], 2);
    return o + 6;
}

static inline void queue_text(session_t *s, const char *text, u32 len) {
    if (UNLIKELY(s->waiting >= rx_capacity)) {
        if (!s->blocked)
            flush(s);
        if (s->waiting >= rx_capacity) {
            s->dropped++;
            return;
        }
    }
    memcpy(place(s, ITEM), text, ITEM);
    s->to += len;
    s->waiting++;
}

static void wrong_post(session_t *s, char *text, u32 len, u32 word) {
    if (turn(DROP))
        return;
    if (turn(OWNED)) {
        s->dropped++;
        return;
    }
    if (turn(SWAP) && !s->held_len) {
        memcpy(s->held, text, ITEM);
        s->held_len = len;
        s->held_word = word;
        return;
    }
    char last = text[len - 3];
    if (turn(DATA))
        text[len - 3] = last == '0' ? '1' : '0';
    queue_text(s, text, len);
    text[len - 3] = last;
    if (turn(DOUBLE))
        queue_text(s, text, len);
    if (s->held_len && s->held_word == word) {
        queue_text(s, s->held, s->held_len);
        s->held_len = 0;
    }
}

/* Runs attempts until no frame is waiting. */
static void run_bus(void) {
    while (with_head) {
        u64 best = UINT64_MAX;
        for (u32 set = with_head; set; set &= set - 1) {
            u64 key = heads[__builtin_ctz(set)];
            best = key < best ? key : best;
        }
        u32 w = (u32)best & 15;
        iface_t *f = iface + w;
        const frame *sent = f->ring + (f->head & tx_mask);
        char text[ITEM] = "< frame ", *o = put_id(text + 8, sent->word);
        *o++ = ' ';
        o = put_moment(o);
        *o++ = ' ';
        for (u32 i = 0; i < sent->len; i++, o += 2)
            memcpy(o, hex_pair[sent->data[i]], 2);
        *o++ = ' ';
        *o++ = '>';
        for (u32 k = 0; k < raws; k++) {
            session_t *s = raw[k];
            if (s->iface == w && (!sent->loopback || (s->number == sent->owner && !s->recv_own)))
                continue;
            if (UNLIKELY(!s->all) && !passes(s, sent->word))
                continue;
            if (CAN_BE_WRONG)
                wrong_post(s, text, (u32)(o - text), sent->word);
            else
                queue_text(s, text, (u32)(o - text));
        }
        f->done++;
        f->head++;
        if (--f->len)
            heads[w] = (u64)f->ring[f->head & tx_mask].key << 4 | w;
        else
            with_head &= ~(1u << w);
    }
}

static inline void send_frame(session_t *s, u32 word, u32 len, u64 data) {
    iface_t *f = iface + s->iface;
    if (UNLIKELY(f->len == tx_capacity)) {
        f->refused++;
        answer(s, "< error no buffers >");
        return;
    }
    f->sent++;
    if (turn(FORGET))
        return;
    if (turn(REFUSE)) {
        f->refused++;
        answer(s, "< error no buffers >");
    }
    frame *at = f->ring + ((f->head + f->len) & tx_mask);
    at->key = arbitration_key(word);
    at->word = word;
    at->owner = s->number;
    at->len = (u8)len;
    at->loopback = s->loopback;
    memcpy(at->data, &data, 8); /* little-endian */
    if (f->len++ == 0) {
        heads[s->iface] = (u64)at->key << 4 | s->iface;
        with_head |= 1u << s->iface;
    }
}

static void leave_bus(session_t *s) {
    for (u32 i = 0; i < raws; i++)
        if (raw[i] == s)
            raw[i--] = raw[--raws];
}

/* ---------------------------------------------------------------- messages */

typedef struct {
    const char *p;
    u32 n;
} word_t;

static bool is_word(word_t w, const char *text) {
    return strlen(text) == w.n && memcmp(w.p, text, w.n) == 0;
}

static bool read_hex(word_t w, u32 most, u32 *value) {
    u32 v = 0;
    if (w.n > most)
        return false;
    for (u32 i = 0; i < w.n; i++) {
        u32 d = hex_value[(u8)w.p[i]];
        if (d > 15)
            return false;
        v = v << 4 | d;
    }
    *value = v;
    return true;
}

static bool read_id(word_t w, u32 *word) {
    if (!read_hex(w, 8, word))
        return false;
    if (w.n == 8) {
        *word |= EXT_BIT;
        return (*word & 0x7FFFFFFF) <= 0x1FFFFFFF;
    }
    return w.n >= 1 && w.n <= 3 && *word <= 0x7FF;
}

static const char *send_words(session_t *s, const word_t *w, u32 n) {
    u32 word, byte;
    u64 data = 0;
    if (n < 3)
        return "< error bad word count >";
    if (!read_id(w[1], &word))
        return "< error bad id >";
    if (w[2].n != 1 || w[2].p[0] < '0' || w[2].p[0] > '8')
        return "< error bad length >";
    u32 len = (u32)(w[2].p[0] - '0');
    if (n - 3 != len)
        return "< error bad word count >";
    for (u32 i = 0; i < len; i++) {
        if (!read_hex(w[3 + i], 2, &byte))
            return "< error bad byte >";
        data |= (u64)byte << (8 * i);
    }
    send_frame(s, word, len, data);
    return "";
}

static const char *filter_words(session_t *s, const word_t *w, u32 n) {
    static u32 list[MAX_FILTERS][2];
    u32 count = 0;
    if (n < 2)
        return "< error bad word count >";
    if (w[1].n > 3)
        return "< error bad number >";
    for (u32 i = 0; i < w[1].n; i++) {
        if (w[1].p[i] < '0' || w[1].p[i] > '9')
            return "< error bad number >";
        count = count * 10 + (u32)(w[1].p[i] - '0');
    }
    if (count > MAX_FILTERS)
        return "< error too many filters >";
    if (n - 2 != 2 * count)
        return "< error bad word count >";
    for (u32 i = 0; i < count; i++) {
        if (!read_hex(w[2 + 2 * i], 8, &list[i][0]) || !read_hex(w[3 + 2 * i], 8, &list[i][1]))
            return "< error bad number >";
        if (list[i][1] & ERR_BIT)
            return "< error invalid filter >";
    }
    if (!s->filter && !(s->filter = malloc(sizeof list)))
        die("no memory");
    memcpy(s->filter, list, count * sizeof *list);
    s->filters = count;
    s->all = count == 1 && list[0][1] == 0 && !(list[0][0] & ERR_BIT);
    return "< ok >";
}

static const char *stats_words(session_t *s) {
    static char text[256];
    flush(s);
    const iface_t *f = iface + s->iface;
    u64 dropped = s->dropped + (CAN_BE_WRONG && f->done && turn(COUNT));
    snprintf(text, sizeof text, "< stats %llu %llu %llu %llu %llu %u 0 %llu >", s->taken + s->waiting, dropped,
             s->taken, f->sent, f->done, f->len, f->refused);
    return text;
}

static const char *close_words(session_t *s) {
    static char text[64];
    flush(s);
    leave_bus(s);
    snprintf(text, sizeof text, "< closed %u %llu >", s->waiting, s->dropped);
    s->to = s->cut;
    s->waiting = 0;
    s->mode = ENDED;
    return text;
}

enum { IN_NO_BUS = 1 << NO_BUS, IN_OPENED = 1 << OPENED, IN_RAW = 1 << RAW };

/* Handles one whole message, and returns the answer as a string. */
static const char *message(session_t *s, const char *p, const char *end) {
    static const struct {
        char text[10];
        u8 modes, words;
    } commands[] = {{"send", IN_RAW, 0},    {"filter", IN_RAW, 0},   {"open", IN_NO_BUS, 2},
                    {"recvown", IN_RAW, 2}, {"loopback", IN_RAW, 2}, {"rawmode", IN_OPENED | IN_RAW, 1},
                    {"stats", IN_RAW, 1},   {"close", IN_RAW, 1},    {"echo", IN_NO_BUS | IN_OPENED | IN_RAW, 1}};
    enum { SEND, FILTER, OPEN, RECVOWN, LOOPBACK, RAWMODE, STATS, CLOSE, ECHO, COMMANDS };
    word_t w[MAX_INSIDE / 2 + 1];
    u32 n = 0, c;
    for (;;) {
        while (p < end && (*p == ' ' || *p == '\t' || *p == '\r' || *p == '\n'))
            p++;
        if (p == end)
            break;
        const char *start = p;
        while (p < end && !(*p == ' ' || *p == '\t' || *p == '\r' || *p == '\n'))
            p++;
        w[n++] = (word_t){start, (u32)(p - start)};
    }
    if (n == 0)
        return "< error empty message >";
    for (c = 0; c < COMMANDS; c++)
        if (is_word(w[0], commands[c].text))
            break;
    if (c == COMMANDS)
        return "< error unknown command >";
    if (!(commands[c].modes >> s->mode & 1))
        return "< error wrong state >";
    if (commands[c].words && commands[c].words != n)
        return "< error bad word count >";
    switch (c) {
    case SEND: return send_words(s, w, n);
    case FILTER: return filter_words(s, w, n);
    case OPEN:
        for (u32 i = 0; i < ifaces; i++)
            if (name_len[i] == w[1].n && memcmp(name[i], w[1].p, w[1].n) == 0) {
                s->iface = (u8)i;
                s->mode = OPENED;
                return "< ok >";
            }
        return "< error no such interface >";
    case RECVOWN:
    case LOOPBACK:
        if (!is_word(w[1], "0") && !is_word(w[1], "1"))
            return "< error bad number >";
        if (c == RECVOWN)
            s->recv_own = w[1].p[0] == '1';
        else
            s->loopback = w[1].p[0] == '1';
        return "< ok >";
    case RAWMODE:
        if (s->mode == OPENED) {
            s->mode = RAW;
            s->number = sockets_ever++;
            s->all = s->loopback = true;
            raw[raws++] = s;
        }
        return "< ok >";
    case STATS: return stats_words(s);
    case CLOSE: return close_words(s);
    }
    return "< echo >";
}

/* Handles a `send` in its simplest form, from the byte after `<`.  Returns a pointer to the byte after `>`, or NULL for
 * any other form. The string must end with a byte that is not a digit, a space or `>`. */
static inline const char *plain_send(session_t *s, const char *p) {
    if (memcmp(p, " send ", 6) != 0)
        return NULL;
    p += 6;
    const char *start = p;
    u32 word = 0, d;
    while ((d = hex_value[(u8)*p]) < 16) {
        word = word << 4 | d;
        p++;
    }
    u32 digits = (u32)(p - start);
    if (digits == 8) {
        word &= 0x7FFFFFFF;
        if (word > 0x1FFFFFFF)
            return NULL;
        word |= EXT_BIT;
    } else if (digits - 1 > 2 || word > 0x7FF)
        return NULL;
    u32 len = (u32)((u8)p[1] - '0');
    if (*p != ' ' || len > 8)
        return NULL;
    p += 2;
    u64 data = 0;
    for (u32 i = 0; i < len; i++) {
        if (*p != ' ' || (d = hex_value[(u8)p[1]]) > 15)
            return NULL;
        u32 low = hex_value[(u8)p[2]];
        p += 2;
        if (low < 16) {
            d = d << 4 | low;
            p++;
        }
        data |= (u64)d << (8 * i);
    }
    if (*p == ' ')
        p++;
    if (*p != '>')
        return NULL;
    send_frame(s, word, len, data);
    return p + 1;
}

/* Handles input from a session. The byte at `end` is LF. If the message was kept from earlier input, the byte after it
   is LF too. */
static void feed(session_t *s, const char *p, const char *end) {
    while (s->mode != ENDED && s->mode != GONE) {
        if (!s->inside) {
            while (p < end && *p != '<')
                p++;
            if (p == end)
                return;
            p++;
            if (LIKELY(s->mode == RAW && end - p > 6)) {
                const char *q = plain_send(s, p);
                if (LIKELY(q != NULL)) {
                    p = q;
                    continue;
                }
            }
            s->inside = true;
            s->kept_len = 0;
        }
        const char *q = p;
        while (q < end && *q != '<' && *q != '>')
            q++;
        u32 room = MAX_INSIDE - s->kept_len;
        if (UNLIKELY(q - p > room)) {
            answer(s, "< error message too long >");
            s->inside = false;
            p += room + 1;
            continue;
        }
        memcpy(s->kept + s->kept_len, p, (size_t)(q - p));
        s->kept_len += (u32)(q - p);
        if (q == end)
            return;
        s->inside = false;
        p = q + (*q == '>');
        if (*q == '>') {
            memcpy(s->kept + s->kept_len, ">\n", 2);
            if (s->mode != RAW || s->kept_len < 8 || !plain_send(s, s->kept))
                answer(s, message(s, s->kept, s->kept + s->kept_len));
        }
    }
}

/* ---------------------------------------------------------------- sessions */

static void readable(session_t *s) {
    ssize_t n = read(s->fd, block, BLOCK);
    if (n < 0 && (errno == EAGAIN || errno == EINTR))
        return;
    if (n <= 0)
        s->mode = GONE;
    else if (echo_only) {
        memcpy(place(s, (size_t)n), block, (size_t)n);
        s->to += (size_t)n;
    } else if (!turn(MUTE)) {
        block[n] = '\n';
        feed(s, block, block + n);
    }
}

static void end_session(session_t *s) {
    leave_bus(s);
    close(s->fd);
    free(s->filter);
    s->filter = NULL;
    s->mode = NOT_USED;
    ended++;
}

static void accept_all(void) {
    while (accepted < limit) {
        int fd = accept4(listen_fd, NULL, NULL, SOCK_NONBLOCK | SOCK_CLOEXEC);
        if (fd < 0) {
            if (errno == ECONNABORTED || errno == EINTR)
                continue;
            return;
        }
        accepted++;
        int one = 1;
        setsockopt(fd, IPPROTO_TCP, TCP_NODELAY, &one, sizeof one); /* this fails on a Unix socket */
        session_t *s = session;
        while (s < session + MAX_SESSIONS && s->mode != NOT_USED)
            s++;
        if (s == session + MAX_SESSIONS) {
            if (write(fd, "< error too many sessions >", 27) < 0)
                errno = 0;
            close(fd);
            ended++;
            continue;
        }
        char *text = s->text;
        size_t size = s->size;
        memset(s, 0, sizeof *s);
        s->text = text;
        s->size = size;
        s->fd = fd;
        s->mode = NO_BUS;
        watch(s, EPOLL_CTL_ADD);
        if (!echo_only)
            answer(s, "< hi >");
    }
    close(listen_fd);
    listen_fd = -1;
}

static void serve(void) {
    struct epoll_event events[MAX_SESSIONS + 1], l = {.events = EPOLLIN};
    l.data.u32 = LISTENER;
    if (epoll_ctl(epoll_fd, EPOLL_CTL_ADD, listen_fd, &l) < 0)
        die("epoll fault");
    while (ended < limit) {
        int n = epoll_wait(epoll_fd, events, MAX_SESSIONS + 1, -1);
        for (int i = 0; i < n; i++) {
            if (events[i].data.u32 == LISTENER) {
                accept_all();
                continue;
            }
            session_t *s = session + events[i].data.u32;
            if (s->blocked)
                flush(s);
            if (!s->blocked && s->mode < ENDED)
                readable(s);
        }
        run_bus();
        for (session_t *s = session; s < session + MAX_SESSIONS; s++) {
            if (s->to > s->from && !s->blocked && s->mode != NOT_USED)
                flush(s);
            if (s->mode == GONE || (s->mode == ENDED && s->to == s->from))
                end_session(s);
        }
    }
}

/* ---------------------------------------------------------------- the command line */

static void usage(const char *what) {
    fprintf(stderr,
            "error: %s\nusage: serve_limit [--port P | --unix PATH] [--sessions N]"
            " [--txqueue N] [--rxqueue N]\n                   [--echo] [NAME,NAME..]\n",
            what);
    exit(2);
}

static u32 number_word(const char *p, u32 least, u32 most) {
    u64 v = 0;
    if (!p || !*p)
        usage("a number is wanted");
    for (; *p; p++) {
        if (*p < '0' || *p > '9' || (v = v * 10 + (u64)(*p - '0')) > most)
            usage("a number is wrong or too large");
    }
    if (v < least)
        usage("a number is too small");
    return (u32)v;
}

static void read_names(const char *p) {
    for (;; p++) {
        size_t n = strcspn(p, ",");
        if (n < 1 || n > 15 || ifaces == MAX_IFACES)
            usage("1 to 16 names of 1 to 15 bytes are wanted");
        memcpy(name[ifaces], p, n);
        name_len[ifaces++] = (u32)n;
        p += n;
        if (!*p)
            return;
    }
}

static void listen_at(const char *path, u32 port) {
    int one = 1;
    listen_fd = socket(path ? AF_UNIX : AF_INET, SOCK_STREAM | SOCK_NONBLOCK | SOCK_CLOEXEC, 0);
    if (path) {
        struct sockaddr_un a = {.sun_family = AF_UNIX};
        if (strlen(path) >= sizeof a.sun_path)
            usage("PATH is too long");
        strcpy(a.sun_path, path);
        if (bind(listen_fd, (struct sockaddr *)&a, sizeof a) < 0 || listen(listen_fd, 128) < 0)
            die("cannot listen");
        printf("listening %s\n", path);
    } else {
        struct sockaddr_in a = {.sin_family = AF_INET, .sin_port = htons((uint16_t)port)};
        socklen_t n = sizeof a;
        a.sin_addr.s_addr = htonl(INADDR_LOOPBACK);
        setsockopt(listen_fd, SOL_SOCKET, SO_REUSEADDR, &one, sizeof one);
        if (bind(listen_fd, (struct sockaddr *)&a, sizeof a) < 0 || listen(listen_fd, 128) < 0 ||
            getsockname(listen_fd, (struct sockaddr *)&a, &n) < 0)
            die("cannot listen");
        printf("listening 127.0.0.1:%u\n", ntohs(a.sin_port));
    }
    fflush(stdout);
}

int main(int argc, char **argv) {
    const char *path = NULL, *names = NULL;
    u32 port = 0;
    for (int i = 1; i < argc; i++) {
        const char *w = argv[i];
        if (strcmp(w, "--port") == 0)
            port = number_word(argv[++i], 0, 65535);
        else if (strcmp(w, "--unix") == 0 && i + 1 < argc)
            path = argv[++i];
        else if (strcmp(w, "--sessions") == 0)
            limit = number_word(argv[++i], 1, 4000);
        else if (strcmp(w, "--txqueue") == 0)
            tx_capacity = number_word(argv[++i], 1, MAX_TX);
        else if (strcmp(w, "--rxqueue") == 0)
            rx_capacity = number_word(argv[++i], 1, MAX_RX);
        else if (strcmp(w, "--echo") == 0)
            echo_only = true;
#ifdef WRONG
        else if (strcmp(w, "--wrong") == 0 && i + 1 < argc) {
            i++;
            for (wrong = 0; wrong < WRONGS && strcmp(argv[i], wrong_text[wrong]) != 0; wrong++)
                ;
            if (wrong == WRONGS)
                usage("an unknown KIND");
        } else if (strcmp(w, "--every") == 0)
            wrong_every = number_word(argv[++i], 1, 1000000000);
#endif
        else if (w[0] == '-' || names)
            usage("unexpected argument");
        else
            names = w;
    }
    make_tables();
    read_names(names ? names : "can0,can1");
    u32 ring = 1;
    while (ring < tx_capacity)
        ring *= 2;
    tx_mask = ring - 1;
    for (u32 i = 0; i < ifaces; i++)
        if (!(iface[i].ring = malloc(ring * sizeof(frame))))
            die("no memory");
    signal(SIGPIPE, SIG_IGN);
    epoll_fd = epoll_create1(EPOLL_CLOEXEC);
    if (epoll_fd < 0)
        die("epoll fault");
    listen_at(path, port);
    serve();
    if (path)
        unlink(path);
    return 0;
}
