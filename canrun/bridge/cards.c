/* The interfaces of a keeper: the properties that the server reports for each interface, and the counts that the keeper
 * derives from error message frames. */
#define _GNU_SOURCE
#include "cards.h"

#include "../shared/address.h"
#include "bridge.h"

#include <errno.h>
#include <linux/can/error.h>
#include <linux/can/netlink.h>
#include <poll.h>
#include <stdio.h>
#include <stdlib.h>
#include <string.h>
#include <sys/socket.h>
#include <unistd.h>

static struct card *cards[INTERFACE_MOST];

static void lose(struct card *card) {
    close(card->fd);
    card->fd = -1;
}

/* ---- messages from the server ---- */

static uint32_t state_of(const char *word) {
    static const char *const words[] = {"active", "warning", "passive", "off", "down"};
    for (uint32_t i = 0; i < sizeof words / sizeof *words; i++) {
        if (!strcmp(word, words[i])) {
            return CAN_STATE_ERROR_ACTIVE + i;
        }
    }
    return CAN_STATE_STOPPED;
}

static void set_state(struct card *card, uint32_t state) {
    bool had_carrier = link_has_carrier(&card->facts);
    card->facts.state = state;
    card->has_news |= link_has_carrier(&card->facts) != had_carrier;
    card->was_down |= state == CAN_STATE_STOPPED;
    if (state != CAN_STATE_BUS_OFF) {
        card->restart_at = NEVER;
    } else if (card->facts.restart_ms && card->restart_at == NEVER) {
        card->restart_at = clock_now() + card->facts.restart_ms * (SECOND / 1000);
    }
}

/* Returns the state that an error message frame reports, as defined in linux/can/error.h. */
static uint32_t state_said(const struct canfd_frame *frame) {
    const uint8_t passive = CAN_ERR_CRTL_RX_PASSIVE | CAN_ERR_CRTL_TX_PASSIVE;
    const uint8_t warning = CAN_ERR_CRTL_RX_WARNING | CAN_ERR_CRTL_TX_WARNING;
    return frame->can_id & CAN_ERR_BUSOFF      ? CAN_STATE_BUS_OFF
           : frame->can_id & CAN_ERR_RESTARTED ? CAN_STATE_ERROR_ACTIVE
           : frame->data[1] & passive          ? CAN_STATE_ERROR_PASSIVE
           : frame->data[1] & warning          ? CAN_STATE_ERROR_WARNING
                                               : CAN_STATE_ERROR_ACTIVE;
}

/* Counts an error as CAN drivers do, and sets the state. As in can_change_state in the kernel, a new state is counted
 * only if it is worse. */
static void count(struct card *card, const struct canfd_frame *frame) {
    struct link_facts *facts = &card->facts;
    facts->bus_errors += (frame->can_id & CAN_ERR_BUSERROR) != 0;
    facts->lost_arbitrations += (frame->can_id & CAN_ERR_LOSTARB) != 0;
    if (frame->can_id & CAN_ERR_RESTARTED) {
        facts->restarts += !card->was_down; /* Setting an interface up does not count as a restart. */
        card->was_down = false;
    }
    if (frame->can_id & (CAN_ERR_BUSOFF | CAN_ERR_RESTARTED | CAN_ERR_CRTL)) {
        uint32_t state = state_said(frame);
        bool is_worse = state > card->said;
        card->said = state;
        facts->warnings += is_worse && state == CAN_STATE_ERROR_WARNING;
        facts->passives += is_worse && state == CAN_STATE_ERROR_PASSIVE;
        facts->offs += is_worse && state == CAN_STATE_BUS_OFF;
        set_state(card, state);
    }
}

static void handle(struct card *card, const char *text) {
    struct link_facts *facts = &card->facts;
    struct item item;
    char word[16];
    unsigned long queued, done, lost, refusals;
    unsigned tec, rec;
    if (message_to_item(text, &item)) {
        card->items++;
        count(card, &item.frame);
    } else if (sscanf(text, "status %15s %u %u", word, &tec, &rec) == 3) {
        facts->tec = (uint16_t)tec;
        facts->rec = (uint16_t)rec;
        set_state(card, state_of(word));
    } else if (sscanf(text, "stats %lu %*u %*u %*u %lu %*u %lu %lu", &queued, &done, &lost, &refusals) == 4) {
        card->queued = queued;
        facts->done = done;
        facts->lost = lost;
        facts->refused = refusals;
    } else if (!strcmp(text, "echo")) {
        card->is_answered = true;
    } else if (!strncmp(text, "error ", 6)) {
        snprintf(card->refusal, sizeof card->refusal, "%s", text + 6);
    } else {
        sscanf(text, "load %*u %*u %u %u", &facts->bitrate, &facts->data_bitrate);
    }
}

/* Handles the complete messages in the input buffer. An incomplete message stays there. */
static void handle_input(struct card *card) {
    char *at = card->input, *end = at + card->have, *last;
    while ((last = memchr(at, '>', (size_t)(end - at)))) {
        char *first = memrchr(at, '<', (size_t)(last - at));
        at = last + 1;
        if (first) {
            first += 1 + strspn(first + 1, " ");
            for (; last > first && last[-1] == ' '; last--) {
            }
            *last = 0;
            handle(card, first);
        }
    }
    card->have = (size_t)(end - at);
    memmove(card->input, at, card->have);
    card->have = card->have < sizeof card->input ? card->have : 0;
}

void card_read(struct card *card) {
    ssize_t length = recv(card->fd, card->input + card->have, sizeof card->input - card->have, MSG_DONTWAIT);
    if (length > 0) {
        card->have += (size_t)length;
        handle_input(card);
    } else if (length == 0 || (errno != EAGAIN && errno != EINTR)) {
        lose(card);
    }
}

/* Returns whether the reply and all items that were queued before it have arrived. A reply from the server may overtake
 * items that were queued earlier. */
static bool is_whole(const struct card *card) {
    return card->is_answered && card->items >= card->queued;
}

bool card_ask(struct card *card, const char *commands) {
    char text[256];
    int length = snprintf(text, sizeof text, "%s< status >< stats >< load >< echo >", commands);
    uint64_t until = clock_now() + PATIENCE * SECOND;
    card->is_answered = false;
    card->refusal[0] = 0;
    if (card->fd >= 0 && send(card->fd, text, (size_t)length, MSG_DONTWAIT | MSG_NOSIGNAL) != length) {
        lose(card);
    }
    while (card->fd >= 0 && !is_whole(card)) {
        uint64_t now = clock_now();
        struct timespec left = {0, 0};
        struct pollfd polled = {card->fd, POLLIN, 0};
        left.tv_sec = now < until ? (time_t)((until - now) / SECOND) : 0;
        left.tv_nsec = now < until ? (long)((until - now) % SECOND) : 0;
        if (ppoll(&polled, 1, &left, NULL) == 0) {
            return false;
        }
        card_read(card);
    }
    return is_whole(card);
}

/* ---- the card's session ---- */

static struct card *refuse(struct link_reply *why, int error, const char *text) {
    why->error = error;
    snprintf(why->text, sizeof why->text, "%s", text);
    return NULL;
}

/* Returns whether errors occurred before this session began. The keeper could not count those errors. */
static bool had_errors(const struct link_facts *facts) {
    bool is_fresh = facts->state == CAN_STATE_ERROR_ACTIVE || facts->state == CAN_STATE_STOPPED;
    return !is_fresh || facts->tec || facts->rec || facts->lost;
}

static struct card *open_card(const char *name, struct link_reply *why) {
    struct address address;
    const char *where = getenv("CANBUSD_ADDRESS");
    struct card *card = calloc(1, sizeof *card);
    char text[160];
    if (!card || !address_read(where && *where ? where : ADDRESS_DEFAULT, &address) ||
        (card->fd = address_connect(&address)) < 0) {
        free(card);
        return refuse(why, ENODEV, "there is no server at CANBUSD_ADDRESS");
    }
    card->restart_at = NEVER;
    snprintf(text, sizeof text, "< open %s >< rawmode >< filter 0 >< errdata 1 >< errmask %X >", name, CAN_ERR_MASK);
    if (!card_ask(card, text) || *card->refusal) {
        bool is_full = !strcmp(card->refusal, "too many sessions");
        snprintf(text, sizeof text, "the server says: %s", *card->refusal ? card->refusal : "nothing");
        if (card->fd >= 0) {
            close(card->fd);
        }
        free(card);
        return refuse(why, is_full ? EUSERS : ENODEV, text);
    }
    card->said = card->facts.state;
    card->facts.is_known = true;
    card->facts.has_counts = !had_errors(&card->facts);
    card->has_news = false;
    return card;
}

struct card *card_of(int index, bool opens, struct link_reply *why) {
    char name[IFNAMSIZ];
    if (!interface_name(index, name)) {
        return refuse(why, ENODEV, "no interface of the server has this index");
    }
    struct card **place = &cards[index - INTERFACE_FIRST];
    if (!*place && opens) {
        *place = open_card(name, why);
    }
    return *place;
}

/* ---- changes ---- */

void card_set_restart(struct card *card, uint32_t milliseconds) {
    card->facts.restart_ms = milliseconds;
    card->restart_at = NEVER;
    set_state(card, card->facts.state);
}

/* Sends the server a command that changes the interface. Returns 0, or an errno with the reason in `why`. */
static int command(struct card *card, const char *text, struct link_reply *why) {
    char refusal[sizeof why->text];
    if (!card_ask(card, text)) {
        refuse(why, ETIMEDOUT, "the server does not reply");
    } else if (*card->refusal) {
        snprintf(refusal, sizeof refusal, "the server says: %s", card->refusal);
        refuse(why, !strcmp(card->refusal, "record full") ? ENOSPC : EIO, refusal);
    }
    return why->error;
}

/* Handles a server that is too old to have a command for setting an interface down. The interface stays on the bus; if
 * it is bus off, it restarts. */
static int stay_up(struct card *card, struct link_reply *why) {
    why->error = 0;
    snprintf(why->text, sizeof why->text,
             "an interface of an older server that is set down stays on the bus; one that is bus off restarts");
    return card->facts.state == CAN_STATE_BUS_OFF ? command(card, "< restart >", why) : 0;
}

int card_set_up(struct card *card, bool is_up, struct link_reply *why) {
    bool was_up = card->facts.state != CAN_STATE_STOPPED;
    if (is_up == was_up) {
        return 0;
    }
    int error = command(card, is_up ? "< restart >" : "< down >", why);
    return strcmp(card->refusal, "unknown command") ? error : stay_up(card, why);
}
