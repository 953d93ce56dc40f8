/* Declarations that the keeper's source files share; see ../shared/link.h. The keeper is the bridge program, started
 * with a listening socket instead of a program's socket. A card is an interface for which the keeper has a session. */
#ifndef CARDS_H
#define CARDS_H

#include "../shared/link.h"
#include "../shared/messages.h"

#include <stdbool.h>
#include <stddef.h>
#include <stdint.h>

struct card {
    int fd; /* -1: the server is gone */
    struct link_facts facts;
    uint64_t restart_at;  /* when to restart the interface, by the clock, or NEVER */
    bool is_answered;     /* the server has replied to the last request */
    unsigned long items;  /* how many items have arrived */
    unsigned long queued; /* how many items the server had queued for this session at the last request */
    uint32_t said;        /* the state according to the items that have arrived */
    bool was_down;        /* the interface has been down since its last restart */
    bool has_news;        /* the state has changed, and the watchers have not been notified yet */
    char refusal[128];    /* why the last command was refused */
    size_t have;
    char input[4096];
};
#define NEVER UINT64_MAX

/* Returns the card of this interface, or NULL if the interface has none. If `opens` is true, it creates a missing card;
 * NULL then means an error, with the reason in `why`. */
struct card *card_of(int index, bool opens, struct link_reply *why);

/* Sends these commands to the server, and requests the properties of the interface. Returns false if the server does
 * not reply. */
bool card_ask(struct card *card, const char *commands);

/* Reads the messages that the server has already sent. */
void card_read(struct card *card);

/* Sets an interface up or down. The state of the interface must be known. Returns 0, or an errno with the reason in
 * `why`. */
int card_set_up(struct card *card, bool is_up, struct link_reply *why);

/* Makes the interface restart this many milliseconds after it goes bus off. If the number is 0, the interface does not
 * restart automatically. */
void card_set_restart(struct card *card, uint32_t milliseconds);

#endif
