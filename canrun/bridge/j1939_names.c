/* The names of J1939 nodes and the addresses that the nodes have claimed, as in net/can/j1939/bus.c and address-claim.c
 * in the kernel. An address claim becomes valid if it is not contested for 250 ms. For the host's own claims these 250
 * ms start when the claim was on the bus. */
#include "j1939_host.h"

#include <errno.h>
#include <stdlib.h>

#define CLAIM_TIME (250 * MILLISECOND)

struct node {
    struct node *next;
    uint64_t name;
    uint64_t due;    /* when the node's claim becomes valid, by the clock, or NEVER */
    uint64_t until;  /* the same time, by the timestamps of frames */
    uint8_t address; /* the address that the node claimed last */
    unsigned users;  /* how many sockets are bound to the name */
};
static struct node *nodes;

static struct {
    struct node *node; /* the node that has this address */
    unsigned users;    /* how many sockets are bound to this address, or to the name of its node */
} addresses[256];

static struct node *find(uint64_t name) {
    struct node *node = name ? nodes : NULL;
    while (node && node->name != name) {
        node = node->next;
    }
    return node;
}

static struct node *add(uint64_t name) {
    struct node *node = malloc(sizeof *node), **last = &nodes;
    if (!node) {
        return NULL;
    }
    *node = (struct node){.name = name, .due = NEVER, .address = J1939_IDLE_ADDR};
    while (*last) {
        last = &(*last)->next;
    }
    return *last = node;
}

static bool has_address(const struct node *node) {
    return is_unicast(node->address) && addresses[node->address].node == node;
}

/* Frees a node that no socket uses, and that neither has nor claims an address. */
static void forget_idle(struct node *node) {
    struct node **place = &nodes;
    if (node->users || node->due != NEVER || has_address(node)) {
        return;
    }
    while (*place != node) {
        place = &(*place)->next;
    }
    *place = node->next;
    free(node);
}

static void take_address(struct node *node) {
    if (has_address(node)) {
        addresses[node->address].users -= node->users;
        addresses[node->address].node = NULL;
    }
}

static void give_address(struct node *node) {
    if (is_unicast(node->address) && !addresses[node->address].node) {
        addresses[node->address].node = node;
        addresses[node->address].users += node->users;
    }
}

int names_use(uint64_t name, uint8_t address) {
    struct node *node = find(name);
    if (name && !node && !(node = add(name))) {
        return refused(ENOMEM, "no memory for a name");
    }
    addresses[address].users += is_unicast(address);
    if (node) {
        node->users++;
        addresses[node->address].users += has_address(node);
    }
    return 0;
}

void names_release(uint64_t name, uint8_t address) {
    struct node *node = find(name);
    addresses[address].users -= is_unicast(address);
    if (node) {
        addresses[node->address].users -= has_address(node);
        node->users--;
        forget_idle(node);
    }
}

bool names_are_local(uint8_t address) {
    return is_unicast(address) && addresses[address].users;
}

uint64_t names_at(uint8_t address) {
    return is_unicast(address) && addresses[address].node ? addresses[address].node->name : 0;
}

uint8_t names_address(uint64_t name) {
    const struct node *node = find(name);
    return !name ? J1939_NO_ADDR : node && has_address(node) ? node->address : J1939_IDLE_ADDR;
}

bool names_claim(uint64_t name, uint8_t address) {
    struct node *node = find(name);
    if (node && node->address != address) {
        take_address(node);
    }
    return node;
}

/* Handles a node's claim of this address. If another node has the address, it keeps the address only if its own name is
 * lower. */
static void contest(struct node *node, uint8_t address, uint64_t moment) {
    if (node->address != address) {
        take_address(node);
    }
    node->address = address;
    struct node *before = is_unicast(address) ? addresses[address].node : NULL;
    if (before && node->name > before->name) {
        take_address(node);
        forget_idle(node);
        return;
    }
    if (before) {
        take_address(before);
        if (before != node) {
            forget_idle(before);
        }
    }
    node->due = clock_now() + CLAIM_TIME;
    node->until = moment + CLAIM_TIME;
}

void names_claimed(uint64_t name, uint8_t address, uint64_t moment) {
    struct node *node = find(name);
    if (!name || (node && node->address == address)) {
        return;
    }
    node = node || !is_unicast(address) ? node : add(name);
    if (!node) {
        return;
    }
    node->due = NEVER;
    if (address == J1939_IDLE_ADDR) {
        take_address(node);
        forget_idle(node);
    } else {
        contest(node, address, moment);
    }
}

static void make_good(struct node *node) {
    node->due = NEVER;
    give_address(node);
    forget_idle(node);
}

void names_expire(uint64_t moment) {
    struct node *next;
    for (struct node *node = nodes; node; node = next) {
        next = node->next;
        if (node->due != NEVER && node->until <= moment) {
            make_good(node);
        }
    }
}

uint64_t names_due(uint64_t known) {
    uint64_t soonest = NEVER;
    struct node *next;
    for (struct node *node = nodes; node; node = next) {
        next = node->next;
        if (node->due <= known) {
            make_good(node);
        } else {
            soonest = MIN(soonest, node->due);
        }
    }
    return soonest;
}
