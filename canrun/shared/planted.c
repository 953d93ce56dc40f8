/* A fault that a sweep injects at the sockets of an interface: see planted.h. */
#define _GNU_SOURCE
#include "planted.h"
#include "interfaces.h"

#include <net/if.h>
#include <stdio.h>
#include <stdlib.h>
#include <string.h>

static enum planted_kind kind_of(const char *word) {
    static const char *const words[] = {[PLANTED_MISSED] = "missed", [PLANTED_LATE] = "late", [PLANTED_FULL] = "full"};
    enum planted_kind kind = PLANTED_FULL;
    while (kind != PLANTED_NONE && strcmp(word, words[kind]) != 0) {
        kind--;
    }
    return kind;
}

struct planted planted_read(void) {
    const char *text = getenv(PLANTED_SETTING);
    char word[8], name[IFNAMSIZ], digits[9];
    unsigned long long seconds, micros;
    if (!text || sscanf(text, "%7s %15s %8s %llu.%6llu", word, name, digits, &seconds, &micros) != 5) {
        return (struct planted){.kind = PLANTED_NONE};
    }
    canid_t extended = strlen(digits) == 8 ? CAN_EFF_FLAG : 0;
    return (struct planted){kind_of(word), interface_index(name), (canid_t)strtoul(digits, NULL, 16) | extended,
                            (seconds * 1000000 + micros) * 1000};
}

bool planted_is_of(const struct planted *planted, int index, canid_t identifier) {
    return index == planted->index && (identifier & ~CAN_RTR_FLAG) == planted->identifier;
}
