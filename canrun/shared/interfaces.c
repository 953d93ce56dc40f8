/* The interfaces of the server: see interfaces.h. */
#include "interfaces.h"

#include <stdlib.h>
#include <string.h>

#define PAST_LAST (INTERFACE_FIRST + INTERFACE_MOST)

/* Moves the first name in a comma-separated list to `name`. At the end of the list `name` is empty. */
static void next_name(const char **list, char name[IFNAMSIZ]) {
    size_t length = strcspn(*list, ",");
    memset(name, 0, IFNAMSIZ);
    memcpy(name, *list, length < IFNAMSIZ ? length : 0);
    *list += length + ((*list)[length] == ',');
}

/* The list of interfaces at the start of the program. It is kept because a program may clear its environment. */
static char names_before[INTERFACE_NAMES];

__attribute__((constructor)) static void keep_names(void) {
    const char *list = getenv("CANBUSD_INTERFACES");
    strncpy(names_before, list ? list : "", sizeof names_before - 1);
}

const char *interface_names(void) {
    const char *list = getenv("CANBUSD_INTERFACES");
    return list ? list : names_before;
}

int interface_index(const char *name) {
    const char *list = interface_names();
    char listed[IFNAMSIZ];
    for (int index = INTERFACE_FIRST; *list && index < PAST_LAST; index++) {
        next_name(&list, listed);
        if (*name && !strcmp(listed, name)) {
            return index;
        }
    }
    return 0;
}

bool interface_name(int index, char name[IFNAMSIZ]) {
    const char *list = interface_names();
    int at = INTERFACE_FIRST - 1;
    for (; *list && at < index; at++) {
        next_name(&list, name);
    }
    if (at != index || index < INTERFACE_FIRST || index >= PAST_LAST) {
        memset(name, 0, IFNAMSIZ);
    }
    return *name;
}
