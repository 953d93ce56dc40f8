/* Names and indices of interfaces: if_nametoindex and similar calls. Each call first queries the kernel's own
 * interfaces. */
#define _GNU_SOURCE
#include "library.h"

#include "../shared/interfaces.h"

#include <errno.h>
#include <linux/if_link.h>
#include <stdio.h>
#include <stdlib.h>
#include <string.h>
#include <sys/syscall.h>
#include <unistd.h>

/* Prints once that the server has no interface with this name, and lists the names of the server's interfaces. */
static void note_names(const char *name) {
    static int is_said;
    char line[256];
    const char *names = interface_names();
    if (*names && !__atomic_exchange_n(&is_said, 1, __ATOMIC_RELAXED)) {
        int length = snprintf(line, sizeof line, "canbusd-run: note: the server has no interface %s; it has %.160s%s\n",
                              name, names, strlen(names) > 160 ? ".." : "");
        syscall(SYS_write, STDERR_FILENO, line, (size_t)length);
    }
}

static int find_index(const char *name, bool is_can) {
    char copy[IFNAMSIZ] = {0};
    memcpy(copy, name, strnlen(name, IFNAMSIZ - 1));
    int index = interface_index(copy);
    if (!index && is_can) {
        note_names(copy);
    }
    return index ? index : refuse("interface", ENODEV, "no interface of the server has this name");
}

int index_of_name(const char *name) {
    return find_index(name, true);
}

int name_of_index(int index, char name[IFNAMSIZ]) {
    return interface_name(index, name) ? 0 : refuse("interface", ENODEV, "no interface of the server has this index");
}

EXPORT unsigned if_nametoindex(const char *name) {
    int before = errno;
    unsigned index = real()->if_nametoindex(name);
    if (index) {
        return index;
    }
    /* A program without a CAN socket may be looking for an interface that is not a CAN interface. */
    int found = find_index(name, strstr(name, "can"));
    errno = found < 0 ? errno : before;
    return found < 0 ? 0 : (unsigned)found;
}

EXPORT char *if_indextoname(unsigned index, char name[IF_NAMESIZE]) {
    int before = errno;
    if (real()->if_indextoname(index, name)) {
        return name;
    }
    if (!name_of_index((int)index, name)) {
        errno = before;
        return name;
    }
    errno = ENXIO;
    return NULL;
}

/* Lists the kernel's interfaces followed by the server's. The list is one block of memory, so that if_freenameindex can
 * free it. */
static struct if_nameindex *joined(const struct if_nameindex *kernel) {
    size_t count = 0, most = INTERFACE_MOST;
    for (; kernel && kernel[count].if_index; count++, most++) {
    }
    struct if_nameindex *result = calloc(1, (most + 1) * sizeof *result + most * IFNAMSIZ);
    char *text = result ? (char *)(result + most + 1) : NULL;
    for (size_t i = 0; result && i < most; i++, text += IFNAMSIZ) {
        int index = INTERFACE_FIRST + (int)(i - count);
        if (i < count) {
            index = (int)kernel[i].if_index;
            memcpy(text, kernel[i].if_name, strnlen(kernel[i].if_name, IFNAMSIZ - 1));
        } else if (!interface_name(index, text)) {
            break;
        }
        result[i] = (struct if_nameindex){(unsigned)index, text};
    }
    return result;
}

EXPORT struct if_nameindex *if_nameindex(void) {
    struct if_nameindex *kernel = real()->if_nameindex();
    struct if_nameindex *result = joined(kernel);
    if (kernel) {
        real()->if_freenameindex(kernel);
    }
    return result;
}

EXPORT void if_freenameindex(struct if_nameindex *list) {
    free(list);
}

/* ---- getifaddrs: a CAN interface has no address ---- */

struct link {
    struct ifaddrs entry;
    char name[IFNAMSIZ];
    struct rtnl_link_stats counts;
};

/* Returns whether the entry was created by this library. In the C library's entries, the name and the counts are at
 * other addresses. */
static bool is_ours(const struct ifaddrs *entry) {
    const struct link *link = (const struct link *)entry;
    return entry->ifa_name == link->name && entry->ifa_data == &link->counts;
}

/* Creates list entries for the server's interfaces, in one block of memory. Returns NULL if there are no interfaces or
 * there is not enough memory. */
static struct link *links(void) {
    char name[IFNAMSIZ];
    int count = 0;
    while (interface_name(INTERFACE_FIRST + count, name)) {
        count++;
    }
    struct link *all = count ? calloc((size_t)count, sizeof *all) : NULL;
    for (int i = 0; all && i < count; i++) {
        struct link *one = &all[i];
        interface_name(INTERFACE_FIRST + i, one->name);
        one->entry = (struct ifaddrs){.ifa_next = i + 1 < count ? &one[1].entry : NULL,
                                      .ifa_name = one->name,
                                      .ifa_flags = IFF_UP | IFF_RUNNING | IFF_NOARP,
                                      .ifa_data = &one->counts};
    }
    return all;
}

/* Returns a pointer to the list link of the server's first interface, or to the NULL link at the end of the list. */
static struct ifaddrs **place_of_ours(struct ifaddrs **list) {
    while (*list && !is_ours(*list)) {
        list = &(*list)->ifa_next;
    }
    return list;
}

EXPORT int getifaddrs(struct ifaddrs **list) {
    int result = real()->getifaddrs(list);
    if (!result) {
        *place_of_ours(list) = (struct ifaddrs *)links();
    }
    return result;
}

EXPORT void freeifaddrs(struct ifaddrs *list) {
    struct ifaddrs **place = place_of_ours(&list);
    free(*place);
    *place = NULL;
    real()->freeifaddrs(list);
}
