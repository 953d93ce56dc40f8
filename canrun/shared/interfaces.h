/* The server's interfaces. canbusd-run requests them from the server; the library and the bridge read them from the
 * environment. */
#ifndef INTERFACES_H
#define INTERFACES_H

#include <net/if.h>
#include <stdbool.h>

/* The maximum number of interfaces of a server (16 buses with 16 interfaces each), and the size of the comma-separated
 * list of their names. */
#define INTERFACE_MOST 256
#define INTERFACE_NAMES (INTERFACE_MOST * IFNAMSIZ)
/* The index of the first interface; the other interfaces follow in the server's order. The kernel numbers its own
 * interfaces starting at 1, and canplayer uses index 65536 for standard output. */
#define INTERFACE_FIRST 0x100000

/* Returns the names of the interfaces, separated by commas. */
const char *interface_names(void);

/* Returns the index of the interface with this name, or 0 if the server has no such interface. */
int interface_index(const char *name);

/* Writes the name of the interface with this index. If there is no such interface, the name is empty and the function
 * returns false. */
bool interface_name(int index, char name[IFNAMSIZ]);

#endif
