/* Datagrams to programs outside the run. Time does not stop for those programs, so the run ends if a datagram is sent
 * to one of them. */
#define _GNU_SOURCE
#include "calls.h"
#include "peers.h"
#include "proc.h"

#include <dirent.h>
#include <fcntl.h>
#include <netinet/in.h>
#include <stdio.h>
#include <stdlib.h>
#include <string.h>
#include <sys/socket.h>
#include <unistd.h>

static bool has_outside_peers;

static bool is_known(uint32_t port) {
    return run->datagram_ports[port / 8] >> port % 8 & 1;
}

static bool is_to_many(const struct sockaddr *to) {
    const struct sockaddr_in *four = (const struct sockaddr_in *)to;
    const struct sockaddr_in6 *six = (const struct sockaddr_in6 *)to;
    return to->sa_family == AF_INET
               ? IN_MULTICAST(ntohl(four->sin_addr.s_addr)) || (ntohl(four->sin_addr.s_addr) & 255) == 255
               : IN6_IS_ADDR_MULTICAST(&six->sin6_addr);
}

/* Returns whether an address belongs to this machine, that is, whether a socket can be bound to it. */
static bool is_here(const struct sockaddr *to) {
    struct sockaddr_in6 six;
    struct sockaddr_in *four = (struct sockaddr_in *)&six;
    size_t size = to->sa_family == AF_INET ? sizeof *four : sizeof six;
    memcpy(&six, to, size);
    *(to->sa_family == AF_INET ? &four->sin_port : &six.sin6_port) = 0;
    int fd = (int)RAW(SYS_socket, to->sa_family, SOCK_DGRAM | SOCK_CLOEXEC, 0);
    bool is_ours = fd >= 0 && !RAW(SYS_bind, fd, &six, size);
    if (fd >= 0) {
        RAW(SYS_close, fd);
    }
    return is_ours;
}

/* Returns whether a process has this socket. */
static bool has_socket(uint32_t pid, unsigned long inode) {
    char path[300], name[64], wanted[64];
    bool has_it = false;
    snprintf(wanted, sizeof wanted, "socket:[%lu]", inode);
    snprintf(path, sizeof path, "/proc/%u/fd", pid);
    DIR *folder = opendir(path);
    for (struct dirent *entry; folder && !has_it && (entry = readdir(folder));) {
        snprintf(path, sizeof path, "/proc/%u/fd/%s", pid, entry->d_name);
        long length = RAW(SYS_readlinkat, AT_FDCWD, path, name, sizeof name - 1);
        name[length > 0 ? length : 0] = 0;
        has_it = !strcmp(name, wanted);
    }
    if (folder) {
        closedir(folder);
    }
    return has_it;
}

static bool is_of_run(unsigned long inode) {
    for (uint32_t i = 0; i < run->used; i++) {
        const struct slot *slot = &run->slots[i];
        if (slot->state != SLOT_FREE && slot->pid && has_socket(slot->pid, inode)) {
            return true;
        }
    }
    return false;
}

/* The owner of a port of this machine: the run, other programs, or no program. If no program owns the port, the kernel
 * refuses datagrams to the port. */
enum owner { OF_NOBODY, OF_OTHERS, OF_RUN };

static enum owner owner_of(uint32_t port) {
    static const char *const tables[] = {"/proc/self/net/udp", "/proc/self/net/udp6"};
    enum owner owner = OF_NOBODY;
    char line[300];
    for (int i = 0; i < 2; i++) {
        FILE *table = fopen(tables[i], "re");
        while (table && owner != OF_RUN && fgets(line, sizeof line, table)) {
            unsigned at;
            unsigned long inode;
            bool is_line = sscanf(line, " %*d: %*[0-9A-F]:%x %*s %*s %*s %*s %*s %*d %*d %lu", &at, &inode) == 2;
            if (is_line && at == port) {
                owner = is_of_run(inode) ? OF_RUN : OF_OTHERS;
            }
        }
        if (table) {
            fclose(table);
        }
    }
    return owner;
}

/* Returns whether a datagram to this address would leave the run. */
static bool is_outside(const struct sockaddr *to) {
    uint32_t port = port_of(to);
    if (!port || is_known(port) || is_to_many(to)) {
        return false;
    }
    enum owner owner = is_here(to) ? owner_of(port) : OF_OTHERS;
    if (owner == OF_RUN) {
        run->datagram_ports[port / 8] |= (uint8_t)(1 << port % 8);
    }
    return owner == OF_OTHERS;
}

static bool is_datagram(int fd) {
    int type = 0;
    socklen_t size = sizeof type;
    return !RAW(SYS_getsockopt, fd, SOL_SOCKET, SO_TYPE, &type, &size) && type == SOCK_DGRAM;
}

void datagram_connected(int fd, const struct sockaddr *to) {
    has_outside_peers |= port_of(to) && is_datagram(fd) && is_outside(to);
}

void check_datagram(int fd, const struct sockaddr *to) {
    struct sockaddr_storage peer;
    socklen_t length = sizeof peer;
    if (!to && has_outside_peers && !RAW(SYS_getpeername, fd, &peer, &length)) {
        to = (const struct sockaddr *)&peer;
    }
    if (run && to && port_of(to) && !is_known(port_of(to)) && is_datagram(fd) && is_outside(to)) {
        fail_outside("sends to", "UDP port", to);
    }
}
