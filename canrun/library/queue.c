/* The length of a transmit queue, for SIOCGIFTXQLEN. No message from the server contains the length. It is therefore
 * read from the command line of the process that listens at the server's address, if that process is visible. */
#define _GNU_SOURCE
#include "library.h"

#include "../shared/address.h"

#include <dirent.h>
#include <errno.h>
#include <stdlib.h>
#include <string.h>
#include <sys/syscall.h>

/* The default queue length of canbusd. */
#define USUAL 10

/* Reads a file in /proc and adds a terminating 0. Returns the length, or -1. */
static ssize_t read_proc(const char *process, const char *name, char *room, size_t size) {
    char path[64];
    snprintf(path, sizeof path, "/proc/%.16s/%.16s", process, name);
    int file = (int)syscall(SYS_openat, AT_FDCWD, path, O_RDONLY | O_CLOEXEC, 0);
    ssize_t have = file < 0 ? -1 : 0;
    for (long part; have >= 0 && (part = syscall(SYS_read, file, room + have, size - 1 - (size_t)have)) > 0;) {
        have += part;
    }
    if (file >= 0) {
        syscall(SYS_close, file);
        room[have] = 0;
    }
    return have;
}

/* Returns the queue length from a server's command line, or the default if this is another program's command line. */
static int length_of(const char *words, size_t size) {
    static const char option[] = "--txqueue";
    const size_t length = sizeof option - 1;
    int found = USUAL;
    bool is_server = false;
    for (const char *word = words; word < words + size; word += strlen(word) + 1) {
        is_server |= !strcmp(word, "serve");
        if (strncmp(word, option, length) != 0 || (word[length] && word[length] != '=')) {
            continue;
        }
        const char *value = word + length + 1;
        found = value < words + size ? atoi(value) : USUAL;
    }
    return is_server ? found : USUAL;
}

static int length_of_process(const char *process) {
    char words[32768];
    ssize_t size = read_proc(process, "cmdline", words, sizeof words);
    return size > 0 ? length_of(words, (size_t)size) : USUAL;
}

/* Returns the ID of the process that listens at a Unix socket path, or 0 if the process is not visible. */
static int process_at_path(const struct address *address) {
    struct ucred peer = {0};
    socklen_t length = sizeof peer;
    int fd = address_connect(address);
    if (fd >= 0) {
        real()->getsockopt(fd, SOL_SOCKET, SO_PEERCRED, &peer, &length);
        syscall(SYS_close, fd);
    }
    return peer.pid;
}

/* Reads a list of TCP sockets in /proc. Returns the inode of the socket that listens on this port, or 0. */
static unsigned long inode_of_port(const char *name, unsigned short port) {
    static const char listens[] = "0A";
    unsigned long found = 0;
    FILE *file = fopen(name, "re");
    for (char line[512]; file && !found && fgets(line, sizeof line, file);) {
        unsigned at;
        char state[3];
        unsigned long inode;
        if (sscanf(line, " %*u: %*[0-9A-Fa-f]:%x %*s %2s %*s %*s %*s %*s %*s %lu", &at, state, &inode) == 3 &&
            at == port && !strcmp(state, listens)) {
            found = inode;
        }
    }
    if (file) {
        fclose(file);
    }
    return found;
}

static bool has_socket(const char *process, unsigned long inode) {
    char folder[64], name[64], link[64];
    snprintf(folder, sizeof folder, "/proc/%.16s/fd", process);
    snprintf(name, sizeof name, "socket:[%lu]", inode);
    DIR *all = opendir(folder);
    bool found = false;
    for (struct dirent *one; all && !found && (one = readdir(all));) {
        ssize_t length = readlinkat(dirfd(all), one->d_name, link, sizeof link - 1);
        link[length < 0 ? 0 : length] = 0;
        found = !strcmp(link, name);
    }
    if (all) {
        closedir(all);
    }
    return found;
}

/* Returns the ID of the process that listens on a port if its program is called canbusd; otherwise 0. */
static int process_at_port(unsigned short port) {
    unsigned long inode = inode_of_port("/proc/net/tcp", port);
    inode = inode ? inode : inode_of_port("/proc/net/tcp6", port);
    DIR *all = inode ? opendir("/proc") : NULL;
    int found = 0;
    for (struct dirent *one; all && !found && (one = readdir(all));) {
        char name[32];
        bool is_canbusd = *one->d_name >= '1' && *one->d_name <= '9' &&
                          read_proc(one->d_name, "comm", name, sizeof name) > 0 && !strcmp(name, "canbusd\n");
        found = is_canbusd && has_socket(one->d_name, inode) ? atoi(one->d_name) : 0;
    }
    if (all) {
        closedir(all);
    }
    return found;
}

static bool is_here(const char *host) {
    return !strncmp(host, "127.", 4) || !strcmp(host, "::1") || !strcmp(host, "localhost");
}

int queue_length(void) {
    struct address address;
    char process[16];
    int before = errno;
    const char *text = getenv("CANBUSD_ADDRESS");
    int found = !text || !address_read(text, &address) ? 0
                : address.is_path                      ? process_at_path(&address)
                : is_here(address.host)                ? process_at_port(address.port)
                                                       : 0;
    snprintf(process, sizeof process, "%d", found);
    int length = found > 0 ? length_of_process(process) : USUAL;
    errno = before;
    return length;
}
