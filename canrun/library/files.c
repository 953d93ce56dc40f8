/* Files below /sys/class/net, where some programs, such as those that use Qt, look for devices. Each interface of the
 * server has a directory there, with files that contain the properties of the interface. An opened file is a memory
 * file with only that content. The file status and permissions of a path are the same as for the corresponding path of
 * the interface lo. */
#define _GNU_SOURCE
#include "library.h"

#include "links.h"

#include <dirent.h>
#include <errno.h>
#include <limits.h>
#include <linux/can.h>
#include <linux/if_arp.h>
#include <pthread.h>
#include <stdarg.h>
#include <stdlib.h>
#include <string.h>
#include <sys/syscall.h>

#define FOLDER "/sys/class/net/"
/* IFF_ECHO of linux/if.h. */
#define FLAG_ECHO 0x40000

/* The interface in a path, and the name of the file in its directory. The name is empty if the path is the directory
 * itself. */
struct place {
    int index;
    const char *file;
};

/* Returns whether a path is in the directory of one of the server's interfaces below /sys/class/net. */
static bool find_place(const char *path, struct place *place) {
    const size_t length = sizeof FOLDER - 1;
    char name[IFNAMSIZ];
    if (!path || strncmp(path, FOLDER, length) != 0) {
        return false;
    }
    const char *from = path + length + strspn(path + length, "/");
    size_t has = strcspn(from, "/");
    if (!has || has >= sizeof name) {
        return false;
    }
    memcpy(name, from, has);
    name[has] = 0;
    from += has;
    *place = (struct place){real()->if_nametoindex(name) ? 0 : interface_index(name), from + strspn(from, "/")};
    return place->index;
}

/* ---- texts ---- */

/* Writes the content of a file whose content changes over time. Returns false if there is no such file, or if the
 * content is unknown. */
static bool write_fact(const struct place *place, char *text, size_t size) {
    struct link_facts facts = links_facts(place->index);
    const struct {
        const char *file;
        uint64_t count;
    } counts[] = {{"statistics/tx_packets", facts.done},
                  {"statistics/tx_errors", facts.lost},
                  {"statistics/tx_dropped", facts.lost + facts.refused}};
    for (size_t i = 0; facts.is_known && i < sizeof counts / sizeof *counts; i++) {
        if (!strcmp(place->file, counts[i].file)) {
            return snprintf(text, size, "%llu\n", (unsigned long long)counts[i].count);
        }
    }
    return !strcmp(place->file, "flags")
               ? snprintf(text, size, "0x%x\n", link_flags(&facts) & (IFF_UP | IFF_NOARP | FLAG_ECHO))
           : !strcmp(place->file, "operstate") ? snprintf(text, size, "%s\n", link_has_carrier(&facts) ? "up" : "down")
           : !strcmp(place->file, "carrier")   ? snprintf(text, size, "%d\n", link_has_carrier(&facts))
                                               : false;
}

/* Writes the content of a file. Returns false if there is no such file. */
static bool write_text(const struct place *place, char *text, size_t size) {
    char name[IFNAMSIZ];
    const struct {
        const char *file;
        int number;
    } numbers[] = {{"type", ARPHRD_CAN},      {"mtu", CANFD_MTU},
                   {"addr_len", 0},           {"dev_port", 0},
                   {"ifindex", place->index}, {"iflink", place->index},
                   {"link_mode", 0},          {"dormant", 0},
                   {"netdev_group", 0},       {"tx_queue_len", queue_length()}};
    for (size_t i = 0; i < sizeof numbers / sizeof *numbers; i++) {
        if (!strcmp(place->file, numbers[i].file)) {
            return snprintf(text, size, "%d\n", numbers[i].number);
        }
    }
    interface_name(place->index, name);
    return !strcmp(place->file, "dev_id")                                         ? snprintf(text, size, "0x0\n")
           : !strcmp(place->file, "address") || !strcmp(place->file, "broadcast") ? snprintf(text, size, "\n")
           : !strcmp(place->file, "uevent") ? snprintf(text, size, "INTERFACE=%s\nIFINDEX=%d\n", name, place->index)
                                            : write_fact(place, text, size);
}

/* Opens a file. Returns its file descriptor, or -1 with errno set. */
static int open_place(const struct place *place, int flags) {
    char text[128];
    if (!*place->file) {
        return fail(EACCES);
    }
    if (!write_text(place, text, sizeof text)) {
        return fail(flags & O_CREAT ? EACCES : ENOENT);
    }
    if ((flags & O_ACCMODE) != O_RDONLY) {
        return fail(EACCES);
    }
    if (flags & O_DIRECTORY) {
        return fail(ENOTDIR);
    }
    int fd = (int)syscall(SYS_memfd_create, place->file, flags & O_CLOEXEC ? 1 : 0);
    if (fd >= 0) {
        syscall(SYS_write, fd, text, strlen(text));
        syscall(SYS_lseek, fd, 0L, SEEK_SET);
    }
    return fd;
}

/* Returns the path whose status the program gets instead of the status of `path`. */
static const char *stand_in(const char *path, char room[PATH_MAX]) {
    struct place place;
    char text[128];
    if (!find_place(path, &place)) {
        return path;
    }
    bool is_there = !*place.file || !strcmp(place.file, "statistics") || write_text(&place, text, sizeof text);
    snprintf(room, PATH_MAX, FOLDER "%s/%s", is_there ? "lo" : "no such interface", place.file);
    return room;
}

/* ---- files ---- */

#define MODE_OF(flags)                                         \
    mode_t mode = 0;                                           \
    if (flags & O_CREAT || (flags & O_TMPFILE) == O_TMPFILE) { \
        va_list list;                                          \
        va_start(list, flags);                                 \
        mode = va_arg(list, mode_t);                           \
        va_end(list);                                          \
    }

EXPORT int open(const char *path, int flags, ...) {
    struct place place;
    MODE_OF(flags)
    return find_place(path, &place) ? open_place(&place, flags) : real()->open(path, flags, mode);
}

EXPORT int open64(const char *path, int flags, ...) {
    struct place place;
    MODE_OF(flags)
    return find_place(path, &place) ? open_place(&place, flags) : real()->open64(path, flags, mode);
}

EXPORT int openat(int folder, const char *path, int flags, ...) {
    struct place place;
    MODE_OF(flags)
    return find_place(path, &place) ? open_place(&place, flags) : real()->openat(folder, path, flags, mode);
}

EXPORT int openat64(int folder, const char *path, int flags, ...) {
    struct place place;
    MODE_OF(flags)
    return find_place(path, &place) ? open_place(&place, flags) : real()->openat64(folder, path, flags, mode);
}

static FILE *open_stream(const struct place *place, const char *mode) {
    int fd = open_place(place, *mode == 'r' && !strchr(mode, '+') ? O_RDONLY | O_CLOEXEC : O_WRONLY | O_CREAT);
    return fd < 0 ? NULL : real()->fdopen(fd, mode);
}

EXPORT FILE *fopen(const char *restrict path, const char *restrict mode) {
    struct place place;
    return find_place(path, &place) ? open_stream(&place, mode) : real()->fopen(path, mode);
}

EXPORT FILE *fopen64(const char *restrict path, const char *restrict mode) {
    struct place place;
    return find_place(path, &place) ? open_stream(&place, mode) : real()->fopen64(path, mode);
}

/* ---- the status of paths ---- */

EXPORT int stat(const char *restrict path, struct stat *restrict facts) {
    char room[PATH_MAX];
    return real()->stat(stand_in(path, room), facts);
}

EXPORT int stat64(const char *restrict path, struct stat64 *restrict facts) {
    char room[PATH_MAX];
    return real()->stat64(stand_in(path, room), facts);
}

EXPORT int lstat(const char *restrict path, struct stat *restrict facts) {
    char room[PATH_MAX];
    return real()->lstat(stand_in(path, room), facts);
}

EXPORT int lstat64(const char *restrict path, struct stat64 *restrict facts) {
    char room[PATH_MAX];
    return real()->lstat64(stand_in(path, room), facts);
}

EXPORT int fstatat(int folder, const char *restrict path, struct stat *restrict facts, int flags) {
    char room[PATH_MAX];
    return real()->fstatat(folder, stand_in(path, room), facts, flags);
}

EXPORT int fstatat64(int folder, const char *restrict path, struct stat64 *restrict facts, int flags) {
    char room[PATH_MAX];
    return real()->fstatat64(folder, stand_in(path, room), facts, flags);
}

EXPORT int statx(int folder, const char *restrict path, int flags, unsigned mask, struct statx *restrict facts) {
    char room[PATH_MAX];
    return real()->statx(folder, stand_in(path, room), flags, mask, facts);
}

EXPORT int access(const char *path, int mode) {
    char room[PATH_MAX];
    return real()->access(stand_in(path, room), mode);
}

EXPORT int faccessat(int folder, const char *path, int mode, int flags) {
    char room[PATH_MAX];
    return real()->faccessat(folder, stand_in(path, room), mode, flags);
}

/* ---- the list of interfaces ---- */

/* The open streams of /sys/class/net, each with the index of the next interface to list. */
static struct {
    const DIR *stream;
    int next;
    union {
        struct dirent one;
        struct dirent64 one64;
    } entry;
} lists[8];
#define LISTS (sizeof lists / sizeof *lists)
static pthread_mutex_t lists_lock = PTHREAD_MUTEX_INITIALIZER;

/* Returns the index of a stream in `lists`, or LISTS if the stream is not there. If `stream` is NULL, returns the index
 * of a free entry. */
static size_t list_of(const DIR *stream) {
    size_t at = 0;
    while (at < LISTS && lists[at].stream != stream) {
        at++;
    }
    return at;
}

static void set_list(const DIR *from, const DIR *to) {
    int before = errno;
    pthread_mutex_lock(&lists_lock);
    size_t at = list_of(from);
    if (at < LISTS) {
        lists[at].stream = to;
        lists[at].next = INTERFACE_FIRST;
    }
    pthread_mutex_unlock(&lists_lock);
    errno = before;
}

EXPORT DIR *opendir(const char *path) {
    const size_t length = sizeof FOLDER - 2; /* without the last slash */
    struct place place;
    if (find_place(path, &place)) {
        errno = *place.file ? ENOTDIR : EACCES;
        return NULL;
    }
    DIR *stream = real()->opendir(path);
    if (stream && !strncmp(path, FOLDER, length) && !path[length + strspn(path + length, "/")]) {
        set_list(NULL, stream);
    }
    return stream;
}

EXPORT int closedir(DIR *stream) {
    set_list(stream, NULL);
    return real()->closedir(stream);
}

EXPORT void rewinddir(DIR *stream) {
    set_list(stream, stream);
    real()->rewinddir(stream);
}

/* Returns the entry of the server's next interface, or NULL at the end of the list. The kernel's interfaces come before
 * the server's. struct dirent and struct dirent64 have the same layout. */
static struct dirent64 *next_interface(const DIR *stream) {
    char name[IFNAMSIZ];
    int before = errno;
    struct dirent64 *found = NULL;
    pthread_mutex_lock(&lists_lock);
    size_t at = list_of(stream);
    if (at < LISTS && interface_name(lists[at].next, name)) {
        found = &lists[at].entry.one64;
        *found = (struct dirent64){
            .d_ino = (ino64_t)lists[at].next, .d_off = INT32_MAX, .d_reclen = sizeof *found, .d_type = DT_LNK};
        memcpy(found->d_name, name, sizeof name);
        lists[at].next++;
    }
    pthread_mutex_unlock(&lists_lock);
    errno = before;
    return found;
}

EXPORT struct dirent *readdir(DIR *stream) {
    struct dirent *next = real()->readdir(stream);
    return next ? next : (struct dirent *)next_interface(stream);
}

EXPORT struct dirent64 *readdir64(DIR *stream) {
    struct dirent64 *next = real()->readdir64(stream);
    return next ? next : next_interface(stream);
}

/* Called by programs that were built with _FORTIFY_SOURCE. */
EXPORT int __open_2(const char *path, int flags);
EXPORT int __open64_2(const char *path, int flags);

int __open_2(const char *path, int flags) {
    return open(path, flags);
}

int __open64_2(const char *path, int flags) {
    return open64(path, flags);
}
