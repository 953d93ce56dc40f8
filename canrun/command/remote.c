/* Accesses the memory, file descriptors and signals of a program that has a supervisor, and replies to its calls. See
 * supervise.h. */
#define _GNU_SOURCE
#include "supervise.h"

#include "program.h"

#include <errno.h>
#include <pthread.h>
#include <stdio.h>
#include <sys/ioctl.h>
#include <sys/stat.h>
#include <sys/syscall.h>
#include <sys/uio.h>
#include <unistd.h>

/* ---- memory of the program ---- */

bool take(const struct call *call, void *here, uint64_t there, size_t length) {
    struct iovec ours = {here, length}, theirs = {(void *)(uintptr_t)there, length};
    return !length || process_vm_readv(call->thread, &ours, 1, &theirs, 1, 0) == (ssize_t)length;
}

bool give(const struct call *call, uint64_t there, const void *here, size_t length) {
    struct iovec ours = {(void *)here, length}, theirs = {(void *)(uintptr_t)there, length};
    return !length || process_vm_writev(call->thread, &ours, 1, &theirs, 1, 0) == (ssize_t)length;
}

int64_t result(int64_t value) {
    return value < 0 ? -errno : value;
}

/* ---- replies ---- */

void reply(const struct call *call, int64_t value, uint32_t flags) {
    struct seccomp_notif_resp said = {
        .id = call->asked->id, .val = value < 0 ? 0 : value, .error = value < 0 ? (int)value : 0, .flags = flags};
    ioctl(call->listener, SECCOMP_IOCTL_NOTIF_SEND, &said);
}

void let_go_on(const struct call *call) {
    reply(call, 0, SECCOMP_USER_NOTIF_FLAG_CONTINUE);
}

bool is_waited_for(const struct call *call) {
    return !ioctl(call->listener, SECCOMP_IOCTL_NOTIF_ID_VALID, &call->asked->id);
}

bool has_signal(const struct call *call) {
    char path[64], line[128];
    unsigned long own = 0, shared = 0, blocked = 0, ignored = 0;
    snprintf(path, sizeof path, "/proc/%d/status", call->thread);
    FILE *file = fopen(path, "re");
    while (file && fgets(line, sizeof line, file)) {
        (void)(sscanf(line, "SigPnd: %lx", &own) || sscanf(line, "ShdPnd: %lx", &shared) ||
               sscanf(line, "SigBlk: %lx", &blocked) || sscanf(line, "SigIgn: %lx", &ignored));
    }
    if (file) {
        fclose(file);
    }
    return (own | shared) & ~blocked & ~ignored;
}

/* ---- programs ---- */

/* A cache of checked program files. It stores whether each program loads the library. */
static struct {
    dev_t device;
    ino_t file;
    bool is_known, has_library;
} files[16];
static pthread_mutex_t files_lock = PTHREAD_MUTEX_INITIALIZER;

bool has_library(pid_t thread) {
    static unsigned next;
    char path[64];
    struct stat exe;
    bool has = false, is_known = false;
    snprintf(path, sizeof path, "/proc/%d/exe", thread);
    if (stat(path, &exe)) {
        return false;
    }
    pthread_mutex_lock(&files_lock);
    for (size_t i = 0; i < sizeof files / sizeof *files && !is_known; i++) {
        is_known = files[i].is_known && files[i].device == exe.st_dev && files[i].file == exe.st_ino;
        has = is_known && files[i].has_library;
    }
    if (!is_known) {
        has = program_takes_library(path);
        unsigned at = next++ % (sizeof files / sizeof *files);
        files[at].device = exe.st_dev;
        files[at].file = exe.st_ino;
        files[at].is_known = true;
        files[at].has_library = has;
    }
    pthread_mutex_unlock(&files_lock);
    return has;
}

pid_t process_of(pid_t thread) {
    char path[64], line[128];
    pid_t process = thread;
    snprintf(path, sizeof path, "/proc/%d/status", thread);
    FILE *file = fopen(path, "re");
    while (file && fgets(line, sizeof line, file) && sscanf(line, "Tgid: %d", &process) != 1) {
    }
    if (file) {
        fclose(file);
    }
    return process;
}

/* ---- descriptors ---- */

int copy_descriptor(pid_t process, int fd) {
    int pidfd = (int)syscall(SYS_pidfd_open, process, 0);
    int copy = pidfd < 0 ? -1 : (int)syscall(SYS_pidfd_getfd, pidfd, fd, 0), error = errno;
    if (pidfd >= 0) {
        close(pidfd);
    }
    errno = error;
    return copy;
}
