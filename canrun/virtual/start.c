/* Makes a program or a bridge part of the run. */
#define _GNU_SOURCE
#include "calls.h"
#include "proc.h"
#include "random.h"
#include "rights.h"
#include "../command/program.h"
#include "tell.h"

#include <fcntl.h>
#include <limits.h>
#include <stdio.h>
#include <stdlib.h>
#include <string.h>
#include <sys/mman.h>
#include <sys/socket.h>
#include <sys/un.h>
#include <unistd.h>

/* The lowest value of the run's descriptor in a program. It is high so that the program's own descriptors keep their
 * usual numbers. */
#define HIGH_DESCRIPTOR 900

/* Receives the descriptor in the coordinator's reply. Returns -1 if there is none. */
static int take_epoll(int fd) {
    struct rights rights;
    struct msghdr *message = rights_message(&rights, -1);
    while (RAW(SYS_recvmsg, fd, message, MSG_CMSG_CLOEXEC) == -EINTR) {
    }
    int epoll = rights_descriptor(&rights);
    if (epoll < 0) {
        return -1;
    }
    int high = (int)RAW(SYS_fcntl, epoll, F_DUPFD_CLOEXEC, HIGH_DESCRIPTOR);
    if (high >= 0) {
        RAW(SYS_close, epoll);
        return high;
    }
    return epoll;
}

/* Sends a request to the coordinator, which identifies the requesting process by the connection. Returns a connection
 * for the reply, or -1. */
static int ask_coordinator(const struct request *request) {
    struct sockaddr_un name = {.sun_family = AF_UNIX};
    int length = snprintf(name.sun_path + 1, sizeof name.sun_path - 1, RUN_SOCKET, coordinator_pid);
    int fd = (int)RAW(SYS_socket, AF_UNIX, SOCK_SEQPACKET | SOCK_CLOEXEC, 0);
    socklen_t size = (socklen_t)(offsetof(struct sockaddr_un, sun_path) + 1 + (size_t)length);
    if (fd >= 0 && (RAW(SYS_connect, fd, &name, size) ||
                    RAW(SYS_sendto, fd, request, sizeof *request, MSG_NOSIGNAL, NULL, 0) != sizeof *request)) {
        RAW(SYS_close, fd);
        return -1;
    }
    return fd;
}

bool register_process(void) {
    const struct request request = {.alarm = NO_ALARM};
    int fd = ask_coordinator(&request);
    if (fd < 0) {
        return false;
    }
    int epoll = take_epoll(fd);
    RAW(SYS_close, fd);
    if (epoll >= 0) {
        if (run_epoll >= 0) {
            RAW(SYS_close, run_epoll);
        }
        run_epoll = epoll;
    }
    return epoll >= 0;
}

/* Waits for the end of the run, which also ends this program. The coordinator notices that the program belongs to
 * another user, and ends the run. */
static void await_end_of_run(const char *path) {
    const struct timespec second = {1, 0};
    int coordinator = atoi(path + sizeof "/proc/" - 1);
    while (coordinator > 0 && RAW(SYS_kill, coordinator, 0) != -ESRCH) {
        RAW(SYS_nanosleep, &second, NULL);
    }
    RAW(SYS_exit_group, 125);
}

bool register_alarm(const struct alarm *alarm) {
    const struct request request = {(uint32_t)(alarm - run->alarms), alarm->tid, alarm->number};
    int fd = ask_coordinator(&request);
    char reply;
    long length = fd >= 0 ? RAW(SYS_recvfrom, fd, &reply, 1, 0, NULL, NULL) : -1;
    while (length == -EINTR) {
        length = RAW(SYS_recvfrom, fd, &reply, 1, 0, NULL, NULL);
    }
    if (fd >= 0) {
        RAW(SYS_close, fd);
    }
    return length == 1;
}

static struct run *map_run(const char *path) {
    int fd = (int)RAW(SYS_openat, AT_FDCWD, path, O_RDWR | O_CLOEXEC);
    if (fd == -EACCES || fd == -EPERM) {
        await_end_of_run(path);
    }
    if (fd < 0) {
        return NULL;
    }
    struct run *at = mmap(NULL, sizeof *at, PROT_READ | PROT_WRITE, MAP_SHARED, fd, 0);
    RAW(SYS_close, fd);
    return at == MAP_FAILED || at->magic != RUN_MAGIC ? NULL : at;
}

/* Returns the index of the slot of this process: its slot before execve, the slot that its parent took, or a new slot.
 */
static uint32_t find_slot(void) {
    uint32_t pid = (uint32_t)RAW(SYS_getpid, 0), parent = (uint32_t)RAW(SYS_getppid, 0), found = NOBODY;
    const char *given = getenv(RUN_SLOT);
    if (given) {
        uint32_t index = (uint32_t)atoi(given) % SLOTS;
        return run->slots[index].state == SLOT_BORN ? index : take_slot();
    }
    for (uint32_t i = 0; i < slots_used(); i++) {
        struct slot *slot = &run->slots[i];
        bool is_old = slot->pid == pid && slot->tid && slot->state != SLOT_FREE && slot->state != SLOT_BORN;
        bool has_it = i == turn_owner();
        if (is_old && (found == NOBODY || has_it)) {
            found = i;
        }
    }
    for (uint32_t i = 0; i < slots_used() && found != NOBODY; i++) {
        if (i != found && run->slots[i].pid == pid && run->slots[i].state != SLOT_BORN) {
            free_slot(&run->slots[i]); /* The other threads ended at execve. */
        }
    }
    for (uint32_t i = 0; i < slots_used() && found == NOBODY; i++) {
        struct slot *slot = &run->slots[i];
        if (slot->state == SLOT_BORN && slot->parent && (slot->pid == pid || (!slot->pid && slot->parent == parent))) {
            found = i;
        }
    }
    return found == NOBODY ? take_slot() : found;
}

#define SELF "/proc/self/exe"

static void recognize(void) {
    char path[PATH_MAX];
    long length = RAW(SYS_readlinkat, AT_FDCWD, SELF, path, sizeof path - 1);
    path[length > 0 ? length : 0] = 0;
    const char *name = strrchr(path, '/');
    is_server = name && !strcmp(name, "/canbusd");
#ifdef FOR_BRIDGE
    is_bridge = true;
#endif
}

#ifndef FOR_BRIDGE
/* Ends the run if this process is traced, because the tracer stops the process at its calls while the tracer itself
 * waits for turns. */
static void end_traced(void) {
    char test[TEST_ROOM];
    if (proc_tracer((uint32_t)RAW(SYS_getpid, 0))) {
        tell(true, "%.60s (process %ld) is traced, as by strace or gdb, so it can't be in virtual time%s",
             program_invocation_short_name, RAW(SYS_getpid, 0), tell_test(test));
    }
}

/* Ends the run if this program makes system calls without the C library, because this library does not see such waits.
 * Go programs do so even if they load libraries. */
static void end_bypassing(void) {
    const char *obstacle = is_server ? NULL : program_bypass(SELF);
    char test[TEST_ROOM];
    if (obstacle) {
        tell(true, "%.60s (process %ld) %s, so its waits are not seen%s; start it outside of the run",
             program_invocation_short_name, RAW(SYS_getpid, 0), obstacle, tell_test(test));
    }
}
#endif

__attribute__((constructor(103))) static void start(void) {
    const char *path = getenv(RUN_SETTING);
    struct run *at = path && *path ? map_run(path) : NULL;
    if (!at) {
        return;
    }
    run = at;
    coordinator_pid = atoi(path + sizeof "/proc/" - 1);
    recognize();
#ifndef FOR_BRIDGE
    end_traced();
#endif
    if (!register_process()) {
        char test[TEST_ROOM];
        tell(false, "the coordinator does not reply to %.60s (process %ld)%s", program_invocation_short_name,
             RAW(SYS_getpid, 0), tell_test(test));
        RAW(SYS_exit_group, 125);
    }
    uint32_t index = find_slot();
    run->slots[index].is_foreign = 0;
#ifndef FOR_BRIDGE
    start_signals();
#endif
    begin_slot(index);
#ifndef FOR_BRIDGE
    start_random();
    begin_first_thread();
    timers_find();
    end_bypassing();
#endif
}

/* Adds this process to the run that the environment specifies. The process was forked outside the run, has already
 * loaded this library, and has one thread. Returns 0, or -1 if there is no such run. */
EXPORT int canbusd_virtual_enter(void);
EXPORT int canbusd_virtual_enter(void) {
    if (!run) {
        start();
    }
    return run ? 0 : -1;
}
