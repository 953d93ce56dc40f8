/* Starts the bridge of a socket so that the program does not notice: no wait call returns the bridge as a child, and
 * the end of the bridge sends no SIGCHLD. */
#define _GNU_SOURCE
#include "../shared/planted.h"
#include "library.h"

#include <dlfcn.h>
#include <errno.h>
#include <fcntl.h>
#include <limits.h>
#include <pthread.h>
#include <sched.h>
#include <signal.h>
#include <stdio.h>
#include <string.h>
#include <sys/mman.h>
#include <sys/syscall.h>
#include <sys/wait.h>
#include <unistd.h>

#define STACK 16384

/* The environment variables that the bridge uses. */
static const char *const SETTINGS[] = {
    "CANBUSD_ADDRESS", "CANBUSD_INTERFACES", "CANBUSD_RUN_WAIT", "CANBUSD_RUN_VIRTUAL", PLANTED_SETTING,
#ifdef __SANITIZE_ADDRESS__
    "ASAN_OPTIONS",    "UBSAN_OPTIONS",
#endif
};
#define SETTING_COUNT (sizeof SETTINGS / sizeof *SETTINGS)

/* Runs a function on the given stack, in a copy of the process that shares its memory, while the caller waits. Returns
 * the process ID of the copy, or a negative errno. It does not use the C library's clone, which the thread sanitizer
 * would treat as a fork. */
#ifdef __x86_64__
static long copy_process(int (*function)(void *), void *stack, void *argument) {
    long result;
    register long none asm("r10") = 0, no_tls asm("r8") = 0;
    register void *given asm("r9") = argument;
    asm volatile("syscall\n\t"
                 "test %%rax, %%rax\n\t"
                 "jnz 1f\n\t"
                 "xor %%ebp, %%ebp\n\t"
                 "mov %%r9, %%rdi\n\t"
                 "call *%%rbx\n\t"
                 "1:"
                 : "=a"(result)
                 : "0"((long)SYS_clone), "D"((long)(CLONE_VM | CLONE_VFORK)), "S"(stack), "d"(0L), "r"(none),
                   "r"(no_tls), "r"(given), "b"(function)
                 : "rcx", "r11", "memory");
    return result;
}
#else
static long copy_process(int (*function)(void *), void *stack, void *argument) {
    int result = clone(function, stack, CLONE_VM | CLONE_VFORK, argument);
    return result < 0 ? -errno : result;
}
#endif

/* The data for starting a bridge. It is not on the stack, because the thread of the program may have a small stack. */
struct start {
    int end, memory, failed;
    pid_t bridge;
    char program[PATH_MAX];
    char slot[40]; /* the setting with the bridge's slot in a run of virtual time */
    char *environment[SETTING_COUNT + 2];
    char stacks[2][STACK] __attribute__((aligned(16)));
};

/* For functions that do not return and so never free their stack frame. Without this attribute the address sanitizer
 * would always treat the frame's memory as a stack, even when it is used for other data. */
#define NO_RETURN __attribute__((no_sanitize("address")))

/* Moves a file descriptor to this number, and keeps it open across execve. */
static void put_at(long fd, long number) {
    if (fd == number) {
        syscall(SYS_fcntl, fd, F_SETFD, 0L);
    } else {
        syscall(SYS_dup2, fd, number);
    }
}

/* become_bridge and leave_child run in copies of the process that share its memory. The caller waits for the copy that
 * runs leave_child, and that copy waits for the one that runs become_bridge. leave_child executes no program, and
 * `clone` requests no signal, so the end of leave_child sends no signal. The bridge is a child of the copy that runs
 * leave_child, so after the end of that copy it no longer belongs to this process. A direct child would send SIGCHLD
 * when it exits, because execve restores that signal. */
NO_RETURN static int become_bridge(void *argument) {
    struct start *start = argument;
    char *words[] = {"canbusd-bridge", NULL};
    long memory = start->memory;
    if (memory == WIRE_PROGRAM) {
        memory = syscall(SYS_fcntl, memory, F_DUPFD, WIRE_MEMORY + 1L); /* WIRE_PROGRAM is needed for `end`. */
    }
    put_at(start->end, WIRE_PROGRAM);
    put_at(memory, WIRE_MEMORY);
    syscall(SYS_close_range, WIRE_MEMORY + 1L, (long)~0U, 0L);
    syscall(SYS_execve, start->program, words, start->environment);
    start->failed = errno;
    syscall(SYS_exit, 127);
    return 0;
}

NO_RETURN static int leave_child(void *argument) {
    struct start *start = argument;
    long child = copy_process(become_bridge, start->stacks[0] + STACK, start);
    if (child < 0) {
        start->failed = (int)-child;
    } else {
        start->bridge = (pid_t)child;
    }
    syscall(SYS_exit, 0);
    return 0;
}

/* Finds the program of the bridge, which is in the same directory as this library. */
static int find_bridge(char path[PATH_MAX]) {
    Dl_info library;
    if (!dladdr((void *)(size_t)find_bridge, &library) || !library.dli_fname) {
        return ENOENT;
    }
    const char *slash = strrchr(library.dli_fname, '/');
    int folder = slash ? (int)(slash + 1 - library.dli_fname) : 0;
    int length = snprintf(path, PATH_MAX, "%.*scanbusd-bridge", folder, library.dli_fname);
    return length < PATH_MAX ? 0 : ENAMETOOLONG;
}

/* Returns the entry NAME=VALUE of the environment, or NULL if there is no such variable. */
static char *setting(const char *name) {
    const size_t length = strlen(name);
    for (char **at = environ; at && *at; at++) {
        if (!strncmp(*at, name, length) && (*at)[length] == '=') {
            return *at;
        }
    }
    return NULL;
}

/* Copies of the settings from the start of the program. They are kept because a program may clear its environment. */
static char *settings_before[SETTING_COUNT];

__attribute__((constructor)) static void keep_settings(void) {
    for (size_t i = 0; i < SETTING_COUNT; i++) {
        char *now = setting(SETTINGS[i]);
        settings_before[i] = now ? strdup(now) : NULL;
    }
}

/* In virtual time (canrun/virtual) a bridge counts as a thread of the run. The virtual time library registers the
 * bridge. */
extern uint32_t canbusd_virtual_bear(void) __attribute__((weak));
extern void canbusd_virtual_born(uint32_t slot, pid_t pid) __attribute__((weak));

static void gather(char *environment[SETTING_COUNT + 2], char *slot) {
    size_t count = 0;
    for (size_t i = 0; i < SETTING_COUNT; i++) {
        char *now = setting(SETTINGS[i]);
        environment[count] = now ? now : settings_before[i];
        count += environment[count] != NULL;
    }
    environment[count] = slot;
    environment[count + !!slot] = NULL;
}

static int start_by(struct start *start) {
    sigset_t all, before;
    int error = find_bridge(start->program);
    if (error) {
        return error;
    }
    bool is_virtual = canbusd_virtual_bear && canbusd_virtual_born && setting("CANBUSD_RUN_VIRTUAL");
    uint32_t slot = is_virtual ? canbusd_virtual_bear() : 0;
    snprintf(start->slot, sizeof start->slot, "CANBUSD_RUN_SLOT=%u", slot);
    gather(start->environment, is_virtual ? start->slot : NULL);
    /* The program's signal handlers must not run in a copy of the process. */
    sigfillset(&all);
    pthread_sigmask(SIG_BLOCK, &all, &before);
    long child = copy_process(leave_child, start->stacks[1] + STACK, start);
    if (child < 0) {
        start->failed = (int)-child;
    } else {
        while (syscall(SYS_wait4, child, NULL, __WCLONE, NULL) < 0 && errno == EINTR) {
        }
    }
    if (is_virtual) {
        canbusd_virtual_born(slot, start->failed ? 0 : start->bridge);
    }
    pthread_sigmask(SIG_SETMASK, &before, NULL);
    return start->failed;
}

int start_bridge(int end, int memory) {
    struct start *start = mmap(NULL, sizeof *start, PROT_READ | PROT_WRITE, MAP_PRIVATE | MAP_ANONYMOUS, -1, 0);
    if (start == MAP_FAILED) {
        return ENOMEM;
    }
    start->end = end;
    start->memory = memory;
    int error = start_by(start);
    munmap(start, sizeof *start);
    return error;
}
