/* Processes: fork and similar calls, waits for children, and the run's descriptor, which programs may not close. */
#define _GNU_SOURCE
#include "calls.h"
#include "tell.h"

#include <pthread.h>
#include <pty.h>
#include <sched.h>
#include <spawn.h>
#include <stdarg.h>
#include <stdlib.h>
#include <sys/resource.h>
#include <sys/wait.h>
#include <unistd.h>

/* ---- fork ---- */

static uint32_t bear(void) {
    uint32_t index;
    regain_turn();
    index = take_slot();
    run->slots[index].parent = my_slot()->pid;
    run->slots[index].state = SLOT_BORN;
    return index;
}

/* All forks by the C library call before_fork, and then in_child in the child. This includes daemon and forkpty. */
static void before_fork(void) {
    my.born = run ? bear() : NOBODY;
}

static void in_child(void) {
    uint32_t index = my.born;
    if (!run) {
        return;
    }
    my = (struct my){.index = index, .has_talked = my.has_talked, .is_asynchronous = my.is_asynchronous};
    descriptors_forget();
    register_process();
    begin_slot(index);
    my.slot->thread = pthread_self();
}

/* Handles the result of the fork in the parent. */
static pid_t after_fork(pid_t pid) {
    if (run && pid > 0) {
        run->slots[my.born].pid = (uint32_t)pid;
    } else if (run && pid < 0) {
        free_slot(&run->slots[my.born]);
    }
    return pid;
}

EXPORT pid_t fork(void) {
    REAL(fork);
    return after_fork(real());
}
ALSO(__fork, fork)

/* Creates a copy, as fork does, instead of a child that shares the memory. The parent continues at once. */
EXPORT pid_t vfork(void) {
    return fork();
}
ALSO(__vfork, vfork)

EXPORT int forkpty(int *terminal, char *name, const struct termios *settings, const struct winsize *size) {
    REAL(forkpty);
    return after_fork(real(terminal, name, settings, size));
}

/* Forks without the handlers that the C library calls for other forks. */
EXPORT pid_t _Fork(void) {
    REAL(_Fork);
    before_fork();
    pid_t pid = real();
    if (pid == 0) {
        in_child();
    }
    return after_fork(pid);
}

pid_t fork_by(long number, const long of[6]) {
    before_fork();
    pid_t pid = (pid_t)raw_call(number, of[0], of[1], of[2], of[3], of[4], of[5]);
    if (pid == 0) {
        in_child();
    }
    return after_fork(pid);
}

struct cloned {
    int (*routine)(void *);
    void *argument;
};

static int begin_cloned(void *given) {
    struct cloned it = *(struct cloned *)given;
    in_child();
    return it.routine(it.argument);
}

/* If the child would share the memory only while its parent waits, the child becomes a copy, as with vfork. */
EXPORT int clone(int (*routine)(void *), void *stack, int flags, void *argument, ...) {
    va_list list;
    va_start(list, argument);
    void *parent = va_arg(list, void *), *locals = va_arg(list, void *), *child = va_arg(list, void *);
    va_end(list);
    REAL(clone);
    if (!run) {
        return real(routine, stack, flags, argument, parent, locals, child);
    }
    if (flags & CLONE_VM && !(flags & CLONE_VFORK)) {
        char test[TEST_ROOM];
        tell(true, "%.60s (process %ld) shares its memory by clone(2), which virtual time does not know%s",
             program_invocation_short_name, RAW(SYS_getpid, 0), tell_test(test));
    }
    struct cloned it = {routine, argument};
    before_fork();
    return after_fork(real(begin_cloned, stack, flags & ~(CLONE_VM | CLONE_VFORK), &it, parent, locals, child));
}
ALSO(__clone, clone)

__attribute__((constructor(102))) static void note_forks(void) {
    pthread_atfork(before_fork, NULL, in_child);
}

/* Stores the process ID of a spawned child in this slot, and returns the result of the spawn. */
static int spawned(uint32_t index, int error, pid_t child, pid_t *pid) {
    if (error) {
        free_slot(&run->slots[index]);
        return error;
    }
    run->slots[index].pid = (uint32_t)child;
    if (pid) {
        *pid = child;
    }
    return 0;
}

EXPORT int posix_spawn(pid_t *restrict pid, const char *restrict path, const posix_spawn_file_actions_t *actions,
                       const posix_spawnattr_t *restrict attributes, char *const words[restrict],
                       char *const settings[restrict]) {
    REAL(posix_spawn);
    if (!run) {
        return real(pid, path, actions, attributes, words, settings);
    }
    pid_t child;
    uint32_t index = bear();
    int error = real(&child, path, actions, attributes, words, settings);
    return spawned(index, error, child, pid);
}

EXPORT int posix_spawnp(pid_t *restrict pid, const char *restrict file, const posix_spawn_file_actions_t *actions,
                        const posix_spawnattr_t *restrict attributes, char *const words[restrict],
                        char *const settings[restrict]) {
    REAL(posix_spawnp);
    if (!run) {
        return real(pid, file, actions, attributes, words, settings);
    }
    pid_t child;
    uint32_t index = bear();
    int error = real(&child, file, actions, attributes, words, settings);
    return spawned(index, error, child, pid);
}

/* For canbusd-run's library when it starts a bridge: canbusd_virtual_bear takes a slot for the bridge, and
 * canbusd_virtual_born stores the bridge's process ID. */
EXPORT uint32_t canbusd_virtual_bear(void);
uint32_t canbusd_virtual_bear(void) {
    return run ? bear() : NOBODY;
}

EXPORT void canbusd_virtual_born(uint32_t index, pid_t pid);
void canbusd_virtual_born(uint32_t index, pid_t pid) {
    if (index == NOBODY) {
        return;
    }
    if (pid <= 0) {
        free_slot(&run->slots[index]);
    } else {
        run->slots[index].pid = (uint32_t)pid;
    }
}

/* ---- waits for children ---- */

/* Repeats wait4 or waitid with WNOHANG, and returns the result. */
long wait_for_child(int number, long first, int *status, int options, void *usage) {
    for (;;) {
        cancel_point();
        long result = RAW(number, first, status, options | WNOHANG, usage);
        if (result || options & WNOHANG) {
            return result;
        }
        if (ends_wait(wait_turn(NEVER, key_of_children(my_slot()->pid), KIND_CHILD))) {
            return -EINTR;
        }
    }
}

EXPORT pid_t wait4(pid_t pid, int *status, int options, struct rusage *usage) {
    return (pid_t)answer(run ? wait_for_child(SYS_wait4, pid, status, options, usage)
                             : RAW(SYS_wait4, pid, status, options, usage));
}

EXPORT pid_t waitpid(pid_t pid, int *status, int options) {
    return wait4(pid, status, options, NULL);
}

ALSO(__waitpid, waitpid)

EXPORT pid_t wait3(int *status, int options, struct rusage *usage) {
    return wait4(-1, status, options, usage);
}

EXPORT pid_t wait(int *status) {
    return wait4(-1, status, 0, NULL);
}

ALSO(__wait, wait)

EXPORT int waitid(idtype_t type, id_t id, siginfo_t *info, int options) {
    siginfo_t room;
    if (!run) {
        return (int)answer(RAW(SYS_waitid, type, id, info, options, NULL));
    }
    info = info ? info : &room;
    for (;;) {
        cancel_point();
        info->si_pid = 0;
        long result = RAW(SYS_waitid, type, id, info, options | WNOHANG, NULL);
        if (result || info->si_pid || options & WNOHANG) {
            return (int)answer(result);
        }
        if (ends_wait(wait_turn(NEVER, key_of_children(my_slot()->pid), KIND_CHILD))) {
            return errno = EINTR, -1;
        }
    }
}

/* Like the C library's function, which waits for the shell inside the kernel; this function does not. */
EXPORT int system(const char *command) {
    REAL(system);
    if (!run || !command) {
        return real(command);
    }
    struct sigaction ignored = {.sa_handler = SIG_IGN}, interrupt, quit;
    sigset_t child, before;
    int status = -1;
    sigaction(SIGINT, &ignored, &interrupt);
    sigaction(SIGQUIT, &ignored, &quit);
    sigemptyset(&child);
    sigaddset(&child, SIGCHLD);
    sigprocmask(SIG_BLOCK, &child, &before);
    pid_t pid = fork();
    if (pid == 0) {
        sigaction(SIGINT, &interrupt, NULL);
        sigaction(SIGQUIT, &quit, NULL);
        sigprocmask(SIG_SETMASK, &before, NULL);
        execl("/bin/sh", "sh", "-c", command, (char *)NULL);
        _exit(127);
    }
    while (pid > 0 && waitpid(pid, &status, 0) < 0 && errno == EINTR) {
    }
    sigaction(SIGINT, &interrupt, NULL);
    sigaction(SIGQUIT, &quit, NULL);
    sigprocmask(SIG_SETMASK, &before, NULL);
    return status;
}

/* ---- the descriptor of the run ---- */

EXPORT int close(int fd) {
    my.has_acted = true;
    cancel_point();
    if (run && fd == run_epoll) {
        return errno = EBADF, -1;
    }
    long result = RAW(SYS_close, fd);
    if (run) {
        timers_closed(fd);
    }
    return (int)answer(result);
}
ALSO(__close, close)

EXPORT int close_range(unsigned first, unsigned last, int flags) {
    unsigned ours = (unsigned)run_epoll;
    if (!run || ours < first || ours > last) {
        return (int)answer(RAW(SYS_close_range, first, last, flags));
    }
    long result = ours > first ? RAW(SYS_close_range, first, ours - 1, flags) : 0;
    return (int)answer(result || ours == last ? result : RAW(SYS_close_range, ours + 1, last, flags));
}

EXPORT void closefrom(int first) {
    close_range((unsigned)(first < 0 ? 0 : first), ~0U, 0);
}
