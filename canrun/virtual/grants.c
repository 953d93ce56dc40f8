/* The checks of processes before the coordinator signals them: see grants.h. */
#define _GNU_SOURCE
#include "grants.h"
#include "proc.h"
#include "turns.h"

#include <poll.h>
#include <signal.h>
#include <sys/syscall.h>
#include <unistd.h>

static struct grant {
    uint32_t pid, tid; /* pid 0: unused; tid 0: the signal goes to the process */
    int number, fd;
} grants[ALARMS];

int descendant_open(uint32_t pid) {
    int fd = pid ? (int)syscall(SYS_pidfd_open, pid, 0) : -1;
    /* If another process has got this process ID in the meantime, the descriptor does not belong to the process that
     * was checked. */
    if (fd >= 0 && !proc_is_below(pid, (uint32_t)getpid())) {
        close(fd);
        return -1;
    }
    return fd;
}

void descendant_signal(uint32_t pid, int number) {
    int fd = descendant_open(pid);
    if (fd >= 0) {
        syscall(SYS_pidfd_send_signal, fd, number, NULL, 0);
        close(fd);
    }
}

static void forget(struct grant *grant) {
    if (grant->pid) {
        close(grant->fd);
        grant->pid = 0;
    }
}

bool alarm_grant(uint32_t pid, const struct request *request) {
    int fd = request->alarm < ALARMS ? descendant_open(pid) : -1;
    if (fd < 0) {
        return false;
    }
    forget(&grants[request->alarm]);
    grants[request->alarm] = (struct grant){pid, request->tid, request->number, fd};
    return true;
}

static bool has_ended(const struct grant *grant) {
    struct pollfd polled = {grant->fd, POLLIN, 0};
    return poll(&polled, 1, 0) != 0;
}

bool alarm_signal(uint32_t place) {
    const struct alarm *alarm = &run->alarms[place];
    const struct grant *grant = &grants[place];
    siginfo_t info = {.si_signo = grant->number, .si_code = SI_TIMER};
    if (!grant->pid || alarm->pid != grant->pid || has_ended(grant)) {
        return false;
    }
    info.si_value.sival_ptr = (void *)(uintptr_t)alarm->value;
    if (grant->tid) {
        syscall(SYS_rt_tgsigqueueinfo, grant->pid, grant->tid, grant->number, &info);
    } else {
        /* The signal of setitimer has no value. */
        syscall(SYS_pidfd_send_signal, grant->fd, grant->number, alarm->id == INTERVAL_TIMER ? NULL : &info, 0);
    }
    return true;
}

void alarms_forget(uint32_t pid) {
    for (int i = 0; i < ALARMS; i++) {
        if (grants[i].pid == pid) {
            forget(&grants[i]);
        }
    }
}
