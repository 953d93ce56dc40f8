/* Makes a system call for a program that does not load the library: see static.h. It calls the library's functions; the
 * library is loaded into this process. */
#define _GNU_SOURCE
#include "supervise.h"

#include "static.h"

#include <errno.h>
#include <fcntl.h>
#include <linux/can.h>
#include <linux/filter.h>
#include <linux/sockios.h>
#include <net/if.h>
#include <poll.h>
#include <pthread.h>
#include <stdio.h>
#include <stdlib.h>
#include <sys/ioctl.h>
#include <sys/param.h>
#include <sys/socket.h>
#include <sys/syscall.h>
#include <time.h>
#include <unistd.h>

/* The maximum size of an option's value. */
#define OPTION 8192
/* How many seconds a close waits until the socket's message has been sent. */
#define CLOSE_TIME 60

/* ---- sockets ---- */

/* Closes a copy of a file descriptor without waiting. The library's close could wait until a message has been sent. */
static void drop(int fd) {
    close_range((unsigned)fd, (unsigned)fd, 0);
}

static pthread_mutex_t places = PTHREAD_MUTEX_INITIALIZER;

/* Installs a socket at a free file descriptor of the program, from STATIC_FIRST up to but not including STATIC_PAST.
 * The program's call returns this descriptor. Returns 0, or a negative errno. */
static int put_socket(const struct call *call, int fd, bool is_cloexec) {
    char path[64], target[8];
    for (uint32_t at = STATIC_FIRST; at < STATIC_PAST; at++) {
        snprintf(path, sizeof path, "/proc/%d/fd/%u", call->thread, at);
        if (readlink(path, target, sizeof target) >= 0) {
            continue;
        }
        struct seccomp_notif_addfd add = {.id = call->asked->id,
                                          .srcfd = (uint32_t)fd,
                                          .newfd = at,
                                          .flags = SECCOMP_ADDFD_FLAG_SETFD | SECCOMP_ADDFD_FLAG_SEND,
                                          .newfd_flags = is_cloexec ? O_CLOEXEC : 0};
        return ioctl(call->listener, SECCOMP_IOCTL_NOTIF_ADDFD, &add) < 0 ? -errno : 0;
    }
    return -EMFILE;
}

/* Passes a socket to the program together with the reply, and closes the socket here. */
static void hand_over(const struct call *call, int fd, bool is_cloexec) {
    pthread_mutex_lock(&places);
    int error = put_socket(call, fd, is_cloexec);
    pthread_mutex_unlock(&places);
    drop(fd);
    if (error) {
        reply(call, error, 0);
    }
}

/* Prints once that --static does not support CAN_J1939. The errors and the close of such a socket require the library
 * in the program. */
static void note_no_j1939(void) {
    static bool is_said;
    if (!__atomic_exchange_n(&is_said, true, __ATOMIC_RELAXED)) {
        fprintf(stderr, "canbusd-run: --static has no CAN_J1939\n");
    }
}

static void make_socket(const struct call *call) {
    int type = (int)call->words[1];
    if ((int)call->words[0] == PF_CAN && (int)call->words[2] == CAN_J1939) {
        note_no_j1939();
        reply(call, -EPROTONOSUPPORT, 0);
        return;
    }
    int fd = socket((int)call->words[0], type | SOCK_CLOEXEC, (int)call->words[2]);
    if (fd < 0) {
        reply(call, -errno, 0);
    } else {
        hand_over(call, fd, type & SOCK_CLOEXEC);
    }
}

/* Returns whether the call duplicates the file descriptor. The duplicate must be in the range for sockets too. */
static bool is_copying(const struct call *call) {
    int number = call->asked->data.nr;
    return number == SYS_dup ||
           (number == SYS_fcntl && (call->words[1] == F_DUPFD || call->words[1] == F_DUPFD_CLOEXEC));
}

/* Returns whether a file descriptor is a socket that the library handles. The program may have other files in the range
 * for sockets. */
static bool is_ours(int fd, bool *is_can) {
    int domain = 0;
    getsockopt(fd, SOL_SOCKET, SO_DOMAIN, &domain, &(socklen_t){sizeof domain});
    *is_can = domain == AF_CAN;
    return *is_can || domain == AF_NETLINK;
}

/* ---- addresses, options and requests ---- */

static int64_t set_address(const struct call *call) {
    struct sockaddr_storage address = {0};
    uint32_t length = (uint32_t)call->words[2];
    if (length > sizeof address) {
        return -EINVAL;
    }
    if (!take(call, &address, call->words[1], length)) {
        return -EFAULT;
    }
    int (*make)(int, const struct sockaddr *, socklen_t) = call->asked->data.nr == SYS_bind ? bind : connect;
    return result(make(call->fd, (struct sockaddr *)&address, length));
}

static int64_t get_address(const struct call *call) {
    struct sockaddr_storage address;
    socklen_t room, length = sizeof address;
    if (!take(call, &room, call->words[2], sizeof room)) {
        return -EFAULT;
    }
    if ((int)room < 0) {
        return -EINVAL;
    }
    int (*ask)(int, struct sockaddr *, socklen_t *) =
        call->asked->data.nr == SYS_getsockname ? getsockname : getpeername;
    if (ask(call->fd, (struct sockaddr *)&address, &length)) {
        return -errno;
    }
    return give(call, call->words[1], &address, MIN(room, length)) && give(call, call->words[2], &length, sizeof length)
               ? 0
               : -EFAULT;
}

/* Attaches a packet filter whose code is in the program's memory. */
static int64_t attach_filter(const struct call *call) {
    struct sock_fprog program;
    struct sock_filter *code = malloc(BPF_MAXINSNS * sizeof *code);
    int64_t value = -EFAULT;
    if (code && take(call, &program, call->words[3], sizeof program) && program.len <= BPF_MAXINSNS &&
        take(call, code, (uintptr_t)program.filter, program.len * sizeof *code)) {
        program.filter = code;
        value = result(setsockopt(call->fd, SOL_SOCKET, SO_ATTACH_FILTER, &program, sizeof program));
    }
    free(code);
    return value;
}

static int64_t set_option(const struct call *call) {
    char value[OPTION];
    uint32_t length = (uint32_t)call->words[4];
    if (length > sizeof value) {
        return -EINVAL;
    }
    if (call->words[1] == SOL_SOCKET && call->words[2] == SO_ATTACH_FILTER && length == sizeof(struct sock_fprog)) {
        return attach_filter(call);
    }
    return take(call, value, call->words[3], length)
               ? result(setsockopt(call->fd, (int)call->words[1], (int)call->words[2], value, length))
               : -EFAULT;
}

static int64_t get_option(const struct call *call) {
    char value[OPTION];
    socklen_t room;
    if (!take(call, &room, call->words[4], sizeof room)) {
        return -EFAULT;
    }
    if ((int)room < 0) {
        return -EINVAL;
    }
    socklen_t length = MIN(room, sizeof value);
    int failed = getsockopt(call->fd, (int)call->words[1], (int)call->words[2], value, &length), error = errno;
    if (failed && error != ERANGE) {
        return -error;
    }
    bool is_given = failed || give(call, call->words[3], value, MIN(room, length));
    return is_given && give(call, call->words[4], &length, sizeof length) ? (failed ? -error : 0) : -EFAULT;
}

static bool is_of_moment(const struct call *call) {
    return call->words[1] == SIOCGSTAMP_OLD || call->words[1] == SIOCGSTAMPNS_OLD;
}

static int64_t do_request(const struct call *call) {
    struct ifreq request; /* The struct has room for a timestamp or a number. */
    bool is_of_interface = !is_of_moment(call) && call->words[1] >> 8 == 0x89 && call->words[1] != SIOCATMARK;
    size_t length = is_of_interface ? sizeof request : is_of_moment(call) ? sizeof(struct timespec) : sizeof(int);
    if (is_of_interface && !take(call, &request, call->words[2], length)) {
        return -EFAULT;
    }
    int64_t value = result(ioctl(call->fd, call->words[1], &request));
    return value < 0 || give(call, call->words[2], &request, length) ? value : -EFAULT;
}

/* Returns whether the library handles this ioctl request. The kernel handles all other requests. */
static bool is_of_socket(const struct call *call, bool is_can) {
    unsigned request = (unsigned)call->words[1];
    return (request >> 8 == 0x89 && request != SIOCATMARK && request != SIOCGPGRP && request != SIOCSPGRP &&
            (is_can || !is_of_moment(call))) ||
           (is_can && (request == FIONREAD || request == TIOCOUTQ || request == SIOCATMARK));
}

/* ---- one call ---- */

/* Returns whether the kernel can make the call. This is so for a CAN_RAW read that has to wait and returns only the
 * bytes of a frame. With other protocols an error may arrive instead of a message. */
static bool is_plain_wait(const struct call *call) {
    int number = call->asked->data.nr, type = 0;
    struct pollfd polled = {call->fd, POLLIN, 0};
    getsockopt(call->fd, SOL_SOCKET, SO_TYPE, &type, &(socklen_t){sizeof type});
    return (number == SYS_read || number == SYS_readv ||
            (number == SYS_recvfrom && !call->words[4] && !((int)call->words[3] & ~MSG_DONTWAIT))) &&
           type == SOCK_RAW && poll(&polled, 1, 0) == 0;
}

/* A library function that sets the process for which this thread makes calls. */
__attribute__((weak)) void canbusd_run_serves(pid_t process);

static int64_t make_call(const struct call *call) {
    if (canbusd_run_serves) {
        canbusd_run_serves(call->process);
    }
    switch (call->asked->data.nr) {
    case SYS_bind:
    case SYS_connect: return set_address(call);
    case SYS_getsockname:
    case SYS_getpeername: return get_address(call);
    case SYS_setsockopt: return set_option(call);
    case SYS_getsockopt: return get_option(call);
    case SYS_ioctl: return do_request(call);
    case SYS_listen: return result(listen(call->fd, (int)call->words[1]));
    case SYS_shutdown: return result(shutdown(call->fd, (int)call->words[1]));
    case SYS_accept: return result(accept(call->fd, NULL, NULL));
    case SYS_accept4: return result(accept4(call->fd, NULL, NULL, (int)call->words[3]));
    case SYS_read:
    case SYS_readv:
    case SYS_recvfrom:
    case SYS_recvmsg: return carry_message(call, false);
    default: return carry_message(call, true);
    }
}

/* Prints once that this process is not allowed to read the program's memory. */
static void note_no_access(void) {
    static bool is_said;
    if (!__atomic_exchange_n(&is_said, true, __ATOMIC_RELAXED)) {
        fprintf(stderr, "canbusd-run: --static: this kernel or container lets no process look into another that is not "
                        "its descendant (kernel.yama.ptrace_scope)\n");
    }
}

/* Returns whether this process makes the call. If not, the kernel makes it. */
static bool is_wanted(const struct call *call, bool is_known, bool is_can) {
    int number = call->asked->data.nr;
    return number == SYS_ioctl   ? is_of_socket(call, is_can)
           : number == SYS_close ? false
           : number == SYS_fcntl ? false
                                 : is_known && !(is_can && is_plain_wait(call));
}

/* Makes a call on a file descriptor, or lets the kernel make it. */
static void call_of_descriptor(struct call *call) {
    int number = call->asked->data.nr;
    bool is_can = false;
    int64_t value = 0;
    call->process = process_of(call->thread);
    call->fd = copy_descriptor(call->process, (int)call->words[0]);
    if (call->fd < 0) {
        if (errno == EPERM) {
            note_no_access();
        }
        reply(call, -errno, 0);
        return;
    }
    bool is_known = is_ours(call->fd, &is_can);
    if (is_known && is_copying(call)) {
        hand_over(call, call->fd, number == SYS_fcntl && call->words[1] == F_DUPFD_CLOEXEC);
        return;
    }
    bool is_here = is_wanted(call, is_known, is_can);
    if (is_here) {
        value = make_call(call);
    } else if (number == SYS_close && is_can) {
        wait_for(call, POLLOUT, &(struct timeval){CLOSE_TIME, 0}); /* The socket's message is sent before the close. */
    }
    drop(call->fd);
    if (is_here) {
        reply(call, value, 0);
    } else {
        let_go_on(call);
    }
}

void static_call(int listener, const struct seccomp_notif *asked) {
    struct call call = {
        .listener = listener, .asked = asked, .thread = (pid_t)asked->pid, .fd = -1, .words = asked->data.args};
    if (has_library(call.thread)) {
        let_go_on(&call);
    } else if (asked->data.nr == SYS_socket) {
        make_socket(&call);
    } else {
        call_of_descriptor(&call);
    }
}
