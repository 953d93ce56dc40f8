/* Starts a program with a supervisor that makes the program's system calls: see static.h. */
#define _GNU_SOURCE
#include "static.h"

#include <errno.h>
#include <fcntl.h>
#include <linux/audit.h>
#include <linux/filter.h>
#include <linux/sockios.h>
#include <poll.h>
#include <pthread.h>
#include <signal.h>
#include <stddef.h>
#include <stdio.h>
#include <stdlib.h>
#include <string.h>
#include <sys/ioctl.h>
#include <sys/prctl.h>
#include <sys/resource.h>
#include <sys/socket.h>
#include <sys/syscall.h>
#include <sys/wait.h>
#include <unistd.h>

#define STATUS_FAULT 125
/* The stack size of a supervisor thread, which makes one call for the program. */
#define STACK 262144

#ifdef __x86_64__
#define ARCHITECTURE AUDIT_ARCH_X86_64
#elif defined __aarch64__
#define ARCHITECTURE AUDIT_ARCH_AARCH64
#else
#define ARCHITECTURE 0
#endif
/* Some headers are too old to define this flag. With the flag, only a fatal signal ends a call that the supervisor has
 * received. So no frame is written twice, and none is lost because its call was interrupted. */
#ifndef SECCOMP_FILTER_FLAG_WAIT_KILLABLE_RECV
#define SECCOMP_FILTER_FLAG_WAIT_KILLABLE_RECV (1UL << 5)
#endif

static int fault(const char *why) {
    fprintf(stderr, "canbusd-run: --static: %s: %s\n", why, strerror(errno));
    return STATUS_FAULT;
}

/* ---- the filter ---- */

#define LOAD(field) BPF_STMT(BPF_LD | BPF_W | BPF_ABS, offsetof(struct seccomp_data, field))
#define LOAD_WORD(number) BPF_STMT(BPF_LD | BPF_W | BPF_ABS, offsetof(struct seccomp_data, args) + 8 * (number))
#define IS(value, yes, no) BPF_JUMP(BPF_JMP | BPF_JEQ | BPF_K, (value), (yes), (no))
#define IS_FROM(value, yes, no) BPF_JUMP(BPF_JMP | BPF_JGE | BPF_K, (value), (yes), (no))
#define ALLOW BPF_STMT(BPF_RET | BPF_K, SECCOMP_RET_ALLOW)
#define NOTIFY BPF_STMT(BPF_RET | BPF_K, SECCOMP_RET_USER_NOTIF)

/* The calls that go to the supervisor if their file descriptor is STATIC_FIRST or higher. If a read has to wait, the
 * kernel makes the read, and the program gets the frame unchanged. */
static const unsigned CALLS[] = {
    SYS_bind,   SYS_connect, SYS_setsockopt, SYS_getsockopt, SYS_getsockname, SYS_getpeername, SYS_listen,
    SYS_accept, SYS_accept4, SYS_shutdown,   SYS_recvfrom,   SYS_recvmsg,     SYS_sendto,      SYS_sendmsg,
    SYS_write,  SYS_writev,  SYS_read,       SYS_readv,      SYS_dup,         SYS_close,       SYS_fcntl};
/* The ioctl requests about interfaces, which go to the supervisor with any file descriptor. Requests about a socket
 * itself go to the supervisor because of the socket's descriptor. */
static const unsigned REQUESTS[] = {SIOCGIFINDEX,  SIOCGIFNAME,   SIOCGIFMTU, SIOCGIFFLAGS, SIOCGIFHWADDR,
                                    SIOCGIFTXQLEN, SIOCGIFMETRIC, SIOCGIFMAP, SIOCSIFFLAGS};
#define COUNT(list) (sizeof(list) / sizeof *(list))

/* Adds a comparison with each value of a list. If a value is equal, the instructions after the comparisons run;
 * otherwise the first `skipped` of these instructions are skipped. */
static size_t compare(struct sock_filter *code, const unsigned *list, size_t count, unsigned skipped) {
    for (size_t i = 0; i < count; i++) {
        bool is_last = i + 1 == count;
        code[i] =
            (struct sock_filter)IS(list[i], (unsigned char)(count - 1 - i), (unsigned char)(is_last ? skipped : 0));
    }
    return count;
}

/* Installs the filter. Returns the file descriptor for the notifications, or -1 with errno set. */
static int install(void) {
    const struct sock_filter head[] = {LOAD(arch), IS(ARCHITECTURE, 1, 0), ALLOW, LOAD(nr), IS(SYS_socket, 0, 8),
                                       /* The supervisor is notified of a new socket of AF_CAN, or of AF_NETLINK with
                                        * NETLINK_ROUTE, which is 0. */
                                       LOAD_WORD(0), IS(AF_CAN, 0, 1), NOTIFY, IS(AF_NETLINK, 0, 3), LOAD_WORD(2),
                                       IS(0, 0, 1), NOTIFY, ALLOW, IS(SYS_ioctl, 0, COUNT(REQUESTS) + 5), LOAD_WORD(0),
                                       IS_FROM(STATIC_FIRST, COUNT(REQUESTS) + 1, 0), LOAD_WORD(1)};
    struct sock_filter code[COUNT(head) + COUNT(REQUESTS) + COUNT(CALLS) + 8];
    size_t length = COUNT(head);
    memcpy(code, head, sizeof head);
    length += compare(code + length, REQUESTS, COUNT(REQUESTS), 1);
    code[length++] = (struct sock_filter)NOTIFY;
    code[length++] = (struct sock_filter)ALLOW;
    length += compare(code + length, CALLS, COUNT(CALLS), 3);
    code[length++] = (struct sock_filter)LOAD_WORD(0);
    code[length++] = (struct sock_filter)IS_FROM(STATIC_FIRST, 0, 1);
    code[length++] = (struct sock_filter)NOTIFY;
    code[length++] = (struct sock_filter)ALLOW;
    struct sock_fprog program = {(unsigned short)length, code};
    prctl(PR_SET_NO_NEW_PRIVS, 1, 0, 0, 0);
    return (int)syscall(SYS_seccomp, SECCOMP_SET_MODE_FILTER,
                        SECCOMP_FILTER_FLAG_NEW_LISTENER | SECCOMP_FILTER_FLAG_WAIT_KILLABLE_RECV, &program);
}

/* ---- the supervisor ---- */

struct job {
    int listener;
    struct seccomp_notif asked;
};

static void *do_job(void *given) {
    struct job *job = given;
    static_call(job->listener, &job->asked);
    free(job);
    return NULL;
}

/* Called when the program's first process has ended: the library's notes are no longer written to the program's
 * standard error. */
static void leave_output(struct pollfd *program) {
    int null = open("/dev/null", O_RDWR | O_CLOEXEC);
    dup2(null, STDERR_FILENO);
    close(null);
    close(program->fd);
    program->fd = -1;
}

void static_serve(int listener, int program) {
    pthread_attr_t attributes;
    struct pollfd polled[2] = {{listener, POLLIN, 0}, {program, POLLIN, 0}};
    pthread_attr_init(&attributes);
    pthread_attr_setdetachstate(&attributes, PTHREAD_CREATE_DETACHED);
    pthread_attr_setstacksize(&attributes, STACK);
    while (poll(polled, 2, -1) > 0 && !(polled[0].revents & (POLLHUP | POLLERR))) {
        pthread_t thread;
        if (polled[1].revents) {
            leave_output(&polled[1]);
        }
        struct job *job = polled[0].revents ? calloc(1, sizeof *job) : NULL;
        if (!job) {
            continue;
        }
        job->listener = listener;
        if (ioctl(listener, SECCOMP_IOCTL_NOTIF_RECV, &job->asked)) {
            free(job);
        } else if (pthread_create(&thread, &attributes, do_job, job)) {
            do_job(job);
        }
    }
}

/* Detaches the supervisor from the program's file descriptors and session, so that no process waits for the supervisor.
 * Only `kept` and standard error stay open. */
static void leave_program(unsigned kept) {
    int null = open("/dev/null", O_RDWR | O_CLOEXEC);
    dup2(null, STDIN_FILENO);
    dup2(null, STDOUT_FILENO);
    if (kept > STDERR_FILENO + 1) {
        close_range(STDERR_FILENO + 1, kept - 1, 0);
    }
    close_range(kept + 1, ~0U, 0);
    setsid();
    for (int number = 1; number < NSIG; number++) {
        signal(number, SIG_DFL);
    }
    signal(SIGPIPE, SIG_IGN);
    prctl(PR_SET_NAME, "canbusd-static");
    if (chdir("/")) {
        /* If this fails, the program's directory stays in use. */
    }
}

/* ---- passing descriptors between processes ---- */

static bool put(int by, int fd) {
    union {
        char room[CMSG_SPACE(sizeof(int))];
        struct cmsghdr align;
    } control = {.align = {.cmsg_level = SOL_SOCKET, .cmsg_type = SCM_RIGHTS, .cmsg_len = CMSG_LEN(sizeof fd)}};
    struct iovec part = {"", 1};
    struct msghdr message = {
        .msg_iov = &part, .msg_iovlen = 1, .msg_control = &control, .msg_controllen = sizeof control};
    memcpy(CMSG_DATA(&control.align), &fd, sizeof fd);
    return syscall(SYS_sendmsg, by, &message, MSG_NOSIGNAL) == 1;
}

static int take(int by) {
    union {
        char room[CMSG_SPACE(sizeof(int))];
        struct cmsghdr align;
    } control;
    char byte;
    int fd = -1;
    struct iovec part = {&byte, 1};
    struct msghdr message = {
        .msg_iov = &part, .msg_iovlen = 1, .msg_control = &control, .msg_controllen = sizeof control};
    if (recvmsg(by, &message, MSG_CMSG_CLOEXEC) == 1 && CMSG_FIRSTHDR(&message)) {
        memcpy(&fd, CMSG_DATA(CMSG_FIRSTHDR(&message)), sizeof fd);
    }
    return fd;
}

/* Forks a supervisor that is not a child of this process, and receives the supervisor's process ID through the pair. */
static pid_t start_supervisor(const int pair[2]) {
    pid_t number = -1, program = getpid(), child = fork();
    if (child == 0) {
        if (fork() == 0) {
            leave_program((unsigned)pair[1]);
            number = getpid();
            send(pair[1], &number, sizeof number, MSG_NOSIGNAL);
            int listener = take(pair[1]);
            send(pair[1], "", 1, MSG_NOSIGNAL);
            close(pair[1]);
            if (listener >= 0) {
                static_serve(listener, (int)syscall(SYS_pidfd_open, program, 0));
            }
        }
        _exit(0);
    }
    waitpid(child, NULL, 0);
    close(pair[1]);
    return recv(pair[0], &number, sizeof number, 0) == sizeof number ? number : -1;
}

int static_run(const char *path, char **program) {
    struct rlimit limit;
    int pair[2];
    char done;
    if (!getrlimit(RLIMIT_NOFILE, &limit) && limit.rlim_cur < STATIC_PAST) {
        limit.rlim_cur = STATIC_PAST;
        if (setrlimit(RLIMIT_NOFILE, &limit)) {
            return fault("the program may not have descriptors up to 1023 (ulimit -n)");
        }
    }
    if (socketpair(AF_UNIX, SOCK_SEQPACKET | SOCK_CLOEXEC, 0, pair)) {
        return fault("no descriptors");
    }
    pid_t supervisor = start_supervisor(pair);
    if (supervisor < 0) {
        return fault("no process for the supervisor");
    }
    /* Some kernels (Yama) allow only ancestors to read the memory of a process. This call gives the supervisor
     * permission. */
    prctl(PR_SET_PTRACER, supervisor, 0, 0, 0);
    int listener = ARCHITECTURE ? install() : (errno = ENOSYS, -1);
    if (listener < 0) {
        return fault("this kernel or container has no notification of system calls by seccomp, as Linux 5.19 has it");
    }
    if (!put(pair[0], listener) || recv(pair[0], &done, 1, 0) != 1) {
        return fault("the supervisor does not reply");
    }
    close(listener);
    close(pair[0]);
    execv(path, program);
    return -1;
}
