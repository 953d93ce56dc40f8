/* syscall(2): calls by number, as in the server and in Rust's standard library. A call that waits or reads a clock is
 * passed to the library's function with the same name. */
#define _GNU_SOURCE
#include "calls.h"
#include "tell.h"

#include <fcntl.h>
#include <linux/futex.h>
#include <mqueue.h>
#include <sched.h>
#include <stdarg.h>
#include <stdio.h>
#include <stdlib.h>
#include <sys/epoll.h>
#include <sys/file.h>
#include <sys/mman.h>
#include <sys/msg.h>
#include <sys/random.h>
#include <sys/select.h>
#include <sys/sem.h>
#include <sys/sendfile.h>
#include <sys/shm.h>
#include <sys/signalfd.h>
#include <sys/socket.h>
#include <sys/sysinfo.h>
#include <sys/time.h>
#include <sys/timerfd.h>
#include <sys/times.h>
#include <sys/timex.h>
#include <sys/uio.h>
#include <sys/wait.h>
#include <unistd.h>

/* The numbers of futex calls whose waits this library does not see. */
#ifndef SYS_futex_waitv
#define SYS_futex_waitv 449
#endif
#define SYS_FUTEX_WAKE2 454
#define SYS_FUTEX_WAIT2 455
#define SYS_FUTEX_REQUEUE2 456

/* Ends the run, because the call is unknown to this library and may wait. */
static long refuse(long number) {
    char test[TEST_ROOM];
    tell(true, "%.60s (thread %ld of process %ld) makes system call %ld, which virtual time does not know%s",
         program_invocation_short_name, RAW(SYS_gettid, 0), RAW(SYS_getpid, 0), number, tell_test(test));
    return errno = ENOSYS, -1;
}

/* Refuses io_uring as a kernel without io_uring does, because this library does not see its waits. Reports this once.
 */
static long refuse_io_uring(void) {
    static _Atomic bool is_said;
    char test[TEST_ROOM];
    if (!is_said) {
        is_said = true;
        tell(false, "%.60s (process %ld) is refused io_uring, as by a kernel without it%s",
             program_invocation_short_name, RAW(SYS_getpid, 0), tell_test(test));
    }
    return errno = ENOSYS, -1;
}

#define P(i) ((void *)of[i])
#define INT(i) ((int)of[i])
/* The signal mask of a wait. The last argument of pselect6 points to the mask and its size. */
#define MASK_OF(i) (of[i] ? *(const sigset_t **)of[i] : NULL)

static long call_of_time(long number, const long of[6], bool *is_known) {
    switch (number) {
    case SYS_futex: return answer(futex(of[0], of[1], of[2], of[3], of[4], of[5]));
    case SYS_clock_gettime: return clock_gettime((clockid_t)of[0], P(1));
    case SYS_clock_settime: return clock_settime((clockid_t)of[0], P(1));
    case SYS_gettimeofday: return gettimeofday(P(0), NULL);
    case SYS_settimeofday: return settimeofday(P(0), P(1));
    case SYS_adjtimex: return adjtimex(P(0));
    case SYS_clock_adjtime: return clock_adjtime((clockid_t)of[0], P(1));
    case SYS_sysinfo: return sysinfo(P(0));
    case SYS_time: return time(P(0));
    case SYS_times: return times(P(0));
    case SYS_nanosleep: return nanosleep(P(0), P(1));
    case SYS_clock_nanosleep: return answer(-clock_nanosleep((clockid_t)of[0], INT(1), P(2), P(3)));
    case SYS_alarm: return alarm((unsigned)of[0]);
    case SYS_setitimer: return setitimer(INT(0), P(1), P(2));
    case SYS_getitimer: return getitimer(INT(0), P(1));
    case SYS_timerfd_create: return timerfd_create(INT(0), INT(1));
    case SYS_timerfd_settime: return timerfd_settime(INT(0), INT(1), P(2), P(3));
    case SYS_timerfd_gettime: return timerfd_gettime(INT(0), P(1));
    case SYS_sched_yield: return sched_yield();
    default: return *is_known = false;
    }
}

/* The kernel identifies timers by numbers, the C library by pointers. */
static long call_of_timer(long number, const long of[6], bool *is_known) {
    timer_t timer = (timer_t)(uintptr_t)(uint32_t)of[0], made;
    switch (number) {
    case SYS_timer_create: {
        int result = timer_create(INT(0), P(1), &made);
        *(int *)of[2] = result ? *(int *)of[2] : (int)(uintptr_t)made;
        return result;
    }
    case SYS_timer_settime: return timer_settime(timer, INT(1), P(2), P(3));
    case SYS_timer_gettime: return timer_gettime(timer, P(1));
    case SYS_timer_getoverrun: return timer_getoverrun(timer);
    case SYS_timer_delete: return timer_delete(timer);
    default: return *is_known = false;
    }
}

static long call_of_many(long number, const long of[6], bool *is_known) {
    struct timespec left = no_time;
    switch (number) {
    case SYS_poll: return poll(P(0), (nfds_t)of[1], INT(2));
    case SYS_ppoll: return ppoll(P(0), (nfds_t)of[1], P(2), P(3));
    case SYS_select: return select(INT(0), P(1), P(2), P(3), P(4));
    case SYS_pselect6:
        left = of[4] ? *(struct timespec *)of[4] : left;
        return pselect(INT(0), P(1), P(2), P(3), of[4] ? &left : NULL, MASK_OF(5));
    case SYS_epoll_ctl: return epoll_ctl(INT(0), INT(1), INT(2), P(3));
    case SYS_epoll_wait: return epoll_wait(INT(0), P(1), INT(2), INT(3));
    case SYS_epoll_pwait: return epoll_pwait(INT(0), P(1), INT(2), INT(3), P(4));
    case SYS_epoll_pwait2: return epoll_pwait2(INT(0), P(1), INT(2), P(3), P(4));
    case SYS_signalfd: return signalfd(INT(0), P(1), 0);
    case SYS_signalfd4: return signalfd(INT(0), P(1), INT(3));
    default: return *is_known = false;
    }
}

static long call_of_data(long number, const long of[6], bool *is_known) {
    switch (number) {
    case SYS_read: return read(INT(0), P(1), (size_t)of[2]);
    case SYS_readv: return readv(INT(0), P(1), INT(2));
    case SYS_preadv2: return preadv2(INT(0), P(1), INT(2), of[3], INT(5));
    case SYS_write: return write(INT(0), P(1), (size_t)of[2]);
    case SYS_writev: return writev(INT(0), P(1), INT(2));
    case SYS_pwritev2: return pwritev2(INT(0), P(1), INT(2), of[3], INT(5));
    case SYS_recvfrom: return recvfrom(INT(0), P(1), (size_t)of[2], INT(3), P(4), P(5));
    case SYS_recvmsg: return recvmsg(INT(0), P(1), INT(2));
    case SYS_recvmmsg: return recvmmsg(INT(0), P(1), (unsigned)of[2], INT(3), P(4));
    case SYS_sendto: return sendto(INT(0), P(1), (size_t)of[2], INT(3), P(4), (socklen_t)of[5]);
    case SYS_sendmsg: return sendmsg(INT(0), P(1), INT(2));
    case SYS_sendmmsg: return sendmmsg(INT(0), P(1), (unsigned)of[2], INT(3));
    case SYS_accept: return accept(INT(0), P(1), P(2));
    case SYS_accept4: return accept4(INT(0), P(1), P(2), INT(3));
    case SYS_connect: return connect(INT(0), P(1), (socklen_t)of[2]);
    case SYS_listen: return listen(INT(0), INT(1));
    case SYS_splice: return splice(INT(0), P(1), INT(2), P(3), (size_t)of[4], (unsigned)of[5]);
    case SYS_tee: return tee(INT(0), INT(1), (size_t)of[2], (unsigned)of[3]);
    case SYS_vmsplice: return vmsplice(INT(0), P(1), (size_t)of[2], (unsigned)of[3]);
    case SYS_sendfile: return sendfile(INT(0), INT(1), P(2), (size_t)of[3]);
    case SYS_close: return close(INT(0));
    case SYS_close_range: return close_range((unsigned)of[0], (unsigned)of[1], INT(2));
    case SYS_open: return open(P(0), INT(1), (mode_t)of[2]);
    case SYS_openat: return openat(INT(0), P(1), INT(2), (mode_t)of[3]);
    case SYS_getrandom: return getrandom(P(0), (size_t)of[1], (unsigned)of[2]);
    case SYS_munmap: return munmap(P(0), (size_t)of[1]);
    default: return *is_known = false;
    }
}

static long call_of_kernel(long number, const long of[6], bool *is_known) {
    switch (number) {
    case SYS_flock: return flock(INT(0), INT(1));
    case SYS_fcntl: return fcntl(INT(0), INT(1), of[2]);
    case SYS_msgrcv: return msgrcv(INT(0), P(1), (size_t)of[2], of[3], INT(4));
    case SYS_msgsnd: return msgsnd(INT(0), P(1), (size_t)of[2], INT(3));
    case SYS_semop: return semop(INT(0), P(1), (size_t)of[2]);
    case SYS_semtimedop: return semtimedop(INT(0), P(1), (size_t)of[2], P(3));
    case SYS_mq_timedreceive: return mq_timedreceive(INT(0), P(1), (size_t)of[2], P(3), P(4));
    case SYS_mq_timedsend: return mq_timedsend(INT(0), P(1), (size_t)of[2], (unsigned)of[3], P(4));
    case SYS_io_uring_setup: return refuse_io_uring();
    case SYS_futex_waitv:
    case SYS_FUTEX_WAKE2:
    case SYS_FUTEX_WAIT2:
    case SYS_FUTEX_REQUEUE2:
    case SYS_io_getevents: return refuse(number);
    default: return *is_known = false;
    }
}

static long call_of_process(long number, const long of[6], bool *is_known) {
    switch (number) {
    case SYS_wait4:
        if (of[2] & __WCLONE) {
            return answer(RAW(SYS_wait4, of[0], of[1], of[2], of[3])); /* A helper of canbusd-run that ends now. */
        }
        return wait4((pid_t)of[0], P(1), INT(2), P(3));
    case SYS_waitid: return waitid((idtype_t)of[0], (id_t)of[1], P(2), INT(3));
    case SYS_fork: return answer(fork_by(number, of));
    case SYS_vfork: return answer(fork_by(SYS_fork, of));
    case SYS_clone: return of[0] & CLONE_VM ? refuse(number) : answer(fork_by(number, of));
    case SYS_pause: return pause();
    case SYS_rt_sigsuspend: return sigsuspend(P(0));
    case SYS_rt_sigtimedwait: return sigtimedwait(P(0), P(1), P(2));
    case SYS_kill: return kill((pid_t)of[0], INT(1));
    case SYS_tgkill: return tgkill((pid_t)of[0], (pid_t)of[1], INT(2));
    case SYS_rt_sigqueueinfo: {
        long result = RAW(number, of[0], of[1], of[2]);
        if (!result && of[1]) {
            signal_sent((pid_t)of[0], INT(1));
        }
        return answer(result);
    }
    default: return *is_known = false;
    }
}

EXPORT long syscall(long number, ...) {
    static long (*const calls[])(long, const long *, bool *) = {call_of_time,  call_of_data,   call_of_many,
                                                                call_of_timer, call_of_kernel, call_of_process};
    va_list list;
    long of[6];
    va_start(list, number);
    for (int i = 0; i < 6; i++) {
        of[i] = va_arg(list, long);
    }
    va_end(list);
    my.has_acted |= number != SYS_futex && number != SYS_clock_gettime;
    for (size_t i = 0; run && i < sizeof calls / sizeof *calls; i++) {
        bool is_known = true;
        long result = calls[i](number, of, &is_known);
        if (is_known) {
            return result;
        }
    }
    return answer(raw_call(number, of[0], of[1], of[2], of[3], of[4], of[5]));
}
