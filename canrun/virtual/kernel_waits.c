/* Waits that only the kernel can end: for file locks, for System V queues and semaphores, and for a listener whose
 * queue is full. Each call is tried without waiting. If other threads have run in the meantime, it is tried again
 * before the clock moves. */
#define _GNU_SOURCE
#include "calls.h"

#include <fcntl.h>
#include <mqueue.h>
#include <stdarg.h>
#include <sys/file.h>
#include <sys/ipc.h>
#include <sys/msg.h>
#include <sys/sem.h>
#include <unistd.h>

long try_until(long (*call)(void *), void *given, int would_wait, uint64_t deadline, bool restarts) {
    regain_turn();
    for (enum tries tries = TRIES;; tries = TRIES_ON) {
        long result = call(given);
        if (result != -would_wait) {
            return result;
        }
        if (deadline <= run->now) {
            return -ETIMEDOUT;
        }
        my.tries = tries;
        uint32_t flags = wait_turn(deadline, 0, KIND_KERNEL);
        if (flags & IS_CANCELLED) {
            cancel_point();
        }
        if (flags & IS_INTERRUPTED && (my.has_to_return || !restarts)) {
            return -EINTR;
        }
    }
}

/* ---- file locks ---- */

struct lock_of_file {
    int fd, operation;
    void *lock;
};

static long try_flock(void *given) {
    struct lock_of_file *it = given;
    return RAW(SYS_flock, it->fd, it->operation | LOCK_NB);
}

EXPORT int flock(int fd, int operation) {
    struct lock_of_file it = {fd, operation, NULL};
    if (!run || operation & LOCK_NB || operation == LOCK_UN) {
        return (int)answer(RAW(SYS_flock, fd, operation));
    }
    return (int)answer(try_until(try_flock, &it, EWOULDBLOCK, NEVER, true));
}

/* Uses F_SETLK, the form of F_SETLKW that does not wait. */
static long try_lock(void *given) {
    struct lock_of_file *it = given;
    long result = RAW(SYS_fcntl, it->fd, it->operation, it->lock);
    return result == -EACCES ? -EAGAIN : result;
}

static int lock_file(int fd, int operation, void *lock) {
    struct lock_of_file it = {fd, operation == F_OFD_SETLKW ? F_OFD_SETLK : F_SETLK, lock};
    cancel_point();
    return (int)answer(try_until(try_lock, &it, EAGAIN, NEVER, true));
}

EXPORT int fcntl(int fd, int operation, ...) {
    va_list list;
    va_start(list, operation);
    void *third = va_arg(list, void *);
    va_end(list);
    if (run && (operation == F_SETLKW || operation == F_OFD_SETLKW)) {
        return lock_file(fd, operation, third);
    }
    REAL(fcntl);
    return real(fd, operation, third);
}
ALSO(fcntl64, fcntl)
ALSO(__fcntl, fcntl)

EXPORT int lockf(int fd, int operation, off_t length) {
    REAL(lockf);
    struct flock lock = {.l_type = F_WRLCK, .l_whence = SEEK_CUR, .l_len = length};
    return run && operation == F_LOCK ? lock_file(fd, F_SETLKW, &lock) : real(fd, operation, length);
}
ALSO(lockf64, lockf)

/* ---- System V queues and semaphores ---- */

struct message_of_queue {
    int queue, flags;
    void *message;
    size_t length;
    long type;
};

static long try_receive(void *given) {
    struct message_of_queue *it = given;
    return RAW(SYS_msgrcv, it->queue, it->message, it->length, it->type, it->flags | IPC_NOWAIT);
}

static long try_send(void *given) {
    struct message_of_queue *it = given;
    return RAW(SYS_msgsnd, it->queue, it->message, it->length, it->flags | IPC_NOWAIT);
}

EXPORT ssize_t msgrcv(int queue, void *message, size_t length, long type, int flags) {
    struct message_of_queue it = {queue, flags, message, length, type};
    cancel_point();
    if (!run || flags & IPC_NOWAIT) {
        return answer(RAW(SYS_msgrcv, queue, message, length, type, flags));
    }
    return answer(try_until(try_receive, &it, ENOMSG, NEVER, false));
}

EXPORT int msgsnd(int queue, const void *message, size_t length, int flags) {
    struct message_of_queue it = {queue, flags, (void *)message, length, 0};
    cancel_point();
    if (!run || flags & IPC_NOWAIT) {
        return (int)answer(RAW(SYS_msgsnd, queue, message, length, flags));
    }
    return (int)answer(try_until(try_send, &it, EAGAIN, NEVER, false));
}

#define OPERATIONS 500 /* the maximum number of operations in one call: SEMOPM */

struct operations {
    int semaphores;
    size_t count;
    struct sembuf of[OPERATIONS];
};

static long try_operations(void *given) {
    struct operations *it = given;
    return RAW(SYS_semop, it->semaphores, it->of, it->count);
}

EXPORT int semtimedop(int semaphores, struct sembuf *of, size_t count, const struct timespec *t) {
    struct operations it = {semaphores, count, {{0, 0, 0}}};
    bool waits = run && count <= OPERATIONS;
    for (size_t i = 0; i < count && waits; i++) {
        it.of[i] = of[i];
        it.of[i].sem_flg |= IPC_NOWAIT;
        waits = !(of[i].sem_flg & IPC_NOWAIT);
    }
    if (!waits) {
        return (int)answer(RAW(SYS_semtimedop, semaphores, of, count, t));
    }
    if (t && !is_proper(t)) {
        return errno = EINVAL, -1;
    }
    long result = try_until(try_operations, &it, EAGAIN, t ? after(length_of(t)) : NEVER, false);
    return (int)answer(result == -ETIMEDOUT ? -EAGAIN : result);
}

EXPORT int semop(int semaphores, struct sembuf *of, size_t count) {
    return semtimedop(semaphores, of, count, NULL);
}

/* ---- POSIX message queues ---- */

struct message_of_mq {
    mqd_t queue;
    char *data;
    size_t length;
    unsigned *to;
    unsigned priority;
};

/* With a deadline in the past these calls do not wait. */
static long try_mq_receive(void *given) {
    struct message_of_mq *it = given;
    return RAW(SYS_mq_timedreceive, it->queue, it->data, it->length, it->to, &no_time);
}

static long try_mq_send(void *given) {
    struct message_of_mq *it = given;
    return RAW(SYS_mq_timedsend, it->queue, it->data, it->length, it->priority, &no_time);
}

static long mq_until(long (*call)(void *), struct message_of_mq *it, const struct timespec *t) {
    cancel_point();
    return t && !is_proper(t) ? -EINVAL
                              : try_until(call, it, ETIMEDOUT, t ? moment_of(CLOCK_REALTIME, t) : NEVER, true);
}

static ssize_t receive_message(mqd_t queue, char *data, size_t length, unsigned *priority, const struct timespec *t) {
    struct message_of_mq it = {queue, data, length, priority, 0};
    return answer(run ? mq_until(try_mq_receive, &it, t) : RAW(SYS_mq_timedreceive, queue, data, length, priority, t));
}

EXPORT ssize_t mq_timedreceive(mqd_t queue, char *restrict data, size_t length, unsigned *restrict priority,
                               const struct timespec *restrict t) {
    return receive_message(queue, data, length, priority, t);
}

EXPORT ssize_t mq_receive(mqd_t queue, char *data, size_t length, unsigned *priority) {
    return receive_message(queue, data, length, priority, NULL);
}

static int send_message(mqd_t queue, const char *data, size_t length, unsigned priority, const struct timespec *t) {
    struct message_of_mq it = {queue, (char *)data, length, NULL, priority};
    return (int)answer(run ? mq_until(try_mq_send, &it, t) : RAW(SYS_mq_timedsend, queue, data, length, priority, t));
}

EXPORT int mq_timedsend(mqd_t queue, const char *data, size_t length, unsigned priority, const struct timespec *t) {
    return send_message(queue, data, length, priority, t);
}

EXPORT int mq_send(mqd_t queue, const char *data, size_t length, unsigned priority) {
    return send_message(queue, data, length, priority, NULL);
}
