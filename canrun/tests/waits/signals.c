/* Signals: calls that they interrupt, and calls that are restarted. */
#include "waits.h"

#include <mqueue.h>
#include <pthread.h>
#include <semaphore.h>
#include <sys/file.h>
#include <sys/msg.h>
#include <sys/sem.h>
#include <sys/socket.h>
#include <sys/stat.h>
#include <sys/uio.h>
#include <sys/wait.h>

static char byte;

static void read_with(int flags, bool comes) {
    int ends[2];
    make_pipe(ends);
    begin();
    alarm_in(SOON, flags);
    if (comes) {
        later(2 * SOON, write_byte, (void *)(intptr_t)ends[1]);
    }
    end(read(ends[0], &byte, 1));
    note("%d", (int)alarms);
}

static void signals_read(void) {
    read_with(0, false);
}

static void signals_read_restarts(void) {
    read_with(SA_RESTART, true);
}

static void signals_readv(void) {
    int ends[2];
    struct iovec part = {&byte, 1};
    make_pipe(ends);
    begin();
    alarm_in(SOON, 0);
    end(readv(ends[0], &part, 1));
}

static void signals_write_full(void) {
    static char data[65536];
    int ends[2];
    make_pipe(ends);
    CHECK(write(ends[1], data, sizeof data) == sizeof data);
    begin();
    alarm_in(SOON, 0);
    end(write(ends[1], data, 1));
}

static void signals_write_partly(void) {
    static char data[100000];
    int ends[2];
    make_pipe(ends);
    begin();
    alarm_in(SOON, 0);
    end(write(ends[1], data, sizeof data));
}

static void pair(int ends[2], int type) {
    CHECK(!socketpair(AF_UNIX, type, 0, ends));
}

static void signals_recv(void) {
    int ends[2];
    pair(ends, SOCK_STREAM);
    begin();
    alarm_in(SOON, 0);
    end(recv(ends[0], &byte, 1, 0));
}

static void signals_recv_restarts(void) {
    int ends[2];
    pair(ends, SOCK_DGRAM);
    begin();
    alarm_in(SOON, SA_RESTART);
    later(2 * SOON, write_byte, (void *)(intptr_t)ends[1]);
    end(recv(ends[0], &byte, 1, 0));
}

/* A call that has a timeout is never restarted. */
static void signals_recv_timeout(void) {
    int ends[2];
    pair(ends, SOCK_STREAM);
    setsockopt(ends[0], SOL_SOCKET, SO_RCVTIMEO, &(struct timeval){LONG / 1000, 0}, sizeof(struct timeval));
    begin();
    alarm_in(SOON, SA_RESTART);
    end(recv(ends[0], &byte, 1, 0));
}

static void signals_recvmsg(void) {
    int ends[2];
    struct iovec part = {&byte, 1};
    struct msghdr message = {.msg_iov = &part, .msg_iovlen = 1};
    pair(ends, SOCK_STREAM);
    begin();
    alarm_in(SOON, 0);
    end(recvmsg(ends[0], &message, 0));
}

static void signals_send_full(void) {
    static char data[65536];
    int ends[2];
    pair(ends, SOCK_STREAM);
    while (send(ends[0], data, sizeof data, MSG_DONTWAIT) > 0) {
    }
    begin();
    alarm_in(SOON, 0);
    end(send(ends[0], data, sizeof data, 0));
}

static int listening(void) {
    struct sockaddr_storage any = {.ss_family = AF_UNIX};
    int fd = socket(AF_UNIX, SOCK_STREAM, 0);
    CHECK(!bind(fd, (struct sockaddr *)&any, sizeof(sa_family_t)) && !listen(fd, 5));
    return fd;
}

static void signals_accept(void) {
    int fd = listening();
    begin();
    alarm_in(SOON, 0);
    end(accept(fd, NULL, NULL));
}

static void signals_wait(void) {
    begin();
    pid_t pid = fork();
    if (pid == 0) {
        sleep(2);
        _exit(0);
    }
    alarm_in(SOON, 0);
    end(waitpid(pid, NULL, 0));
    kill(pid, SIGKILL);
}

static void signals_wait_restarts(void) {
    int status;
    begin();
    pid_t pid = fork();
    if (pid == 0) {
        usleep(2 * SOON * 1000);
        _exit(3);
    }
    alarm_in(SOON, SA_RESTART);
    end(waitpid(pid, &status, 0) == pid);
    note("%d", WEXITSTATUS(status));
}

static void signals_waitid(void) {
    siginfo_t info;
    begin();
    pid_t pid = fork();
    if (pid == 0) {
        sleep(2);
        _exit(0);
    }
    alarm_in(SOON, 0);
    end(waitid(P_PID, (id_t)pid, &info, WEXITED));
    kill(pid, SIGKILL);
}

static void signals_open(void) {
    char path[] = "/tmp/waits.XXXXXX", name[64];
    CHECK(mkdtemp(path));
    snprintf(name, sizeof name, "%s/pipe", path);
    mkfifo(name, 0600);
    begin();
    alarm_in(SOON, 0);
    end(open(name, O_RDONLY));
    unlink(name);
    rmdir(path);
}

static int locked_file(void) {
    char path[] = "/tmp/waits.XXXXXX";
    int fd = mkstemp(path), again = open(path, O_RDWR);
    unlink(path);
    CHECK(!flock(fd, LOCK_EX));
    return again;
}

static void signals_flock(void) {
    int fd = locked_file();
    begin();
    alarm_in(SOON, 0);
    end(flock(fd, LOCK_EX));
}

static void signals_msgrcv(void) {
    struct {
        long type;
        char text[8];
    } message;
    int queue = msgget(IPC_PRIVATE, 0600);
    begin();
    alarm_in(SOON, SA_RESTART);
    end(msgrcv(queue, &message, sizeof message.text, 0, 0));
    msgctl(queue, IPC_RMID, NULL);
}

static void signals_semop(void) {
    struct sembuf operation = {0, -1, 0};
    int set = semget(IPC_PRIVATE, 1, 0600);
    begin();
    alarm_in(SOON, SA_RESTART);
    end(semop(set, &operation, 1));
    semctl(set, 0, IPC_RMID);
}

static void signals_mq_receive(void) {
    char name[32], data[64];
    struct mq_attr attributes = {.mq_maxmsg = 1, .mq_msgsize = sizeof data};
    snprintf(name, sizeof name, "/waits.%d", getpid());
    mqd_t queue = mq_open(name, O_CREAT | O_RDWR, 0600, &attributes);
    mq_unlink(name);
    begin();
    alarm_in(SOON, 0);
    end(mq_receive(queue, data, sizeof data, NULL));
}

static sem_t semaphore;

static void signals_sem_wait(void) {
    sem_init(&semaphore, 0, 0);
    begin();
    alarm_in(SOON, 0);
    end(sem_wait(&semaphore));
}

static void post(void *of) {
    sem_post(of);
}

static void signals_sem_restarts(void) {
    sem_init(&semaphore, 0, 0);
    begin();
    alarm_in(SOON, SA_RESTART);
    later(2 * SOON, post, &semaphore);
    end(sem_wait(&semaphore));
}

static void signals_sem_timed(void) {
    begin();
    struct timespec t = after_ms(CLOCK_REALTIME, LONG);
    sem_init(&semaphore, 0, 0);
    alarm_in(SOON, SA_RESTART);
    end(sem_timedwait(&semaphore, &t));
}

static pthread_mutex_t mutex = PTHREAD_MUTEX_INITIALIZER;
static pthread_cond_t condition = PTHREAD_COND_INITIALIZER;

/* The wait continues after a signal handler has run. */
static void signals_cond_timed(void) {
    begin();
    struct timespec t = after_ms(CLOCK_REALTIME, 2 * SOON);
    pthread_mutex_lock(&mutex);
    alarm_in(SOON, 0);
    end(pthread_cond_timedwait(&condition, &mutex, &t));
    note("%d", (int)alarms);
}

static void signals_mutex_timed(void) {
    begin();
    struct timespec t = after_ms(CLOCK_REALTIME, 2 * SOON);
    pthread_mutex_lock(&mutex);
    alarm_in(SOON, 0);
    end(pthread_mutex_timedlock(&mutex, &t));
    note("%d", (int)alarms);
}

const struct wait signals[] = {
    {"signals_read", SOON, signals_read},
    {"signals_read_restarts", 2 * SOON, signals_read_restarts},
    {"signals_readv", SOON, signals_readv},
    {"signals_write_full", SOON, signals_write_full},
    {"signals_write_partly", SOON, signals_write_partly},
    {"signals_recv", SOON, signals_recv},
    {"signals_recv_restarts", 2 * SOON, signals_recv_restarts},
    {"signals_recv_timeout", SOON, signals_recv_timeout},
    {"signals_recvmsg", SOON, signals_recvmsg},
    {"signals_send_full", SOON, signals_send_full},
    {"signals_accept", SOON, signals_accept},
    {"signals_wait", SOON, signals_wait},
    {"signals_wait_restarts", 2 * SOON, signals_wait_restarts},
    {"signals_waitid", SOON, signals_waitid},
    {"signals_open", SOON, signals_open},
    {"signals_flock", SOON, signals_flock},
    {"signals_msgrcv", SOON, signals_msgrcv},
    {"signals_semop", SOON, signals_semop},
    {"signals_mq_receive", SOON, signals_mq_receive},
    {"signals_sem_wait", SOON, signals_sem_wait},
    {"signals_sem_restarts", 2 * SOON, signals_sem_restarts},
    {"signals_sem_timed", SOON, signals_sem_timed},
    {"signals_cond_timed", 2 * SOON, signals_cond_timed},
    {"signals_mutex_timed", 2 * SOON, signals_mutex_timed},
    {NULL, 0, NULL},
};
