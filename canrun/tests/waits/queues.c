/* System V message queues and semaphores, and POSIX message queues. */
#include "waits.h"

#include <fcntl.h>
#include <mqueue.h>
#include <sys/msg.h>
#include <sys/sem.h>
#include <sys/wait.h>

struct message {
    long type;
    char text[8];
};

static int queue;

static void send_late(void *type) {
    struct message message = {(long)type, "hi"};
    CHECK(!msgsnd(queue, &message, 3, 0));
}

static void queues_msgrcv(void) {
    struct message message;
    queue = msgget(IPC_PRIVATE, 0600);
    begin();
    later(SOON, send_late, (void *)3);
    end(msgrcv(queue, &message, sizeof message.text, 3, 0));
    note("%s", message.text);
    msgctl(queue, IPC_RMID, NULL);
}

static void queues_msgrcv_none(void) {
    struct message message;
    queue = msgget(IPC_PRIVATE, 0600);
    begin();
    end(msgrcv(queue, &message, sizeof message.text, 3, IPC_NOWAIT));
    msgctl(queue, IPC_RMID, NULL);
}

static void receive_late(void *nothing) {
    struct {
        long type;
        char text[8192];
    } message;
    (void)nothing;
    CHECK(msgrcv(queue, &message, sizeof message.text, 0, 0) > 0);
}

static void queues_msgsnd_full(void) {
    struct {
        long type;
        char text[8192];
    } message = {1, ""};
    queue = msgget(IPC_PRIVATE, 0600);
    while (!msgsnd(queue, &message, sizeof message.text, IPC_NOWAIT)) {
    }
    begin();
    later(SOON, receive_late, NULL);
    end(msgsnd(queue, &message, sizeof message.text, 0));
    msgctl(queue, IPC_RMID, NULL);
}

static void remove_queue(void *nothing) {
    (void)nothing;
    msgctl(queue, IPC_RMID, NULL);
}

static void queues_msgrcv_removed(void) {
    struct message message;
    queue = msgget(IPC_PRIVATE, 0600);
    begin();
    later(SOON, remove_queue, NULL);
    long result = msgrcv(queue, &message, sizeof message.text, 0, 0);
    int error = errno;
    end(result < 0 && (error == EIDRM || error == EINVAL));
}

static int set;

static void up_late(void *nothing) {
    (void)nothing;
    semop(set, &(struct sembuf){0, 1, 0}, 1);
}

static void queues_semop(void) {
    set = semget(IPC_PRIVATE, 1, 0600);
    begin();
    later(SOON, up_late, NULL);
    end(semop(set, &(struct sembuf){0, -1, 0}, 1));
    semctl(set, 0, IPC_RMID);
}

static void queues_semtimedop(void) {
    struct timespec t = in_ms(SOON);
    set = semget(IPC_PRIVATE, 1, 0600);
    begin();
    end(semtimedop(set, &(struct sembuf){0, -1, 0}, 1, &t));
    semctl(set, 0, IPC_RMID);
}

static void queues_semop_zero(void) {
    set = semget(IPC_PRIVATE, 1, 0600);
    semop(set, &(struct sembuf){0, 1, 0}, 1);
    begin();
    if (fork() == 0) {
        usleep(SOON * 1000);
        semop(set, &(struct sembuf){0, -1, 0}, 1);
        _exit(0);
    }
    end(semop(set, &(struct sembuf){0, 0, 0}, 1));
    semctl(set, 0, IPC_RMID);
}

/* SEM_UNDO: when a process ends, its operations are undone. */
static void queues_semop_undo(void) {
    set = semget(IPC_PRIVATE, 1, 0600);
    semop(set, &(struct sembuf){0, 1, 0}, 1);
    int ends[2];
    char byte;
    make_pipe(ends);
    begin();
    if (fork() == 0) {
        semop(set, &(struct sembuf){0, -1, SEM_UNDO}, 1);
        write_byte((void *)(intptr_t)ends[1]);
        usleep(SOON * 1000);
        _exit(0);
    }
    CHECK(read(ends[0], &byte, 1) == 1);
    end(semop(set, &(struct sembuf){0, -1, 0}, 1));
    semctl(set, 0, IPC_RMID);
}

static char data[64];

static mqd_t make_queue(int flags) {
    char name[32];
    struct mq_attr attributes = {.mq_maxmsg = 1, .mq_msgsize = sizeof data};
    snprintf(name, sizeof name, "/waits.%d", getpid());
    mqd_t made = mq_open(name, O_CREAT | O_RDWR | flags, 0600, &attributes);
    CHECK(made >= 0);
    mq_unlink(name);
    return made;
}

static void mq_send_late(void *of) {
    CHECK(!mq_send((mqd_t)(intptr_t)of, "hello", 5, 6));
}

static void queues_mq_receive(void) {
    mqd_t made = make_queue(0);
    unsigned priority = 0;
    begin();
    later(SOON, mq_send_late, (void *)(intptr_t)made);
    end(mq_receive(made, data, sizeof data, &priority));
    note("%u", priority);
}

static void queues_mq_timedreceive(void) {
    mqd_t made = make_queue(0);
    begin();
    struct timespec t = after_ms(CLOCK_REALTIME, SOON);
    end(mq_timedreceive(made, data, sizeof data, NULL, &t));
}

static void queues_mq_timedsend(void) {
    mqd_t made = make_queue(0);
    begin();
    struct timespec t = after_ms(CLOCK_REALTIME, SOON);
    mq_send(made, "x", 1, 0);
    end(mq_timedsend(made, "x", 1, 0, &t));
}

static void mq_receive_late(void *of) {
    mq_receive((mqd_t)(intptr_t)of, data, sizeof data, NULL);
}

static void queues_mq_send(void) {
    mqd_t made = make_queue(0);
    mq_send(made, "x", 1, 0);
    begin();
    later(SOON, mq_receive_late, (void *)(intptr_t)made);
    end(mq_send(made, "x", 1, 0));
}

static void queues_mq_nonblocking(void) {
    mqd_t made = make_queue(O_NONBLOCK);
    begin();
    end(mq_receive(made, data, sizeof data, NULL));
}

static void queues_mq_wrong(void) {
    mqd_t made = make_queue(0);
    struct timespec t = {0, -1};
    begin();
    end(mq_timedreceive(made, data, sizeof data, NULL, &t));
}

static void queues_mq_notify(void) {
    mqd_t made = make_queue(0);
    struct sigevent event = {.sigev_notify = SIGEV_SIGNAL, .sigev_signo = SIGUSR1};
    sigset_t one;
    sigemptyset(&one);
    sigaddset(&one, SIGUSR1);
    sigprocmask(SIG_BLOCK, &one, NULL);
    mq_notify(made, &event);
    begin();
    later(SOON, mq_send_late, (void *)(intptr_t)made);
    end(sigwaitinfo(&one, NULL));
}

const struct wait queues[] = {
    {"queues_msgrcv", SOON, queues_msgrcv},
    {"queues_msgrcv_none", 0, queues_msgrcv_none},
    {"queues_msgsnd_full", SOON, queues_msgsnd_full},
    {"queues_msgrcv_removed", SOON, queues_msgrcv_removed},
    {"queues_semop", SOON, queues_semop},
    {"queues_semtimedop", SOON, queues_semtimedop},
    {"queues_semop_zero", SOON, queues_semop_zero},
    {"queues_semop_undo", SOON, queues_semop_undo},
    {"queues_mq_receive", SOON, queues_mq_receive},
    {"queues_mq_timedreceive", SOON, queues_mq_timedreceive},
    {"queues_mq_timedsend", SOON, queues_mq_timedsend},
    {"queues_mq_send", SOON, queues_mq_send},
    {"queues_mq_nonblocking", 0, queues_mq_nonblocking},
    {"queues_mq_wrong", 0, queues_mq_wrong},
    {"queues_mq_notify", SOON, queues_mq_notify},
    {NULL, 0, NULL},
};
