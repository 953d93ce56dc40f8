/* pthread_cancel: the waits that it ends, and the waits that it does not end. */
#include "waits.h"

#include <fcntl.h>
#include <mqueue.h>
#include <poll.h>
#include <pthread.h>
#include <sched.h>
#include <semaphore.h>
#include <sys/epoll.h>
#include <sys/msg.h>
#include <sys/select.h>
#include <sys/socket.h>
#include <sys/stat.h>
#include <sys/wait.h>
#include <threads.h>

static pthread_mutex_t mutex = PTHREAD_MUTEX_INITIALIZER;
static pthread_cond_t condition = PTHREAD_COND_INITIALIZER;
static sem_t semaphore;
static int ends[2];
static char byte;
static int cleaned;
#define COMMA ,

static void clean(void *of) {
    cleaned = cleaned * 10 + (int)(intptr_t)of;
}

/* Cancels a thread in this wait. Notes whether the cancellation ended the thread, and which cleanup handlers ran. */
static void cancel(void *(*wait)(void *)) {
    pthread_t thread;
    void *result = NULL;
    make_pipe(ends);
    sem_init(&semaphore, 0, 0);
    begin();
    CHECK(!pthread_create(&thread, NULL, wait, NULL));
    usleep(SOON * 1000);
    pthread_cancel(thread);
    pthread_join(thread, &result);
    end(result == PTHREAD_CANCELED);
    note("%d", cleaned);
}

/* Defines a case: a thread with two cleanup handlers performs the wait. A note shows whether the code after the wait
 * runs. */
#define CANCELS(name, wait)                     \
    static void *name##_thread(void *nothing) { \
        pthread_cleanup_push(clean, (void *)1); \
        pthread_cleanup_push(clean, (void *)2); \
        wait;                                   \
        clean((void *)9);                       \
        pthread_cleanup_pop(0);                 \
        pthread_cleanup_pop(0);                 \
        return nothing;                         \
    }                                           \
    static void name(void) {                    \
        cancel(name##_thread);                  \
    }

static void fill_socket(void) {
    static char data[65536];
    CHECK(!socketpair(AF_UNIX, SOCK_STREAM, 0, ends));
    while (send(ends[0], data, sizeof data, MSG_DONTWAIT) > 0) {
    }
}

static void unlock(void *of) {
    pthread_mutex_unlock(of);
}

static void wait_for_condition(int ms) {
    struct timespec t = after_ms(CLOCK_REALTIME, ms);
    pthread_mutex_lock(&mutex);
    pthread_cleanup_push(unlock, &mutex);
    if (ms) {
        pthread_cond_timedwait(&condition, &mutex, &t);
    } else {
        pthread_cond_wait(&condition, &mutex);
    }
    pthread_cleanup_pop(1);
}

static void wait_for_message(void) {
    char name[32], data[64];
    struct mq_attr attributes = {.mq_maxmsg = 1, .mq_msgsize = sizeof data};
    snprintf(name, sizeof name, "/cancels.%d", getpid());
    mqd_t queue = mq_open(name, O_CREAT | O_RDWR, 0600, &attributes);
    mq_unlink(name);
    mq_receive(queue, data, sizeof data, NULL);
}

static void wait_for_queue(void) {
    struct {
        long type;
        char text[8];
    } message;
    int queue = msgget(IPC_PRIVATE, 0600);
    msgrcv(queue, &message, sizeof message.text, 0, 0);
}

static void wait_for_lock(void) {
    struct flock lock = {.l_type = F_WRLCK, .l_whence = SEEK_SET};
    char path[] = "/tmp/cancels.XXXXXX";
    int fd = mkstemp(path), again = open(path, O_RDWR);
    unlink(path);
    fcntl(fd, F_OFD_SETLK, &lock);
    fcntl(again, F_OFD_SETLKW, &lock);
}

static void wait_for_client(void) {
    struct sockaddr_storage any = {.ss_family = AF_UNIX};
    int fd = socket(AF_UNIX, SOCK_STREAM, 0);
    CHECK(!bind(fd, (struct sockaddr *)&any, sizeof(sa_family_t)) && !listen(fd, 5));
    accept(fd, NULL, NULL);
}

static void wait_for_child(void) {
    if (fork() == 0) {
        usleep(3 * SOON * 1000);
        _exit(0);
    }
    wait(NULL);
}

static void *sleep_long(void *nothing) {
    usleep(3 * SOON * 1000);
    return nothing;
}

static void wait_for_end(void) {
    pthread_t thread;
    pthread_create(&thread, NULL, sleep_long, NULL);
    pthread_join(thread, NULL);
}

static void wait_for_signal(void) {
    sigset_t one;
    int number;
    sigemptyset(&one);
    sigaddset(&one, SIGUSR1);
    pthread_sigmask(SIG_BLOCK, &one, NULL);
    sigwait(&one, &number);
}

static void wait_with_epoll(void) {
    struct epoll_event event = {.events = EPOLLIN};
    int epoll = epoll_create1(0);
    epoll_ctl(epoll, EPOLL_CTL_ADD, ends[0], &event);
    epoll_wait(epoll, &event, 1, LONG);
}

CANCELS(cancels_usleep, usleep(LONG * 1000))
CANCELS(cancels_clock_nanosleep, struct timespec t = in_ms(LONG); clock_nanosleep(CLOCK_MONOTONIC, 0, &t, NULL))
CANCELS(cancels_thrd_sleep, struct timespec t = in_ms(LONG); thrd_sleep(&t, NULL))
CANCELS(cancels_read, CHECK(read(ends[0], &byte, 1) < 5))
CANCELS(cancels_poll, struct pollfd polled = {ends[0] COMMA POLLIN COMMA 0}; poll(&polled, 1, LONG))
CANCELS(cancels_select, struct timeval t = {LONG / 1000 COMMA 0}; select(0, NULL, NULL, NULL, &t))
CANCELS(cancels_epoll, wait_with_epoll())
CANCELS(cancels_send, fill_socket(); send(ends[0], "xxxxxxxx", 8, 0))
CANCELS(cancels_recv, CHECK(!socketpair(AF_UNIX, SOCK_STREAM, 0, ends)); recv(ends[0], &byte, 1, 0))
CANCELS(cancels_accept, wait_for_client())
CANCELS(cancels_cond_wait, wait_for_condition(0))
CANCELS(cancels_cond_timedwait, wait_for_condition(LONG))
CANCELS(cancels_sem_wait, sem_wait(&semaphore))
CANCELS(cancels_sem_timedwait, struct timespec t = after_ms(CLOCK_REALTIME, LONG); sem_timedwait(&semaphore, &t))
CANCELS(cancels_join, wait_for_end())
CANCELS(cancels_pause, pause())
CANCELS(cancels_sigwait, wait_for_signal())
CANCELS(cancels_wait, wait_for_child())
CANCELS(cancels_mq_receive, wait_for_message())
CANCELS(cancels_msgrcv, wait_for_queue())
CANCELS(cancels_lock, wait_for_lock())

/* Waits that pthread_cancel does not end: the wait takes its full time, and the thread ends at its next cancellation
 * point. */
static void *hold_mutex(void *nothing) {
    pthread_mutex_lock(&mutex);
    usleep(6 * SOON * 1000);
    pthread_mutex_unlock(&mutex);
    return nothing;
}

static void wait_for_mutex(void) {
    pthread_t thread;
    pthread_create(&thread, NULL, hold_mutex, NULL);
    while (pthread_mutex_trylock(&mutex) == 0) {
        pthread_mutex_unlock(&mutex);
        sched_yield();
    }
    pthread_mutex_lock(&mutex);
    clean((void *)5);
    pthread_mutex_unlock(&mutex);
    pthread_testcancel();
}

static void sleep_disabled(bool is_enabled_after) {
    pthread_setcancelstate(PTHREAD_CANCEL_DISABLE, NULL);
    usleep(6 * SOON * 1000);
    clean((void *)5);
    if (is_enabled_after) {
        pthread_setcancelstate(PTHREAD_CANCEL_ENABLE, NULL);
        usleep(1);
    }
}

CANCELS(cancels_mutex, wait_for_mutex())
CANCELS(cancels_disabled, sleep_disabled(false))
CANCELS(cancels_enabled_later, sleep_disabled(true))

/* A thread that was cancelled ends at its next call, even if that call would not wait. */
CANCELS(cancels_before, sleep_disabled(false); pthread_setcancelstate(PTHREAD_CANCEL_ENABLE, NULL);
        CHECK(write(ends[1], "x", 1)); CHECK(read(ends[0], &byte, 1) == 1))

/* With the asynchronous type a thread can end anywhere. */
CANCELS(cancels_asynchronous, pthread_setcanceltype(PTHREAD_CANCEL_ASYNCHRONOUS, NULL); usleep(LONG * 1000))
static pthread_mutex_t locked = PTHREAD_MUTEX_INITIALIZER;
CANCELS(cancels_asynchronous_mutex, pthread_setcanceltype(PTHREAD_CANCEL_ASYNCHRONOUS, NULL);
        pthread_mutex_lock(&locked); pthread_mutex_lock(&locked))
CANCELS(cancels_asynchronous_disabled, pthread_setcanceltype(PTHREAD_CANCEL_ASYNCHRONOUS, NULL); sleep_disabled(false);
        pthread_setcancelstate(PTHREAD_CANCEL_ENABLE, NULL))

static void *cancel_itself(void *nothing) {
    pthread_cancel(pthread_self());
    usleep(LONG * 1000);
    return nothing;
}

static void cancels_itself(void) {
    cancel(cancel_itself);
}

const struct wait cancels[] = {
    {"cancels_usleep", SOON, cancels_usleep},
    {"cancels_clock_nanosleep", SOON, cancels_clock_nanosleep},
    {"cancels_thrd_sleep", SOON, cancels_thrd_sleep},
    {"cancels_read", SOON, cancels_read},
    {"cancels_poll", SOON, cancels_poll},
    {"cancels_select", SOON, cancels_select},
    {"cancels_epoll", SOON, cancels_epoll},
    {"cancels_send", SOON, cancels_send},
    {"cancels_recv", SOON, cancels_recv},
    {"cancels_accept", SOON, cancels_accept},
    {"cancels_cond_wait", SOON, cancels_cond_wait},
    {"cancels_cond_timedwait", SOON, cancels_cond_timedwait},
    {"cancels_sem_wait", SOON, cancels_sem_wait},
    {"cancels_sem_timedwait", SOON, cancels_sem_timedwait},
    {"cancels_join", SOON, cancels_join},
    {"cancels_pause", SOON, cancels_pause},
    {"cancels_sigwait", SOON, cancels_sigwait},
    {"cancels_wait", SOON, cancels_wait},
    {"cancels_mq_receive", SOON, cancels_mq_receive},
    {"cancels_msgrcv", SOON, cancels_msgrcv},
    {"cancels_lock", SOON, cancels_lock},
    {"cancels_mutex", 6 * SOON, cancels_mutex},
    {"cancels_disabled", 6 * SOON, cancels_disabled},
    {"cancels_enabled_later", 6 * SOON, cancels_enabled_later},
    {"cancels_before", 6 * SOON, cancels_before},
    {"cancels_asynchronous", SOON, cancels_asynchronous},
    {"cancels_asynchronous_mutex", SOON, cancels_asynchronous_mutex},
    {"cancels_asynchronous_disabled", 6 * SOON, cancels_asynchronous_disabled},
    {"cancels_itself", SOON, cancels_itself},
    {NULL, 0, NULL},
};
