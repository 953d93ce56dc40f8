/* Performs every kind of wait once. Prints how many milliseconds each wait took by the clock, and its result. */
#include "node.h"

#include <poll.h>
#include <pthread.h>
#include <semaphore.h>
#include <signal.h>
#include <stdint.h>
#include <sys/epoll.h>
#include <sys/select.h>
#include <sys/time.h>
#include <sys/timerfd.h>
#include <sys/wait.h>
#include <threads.h>

static struct timespec before;
static volatile int alarms, calls;
static pthread_mutex_t mutex = PTHREAD_MUTEX_INITIALIZER;
static pthread_cond_t condition = PTHREAD_COND_INITIALIZER;
static int ends[2];

static struct timespec in(clockid_t id, long milliseconds) {
    struct timespec now;
    clock_gettime(id, &now);
    return later(now, milliseconds * 1000000);
}

static void begin(void) {
    clock_gettime(CLOCK_MONOTONIC, &before);
}

static void end(const char *name, long result) {
    struct timespec now;
    clock_gettime(CLOCK_MONOTONIC, &now);
    long micro = (now.tv_sec - before.tv_sec) * 1000000 + (now.tv_nsec - before.tv_nsec) / 1000;
    printf("%s %ld.%03ld %ld\n", name, micro / 1000, micro % 1000, result);
    begin();
}

static void on_alarm(int number) {
    (void)number;
    alarms++;
}

static void on_call(union sigval value) {
    calls += value.sival_int;
}

static void *write_later(void *nothing) {
    usleep(40000);
    return write(ends[1], "x", 1) == 1 ? nothing : NULL;
}

static void *signal_later(void *nothing) {
    usleep(50000);
    pthread_mutex_lock(&mutex);
    pthread_cond_signal(&condition);
    pthread_mutex_unlock(&mutex);
    return nothing;
}

static void descriptors(void) {
    struct epoll_event event = {.events = EPOLLIN};
    struct pollfd polled = {ends[0], POLLIN, 0};
    struct timeval t = {0, 7000};
    fd_set set;
    pthread_t thread;
    char byte;
    int epoll = epoll_create1(0);
    epoll_ctl(epoll, EPOLL_CTL_ADD, ends[0], &event);
    end("poll", poll(&polled, 1, 11));
    end("ppoll", ppoll(&polled, 1, &(struct timespec){0, 12000000}, NULL));
    FD_ZERO(&set);
    FD_SET(ends[0], &set);
    end("select", select(ends[0] + 1, &set, NULL, NULL, &t));
    end("pselect", pselect(0, NULL, NULL, NULL, &(struct timespec){0, 8000000}, NULL));
    end("epoll_wait", epoll_wait(epoll, &event, 1, 13));
    setsockopt(ends[0], SOL_SOCKET, SO_RCVTIMEO, &(struct timeval){0, 20000}, sizeof(struct timeval));
    end("recv", recv(ends[0], &byte, 1, 0) < 0 ? errno == EAGAIN : 9);
    pthread_create(&thread, NULL, write_later, NULL);
    end("poll_woken", poll(&polled, 1, 100));
    end("read", read(ends[0], &byte, 1));
    pthread_join(thread, NULL);
}

static void locks(void) {
    sem_t semaphore;
    pthread_t thread;
    mtx_t lock;
    cnd_t woken;
    struct timespec t = in(CLOCK_REALTIME, 21);
    sem_init(&semaphore, 0, 0);
    begin();
    end("sem_timedwait", sem_timedwait(&semaphore, &t) < 0 ? errno == ETIMEDOUT : 9);
    t = in(CLOCK_REALTIME, 22);
    pthread_mutex_lock(&mutex);
    end("pthread_cond_timedwait", pthread_cond_timedwait(&condition, &mutex, &t) == ETIMEDOUT);
    t = in(CLOCK_MONOTONIC, 23);
    end("pthread_cond_clockwait", pthread_cond_clockwait(&condition, &mutex, CLOCK_MONOTONIC, &t) == ETIMEDOUT);
    pthread_create(&thread, NULL, signal_later, NULL);
    end("pthread_cond_wait", pthread_cond_wait(&condition, &mutex));
    t = in(CLOCK_REALTIME, 24);
    end("pthread_mutex_timedlock", pthread_mutex_timedlock(&mutex, &t) == ETIMEDOUT);
    pthread_mutex_unlock(&mutex);
    end("pthread_join", pthread_join(thread, NULL));
    mtx_init(&lock, mtx_timed);
    cnd_init(&woken);
    mtx_lock(&lock);
    t = in(CLOCK_REALTIME, 25);
    end("cnd_timedwait", cnd_timedwait(&woken, &lock, &t) == thrd_timedout);
}

static void timers(void) {
    uint64_t times = 0;
    timer_t timer;
    struct sigevent event = {.sigev_notify = SIGEV_THREAD, .sigev_notify_function = on_call, .sigev_value = {5}};
    int fd = timerfd_create(CLOCK_MONOTONIC, 0);
    timerfd_settime(fd, 0, &(struct itimerspec){{0, 10000000}, {0, 31000000}}, NULL);
    begin();
    end("timerfd", read(fd, &times, sizeof times) == sizeof times ? (long)times : -1);
    usleep(35000);
    end("timerfd_again", read(fd, &times, sizeof times) == sizeof times ? (long)times : -1);
    sigaction(SIGALRM, &(struct sigaction){.sa_handler = on_alarm, .sa_flags = SA_RESTART}, NULL);
    setitimer(ITIMER_REAL, &(struct itimerval){{0, 0}, {0, 32000}}, NULL);
    end("setitimer", pause() < 0 ? alarms : 9);
    alarm(1);
    end("alarm", poll(NULL, 0, 5000) < 0 ? errno == EINTR : 9);
    timer_create(CLOCK_MONOTONIC, NULL, &timer);
    timer_settime(timer, 0, &(struct itimerspec){{0, 0}, {0, 33000000}}, NULL);
    end("timer_create", nanosleep(&(struct timespec){1, 0}, NULL) < 0 ? alarms : 9);
    timer_create(CLOCK_MONOTONIC, &event, &timer);
    timer_settime(timer, 0, &(struct itimerspec){{0, 0}, {0, 34000000}}, NULL);
    usleep(36000);
    end("timer_thread", calls);
}

static void processes(void) {
    int status = 0;
    pid_t child = fork();
    if (child == 0) {
        usleep(41000);
        _exit(4);
    }
    begin();
    end("waitpid", waitpid(child, &status, 0) == child ? WEXITSTATUS(status) : -1);
    end("system", WEXITSTATUS(system("sleep 0.042; exit 6")));
}

int main(void) {
    if (socketpair(AF_UNIX, SOCK_STREAM, 0, ends)) {
        return 1;
    }
    begin();
    end("usleep", usleep(1500));
    end("sleep", sleep(86400));
    descriptors();
    locks();
    timers();
    processes();
    return 0;
}
