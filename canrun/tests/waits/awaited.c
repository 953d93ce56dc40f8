/* Waits for signals, and the ways to send signals. */
#include "waits.h"

#include <pthread.h>
#include <sys/file.h>
#include <sys/socket.h>
#include <sys/time.h>
#include <sys/wait.h>

static char byte;

static void pair(int ends[2], int type) {
    CHECK(!socketpair(AF_UNIX, type, 0, ends));
}

static void awaited_pause(void) {
    begin();
    alarm_in(SOON, SA_RESTART);
    end(pause());
}

static void block(int number) {
    sigset_t one;
    sigemptyset(&one);
    sigaddset(&one, number);
    sigprocmask(SIG_BLOCK, &one, NULL);
}

static void awaited_sigsuspend(void) {
    sigset_t none;
    sigemptyset(&none);
    block(SIGALRM);
    begin();
    alarm_in(SOON, SA_RESTART);
    end(sigsuspend(&none));
    note("%d", (int)alarms);
}

static void awaited_sigpause(void) {
    block(SIGALRM);
    begin();
    alarm_in(SOON, SA_RESTART);
    end(sigpause(SIGALRM));
    note("%d", (int)alarms);
}

static sigset_t only(int number) {
    sigset_t one;
    sigemptyset(&one);
    sigaddset(&one, number);
    return one;
}

static void awaited_sigwait(void) {
    sigset_t one = only(SIGALRM);
    int number = 0;
    block(SIGALRM);
    begin();
    alarm_in(SOON, 0);
    end(sigwait(&one, &number));
    note("%d", number);
}

static void awaited_sigtimedwait(void) {
    sigset_t one = only(SIGUSR1);
    struct timespec t = in_ms(SOON);
    block(SIGUSR1);
    begin();
    end(sigtimedwait(&one, NULL, &t));
}

static void awaited_sigtimedwait_other(void) {
    sigset_t one = only(SIGUSR1);
    struct timespec t = in_ms(LONG);
    block(SIGUSR1);
    begin();
    alarm_in(SOON, SA_RESTART);
    end(sigtimedwait(&one, NULL, &t));
}

static void send_to_process(void *number) {
    sigqueue(getpid(), (int)(intptr_t)number, (union sigval){.sival_int = 7});
}

static void awaited_sigwaitinfo(void) {
    sigset_t one = only(SIGRTMIN);
    siginfo_t info;
    block(SIGRTMIN);
    begin();
    later(SOON, send_to_process, (void *)(intptr_t)SIGRTMIN);
    end(sigwaitinfo(&one, &info) == SIGRTMIN);
    note("%d", info.si_value.sival_int);
}

static void awaited_sigchld(void) {
    sigset_t one = only(SIGCHLD);
    block(SIGCHLD);
    begin();
    if (fork() == 0) {
        usleep(SOON * 1000);
        _exit(0);
    }
    end(sigwaitinfo(&one, NULL));
}

/* A signal that the kernel itself sends when a descriptor becomes readable. */
static void awaited_sigio(void) {
    sigset_t one = only(SIGIO);
    int ends[2];
    pair(ends, SOCK_STREAM);
    block(SIGIO);
    fcntl(ends[0], F_SETOWN, getpid());
    fcntl(ends[0], F_SETFL, O_ASYNC);
    begin();
    later(SOON, write_byte, (void *)(intptr_t)ends[1]);
    end(sigwaitinfo(&one, NULL));
}

static void count_it(int number) {
    (void)number;
    alarms++;
}

static void awaited_sigset(void) {
    sigset(SIGALRM, count_it);
    begin();
    setitimer(ITIMER_REAL, &(struct itimerval){{0, 0}, {0, SOON * 1000}}, NULL);
    end(pause());
    note("%d", (int)alarms);
}

static void kill_main(void *of) {
    pthread_kill(*(pthread_t *)of, SIGUSR1);
}

static void awaited_pthread_kill(void) {
    int ends[2];
    pthread_t self = pthread_self();
    make_pipe(ends);
    sigaction(SIGUSR1, &(struct sigaction){.sa_handler = count_it}, NULL);
    begin();
    later(SOON, kill_main, &self);
    end(read(ends[0], &byte, 1));
    note("%d", (int)alarms);
}

static void tgkill_main(void *nothing) {
    (void)nothing;
    tgkill(getpid(), getpid(), SIGUSR1);
}

static void awaited_tgkill(void) {
    sigaction(SIGUSR1, &(struct sigaction){.sa_handler = count_it}, NULL);
    begin();
    later(SOON, tgkill_main, NULL);
    end(usleep(LONG * 1000));
}

static void queue_to_main(void *of) {
    pthread_sigqueue(*(pthread_t *)of, SIGUSR1, (union sigval){.sival_int = 1});
}

static void awaited_sigqueue_thread(void) {
    pthread_t self = pthread_self();
    sigaction(SIGUSR1, &(struct sigaction){.sa_handler = count_it}, NULL);
    begin();
    later(SOON, queue_to_main, &self);
    end(usleep(LONG * 1000));
}

static void awaited_from_parent(void) {
    int status;
    begin();
    pid_t pid = fork();
    if (pid == 0) {
        sigaction(SIGTERM, &(struct sigaction){.sa_handler = count_it}, NULL);
        int ends[2];
        make_pipe(ends);
        _exit(read(ends[0], &byte, 1) < 0 && errno == EINTR ? 4 : 5);
    }
    usleep(SOON * 1000);
    kill(pid, SIGTERM);
    waitpid(pid, &status, 0);
    end(WIFEXITED(status) ? WEXITSTATUS(status) : -1);
}

static void awaited_default(void) {
    int status;
    begin();
    pid_t pid = fork();
    if (pid == 0) {
        pause();
    }
    usleep(SOON * 1000);
    kill(pid, SIGTERM);
    waitpid(pid, &status, 0);
    end(WTERMSIG(status));
}

static void awaited_stopped(void) {
    int status;
    begin();
    pid_t pid = fork();
    if (pid == 0) {
        usleep(SOON * 1000);
        raise(SIGSTOP);
        _exit(6);
    }
    waitpid(pid, &status, WUNTRACED);
    int first = WIFSTOPPED(status);
    kill(pid, SIGCONT);
    waitpid(pid, &status, 0);
    end(10 * first + WEXITSTATUS(status));
}

const struct wait awaited[] = {
    {"awaited_pause", SOON, awaited_pause},
    {"awaited_sigsuspend", SOON, awaited_sigsuspend},
    {"awaited_sigpause", SOON, awaited_sigpause},
    {"awaited_sigwait", SOON, awaited_sigwait},
    {"awaited_sigtimedwait", SOON, awaited_sigtimedwait},
    {"awaited_sigtimedwait_other", SOON, awaited_sigtimedwait_other},
    {"awaited_sigwaitinfo", SOON, awaited_sigwaitinfo},
    {"awaited_sigchld", SOON, awaited_sigchld},
    {"awaited_sigio", SOON, awaited_sigio},
    {"awaited_sigset", SOON, awaited_sigset},
    {"awaited_pthread_kill", SOON, awaited_pthread_kill},
    {"awaited_tgkill", SOON, awaited_tgkill},
    {"awaited_sigqueue_thread", SOON, awaited_sigqueue_thread},
    {"awaited_from_parent", SOON, awaited_from_parent},
    {"awaited_default", SOON, awaited_default},
    {"awaited_stopped", SOON, awaited_stopped},
    {NULL, 0, NULL},
};
