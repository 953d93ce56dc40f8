/* waits [NAME ..]: performs these waits, or all waits, at the same time. Prints `NAME MILLISECONDS MICROSECONDS RESULT`
 * for each: the expected duration, the measured duration, and the result. */
#include "waits.h"

#include <pthread.h>
#include <stdarg.h>
#include <sys/mman.h>
#include <sys/prctl.h>
#include <sys/time.h>
#include <sys/wait.h>

#define MOST 500

static struct outcome {
    const struct wait *wait;
    pid_t pid;
    long micro;
    char text[120];
} * outcomes, *mine;
static struct timespec begun;
volatile sig_atomic_t alarms;

void begin(void) {
    clock_gettime(CLOCK_MONOTONIC, &begun);
}

void note(const char *format, ...) {
    size_t length = strlen(mine->text);
    va_list list;
    va_start(list, format);
    mine->text[length] = ' ';
    vsnprintf(mine->text + length + 1, sizeof mine->text - length - 1, format, list);
    va_end(list);
}

void end(long result) {
    int error = errno;
    struct timespec now;
    clock_gettime(CLOCK_MONOTONIC, &now);
    mine->micro = (now.tv_sec - begun.tv_sec) * 1000000 + (now.tv_nsec - begun.tv_nsec) / 1000;
    note("%ld%s%s", result, result < 0 ? " " : "", result < 0 ? strerrorname_np(error) : "");
}

void ends_with(int error) {
    end(0);
    note("%s", error ? strerrorname_np(error) : "0");
}

struct timespec in_ms(int ms) {
    return (struct timespec){ms / 1000, ms % 1000 * 1000000};
}

struct timespec after_ms(clockid_t id, int ms) {
    struct timespec now;
    clock_gettime(id, &now);
    long nano = now.tv_nsec + ms % 1000 * 1000000L;
    return (struct timespec){now.tv_sec + ms / 1000 + nano / 1000000000, nano % 1000000000};
}

struct late {
    int ms;
    void (*call)(void *);
    void *of;
};

static void *be_late(void *given) {
    struct late *it = given;
    struct timespec t = in_ms(it->ms);
    while (nanosleep(&t, &t)) {
    }
    it->call(it->of);
    free(it);
    return NULL;
}

void later(int ms, void (*call)(void *), void *of) {
    struct late *it = malloc(sizeof *it);
    sigset_t all, before;
    pthread_t thread;
    *it = (struct late){ms, call, of};
    sigfillset(&all); /* Only the waiting thread gets signals. */
    pthread_sigmask(SIG_SETMASK, &all, &before);
    CHECK(!pthread_create(&thread, NULL, be_late, it));
    pthread_sigmask(SIG_SETMASK, &before, NULL);
}

static void on_alarm(int number) {
    (void)number;
    alarms++;
}

void alarm_in(int ms, int flags) {
    sigaction(SIGALRM, &(struct sigaction){.sa_handler = on_alarm, .sa_flags = flags}, NULL);
    setitimer(ITIMER_REAL, &(struct itimerval){{0, 0}, {ms / 1000, ms % 1000 * 1000}}, NULL);
}

void make_pipe(int ends[2]) {
    CHECK(!pipe(ends));
}

void write_byte(void *fd) {
    CHECK(write((int)(intptr_t)fd, "x", 1) == 1);
}

void close_it(void *fd) {
    close((int)(intptr_t)fd);
}

static void start(const struct wait *wait, struct outcome *outcome) {
    *outcome = (struct outcome){.wait = wait, .micro = -1};
    pid_t pid = fork();
    if (pid == 0) {
        prctl(PR_SET_PDEATHSIG, SIGKILL);
        mine = outcome;
        wait->call();
        _exit(0);
    }
    outcome->pid = pid;
}

static bool is_named(const char *name, char **names) {
    bool is_one = !*names;
    for (; *names && !is_one; names++) {
        is_one = !strcmp(name, *names);
    }
    return is_one;
}

int main(int count, char **words) {
    static const struct wait *const tables[] = {sleeps, polls,      signals,   awaited,  signalfds, cancels,
                                                locks,  conditions, threads,   timers,   timerfds,  files,
                                                queues, sockets,    processes, by_number};
    int made = 0, status;
    (void)count;
    outcomes = mmap(NULL, MOST * sizeof *outcomes, PROT_READ | PROT_WRITE, MAP_SHARED | MAP_ANONYMOUS, -1, 0);
    for (size_t i = 0; i < sizeof tables / sizeof *tables; i++) {
        for (const struct wait *wait = tables[i]; wait->name; wait++) {
            if (is_named(wait->name, words + 1) && made < MOST) {
                start(wait, &outcomes[made++]);
            }
        }
    }
    setvbuf(stdout, NULL, _IOLBF, 0);
    for (int i = 0; i < made; i++) {
        waitpid(outcomes[i].pid, &status, 0);
        if (WIFSIGNALED(status)) {
            mine = &outcomes[i];
            note("ended by signal %d", WTERMSIG(status));
        }
        printf("%s %d %ld%s\n", outcomes[i].wait->name, outcomes[i].wait->ms, outcomes[i].micro, outcomes[i].text);
    }
    return 0;
}
