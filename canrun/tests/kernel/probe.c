/* Runs all cases, the cases of some files (`probe raw`), or single cases (`probe raw:write_0 raw:order`). Prints a line
 * for each case with its name and the results of its calls. `probe --list` prints the names. */
#include "probe.h"
#include <stdarg.h>

/* The maximum length of a line in bytes, and the time limit of a case in seconds. */
enum { LINE = 8000, LONGEST = 20 };

/* The linker defines these names as the start and the end of the section `probes`. */
extern const struct probe __start_probes[], __stop_probes[];

/* The output line of the case, in memory that is shared with the case's process. */
static char *line;
/* For each bus, a socket that writes a barrier frame and a socket that reads it. The reader gets this frame after all
 * frames of the case. */
static int writers[2], readers[2];
#define BARRIER 0x7FE

void say(const char *format, ...) {
    size_t used = strlen(line);
    va_list values;
    va_start(values, format);
    vsnprintf(line + used, LINE - used, format, values);
    va_end(values);
}

long returned;

void result(long value) {
    int error = errno;
    returned = value;
    if (value == -1 && error != 0) {
        say(" %s", strerrorname_np(error));
    } else {
        say(" %ld", value);
    }
}

static void set_barriers(void) {
    static const char *const names[2][2] = {{"can0", "can1"}, {"vcan0", "vcan0"}};
    for (int i = 0; i < 2; i++) {
        writers[i] = raw(names[i][0]);
        readers[i] = raw(names[i][1]);
        FILTER(readers[i], {BARRIER, CAN_SFF_MASK});
    }
}

/* The minimum and the maximum of `quiet` in milliseconds. Even the maximum is far below the second for which ISO-TP
   waits for a frame. */
enum { SHORTEST_QUIET = 50, LONGEST_QUIET = 200 };
int quiet = SHORTEST_QUIET;

static long milliseconds(void) {
    struct timespec now;
    clock_gettime(CLOCK_MONOTONIC, &now);
    return now.tv_sec * 1000 + now.tv_nsec / 1000000;
}

/* Waits until all frames of a case have been transmitted. The time that this takes shows how slow the machine is. */
static void settle(void) {
    long begun = milliseconds();
    for (int i = 0; i < 2; i++) {
        struct can_frame frame;
        PUT(writers[i], BARRIER);
        if (read(readers[i], &frame, sizeof frame) != sizeof frame) {
            say(" no barrier");
        }
    }
    long slow = 20 * (milliseconds() - begun);
    slow = slow < quiet / 2 ? quiet / 2 : slow;
    quiet = (int)(slow < SHORTEST_QUIET ? SHORTEST_QUIET : slow > LONGEST_QUIET ? LONGEST_QUIET : slow);
}

/* Runs the case in the child process. Closes its sockets one by one, as the end of a program does. */
static void alone(const struct probe *probe) {
    timer_t timer;
    struct sigevent event = {.sigev_notify = SIGEV_SIGNAL, .sigev_signo = SIGKILL};
    timer_create(CLOCK_MONOTONIC, &event, &timer);
    timer_settime(timer, 0, &(struct itimerspec){.it_value = {LONGEST, 0}}, NULL);
    probe->run();
    for (int fd = readers[1] + 1; fd < 1024; fd++) {
        close(fd);
    }
    _exit(0);
}

static void run(const struct probe *probe, const char *topic) {
    int status = 0;
    *line = '\0';
    pid_t child = fork();
    if (child == 0) {
        alone(probe);
    }
    waitpid(child, &status, 0);
    if (WIFSIGNALED(status)) {
        say(" killed by SIG%s", sigabbrev_np(WTERMSIG(status)));
    }
    settle();
    printf("%s:%s:%s\n", topic, probe->name, line);
    fflush(stdout);
}

/* Returns the topic of a case: the name of its file without folder and extension. */
static const char *topic_of(const struct probe *probe) {
    static char topic[32];
    const char *slash = strrchr(probe->file, '/');
    snprintf(topic, sizeof topic, "%s", slash ? slash + 1 : probe->file);
    topic[strcspn(topic, ".")] = '\0';
    return topic;
}

/* Whether a word names this topic, or names this case of the topic. */
static bool is_named(const char *word, const char *topic, const char *name) {
    size_t length = strlen(topic);
    return !strncmp(word, topic, length) &&
           (!word[length] || (word[length] == ':' && !strcmp(word + length + 1, name)));
}

static bool is_wanted(const struct probe *probe, const char *topic, int count, char **words) {
    for (int i = 0; i < count; i++) {
        if (is_named(words[i], topic, probe->name)) {
            return true;
        }
    }
    return count == 0;
}

int main(int count, char **words) {
    bool is_list = count > 1 && !strcmp(words[1], "--list");
    line = mmap(NULL, LINE, PROT_READ | PROT_WRITE, MAP_SHARED | MAP_ANONYMOUS, -1, 0);
    nowhere = mmap(NULL, 65536, PROT_NONE, MAP_PRIVATE | MAP_ANONYMOUS, -1, 0);
    if (!is_list) {
        set_barriers();
    }
    for (const struct probe *probe = __start_probes; probe < __stop_probes; probe++) {
        const char *topic = topic_of(probe);
        if (is_list) {
            printf("%s:%s\n", topic, probe->name);
        } else if (is_wanted(probe, topic, count - 1, words + 1)) {
            run(probe, topic);
        }
    }
    return 0;
}
