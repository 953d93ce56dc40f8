/* A write waits for room in a queue that stays full, because the bus sends one frame a minute and queues only one. The
 * signal in the first argument ends the write, whether its handler has SA_RESTART or not, and in whichever thread the
 * handler runs. After another signal with SA_RESTART the wait continues. The second argument is the number of tries.
 * Built with -pthread. */
#include "check.h"
#include <pthread.h>
#include <sys/mman.h>

static volatile sig_atomic_t is_ended, ticks;
/* The ID of the thread that writes, in memory that the processes share. */
static volatile pid_t *writer;
static int number;

static void on_end(int of) {
    (void)of;
    is_ended = 1;
}

static void on_tick(int of) {
    (void)of;
    ticks++;
}

static void *write_in_vain(void *error) {
    int fd = bound("can0");
    struct can_frame frame = frame_of(0x123, 0);
    *writer = gettid();
    FAILS(write(fd, &frame, sizeof frame), *(int *)error);
    CHECK(is_ended);
    /* If a program continues to write after its handler has run, its next writes do not wait. */
    for (int i = 0; i < 20; i++) {
        FAILS(write(fd, &frame, sizeof frame), ENOBUFS);
    }
    return NULL;
}

static int child(bool has_thread, int flags) {
    struct itimerval often = {.it_value = {0, 1000}, .it_interval = {0, 1000}};
    struct sigaction end = {.sa_handler = on_end, .sa_flags = flags}, after;
    /* If the handler lacks SA_RESTART, the write of the thread that runs it fails with EINTR. */
    int error = flags ? ENOBUFS : EINTR;
    struct sigaction tick = {.sa_handler = on_tick, .sa_flags = SA_RESTART};
    CHECK(sigaction(number, &end, NULL) == 0 && sigaction(SIGALRM, &tick, NULL) == 0);
    /* If two signals arrive at once, the first one decides whether the kernel restarts the call. */
    CHECK(!flags || setitimer(ITIMER_REAL, &often, NULL) == 0);
    if (has_thread) {
        pthread_t thread;
        CHECK(pthread_create(&thread, NULL, write_in_vain, &error) == 0 && pthread_join(thread, NULL) == 0);
    } else {
        write_in_vain(&error);
        CHECK(!flags || ticks > 0);
    }
    CHECK(sigaction(number, NULL, &after) == 0 && after.sa_handler == on_end &&
          (after.sa_flags & (SA_RESTART | SA_SIGINFO)) == flags);
    return 0;
}

/* Whether this thread is in the read(2) that a waiting write uses. */
static bool is_in_read(pid_t thread) {
    char path[64], text[16] = "";
    snprintf(path, sizeof path, "/proc/%d/syscall", thread);
    FILE *file = fopen(path, "r");
    bool is_read = file && fgets(text, sizeof text, file) && !strncmp(text, "0 ", 2);
    if (file) {
        fclose(file);
    }
    return is_read;
}

static void try(bool has_thread, int flags) {
    int status;
    *writer = 0;
    pid_t process = fork();
    if (process == 0) {
        exit(child(has_thread, flags));
    }
    for (int i = 0; !*writer || !is_in_read(*writer); i++) {
        CHECK(i < PATIENCE && usleep(1000) == 0);
    }
    CHECK(kill(process, number) == 0 && waitpid(process, &status, 0) == process);
    CHECK(WIFEXITED(status) && WEXITSTATUS(status) == 0);
}

int main(int count, char **words) {
    CHECK(count == 3);
    number = atoi(words[1]);
    writer = mmap(NULL, sizeof *writer, PROT_READ | PROT_WRITE, MAP_SHARED | MAP_ANONYMOUS, -1, 0);
    CHECK(writer != MAP_FAILED);
    int fd = bound("can0");
    send_numbered(fd, 0x123, 1);
    send_numbered(fd, 0x123, 2);
    for (int i = 0; i < atoi(words[2]); i++) {
        try(i % 4 == 3, i % 4 == 1 ? 0 : SA_RESTART);
    }
    return 0;
}
