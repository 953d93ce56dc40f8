/* Pipes, terminals and file locks. */
#include "waits.h"

#include <fcntl.h>
#include <poll.h>
#include <pthread.h>
#include <pty.h>
#include <sys/epoll.h>
#include <sys/eventfd.h>
#include <sys/file.h>
#include <sys/sendfile.h>
#include <sys/stat.h>
#include <sys/uio.h>
#include <sys/wait.h>
#include <termios.h>

static char data[200000];

static void files_read(void) {
    int ends[2];
    make_pipe(ends);
    begin();
    later(SOON, write_byte, (void *)(intptr_t)ends[1]);
    end(read(ends[0], data, sizeof data));
}

static void files_read_end(void) {
    int ends[2];
    make_pipe(ends);
    begin();
    later(SOON, close_it, (void *)(intptr_t)ends[1]);
    end(read(ends[0], data, sizeof data));
}

static void files_read_nonblocking(void) {
    int ends[2];
    CHECK(!pipe2(ends, O_NONBLOCK));
    begin();
    end(read(ends[0], data, 1));
}

static void files_readv(void) {
    int ends[2];
    struct iovec parts[2] = {{data, 1}, {data + 1, 5}};
    make_pipe(ends);
    begin();
    later(SOON, write_byte, (void *)(intptr_t)ends[1]);
    end(readv(ends[0], parts, 2));
}

static void files_preadv2(void) {
    int ends[2];
    struct iovec part = {data, 5};
    make_pipe(ends);
    begin();
    later(SOON, write_byte, (void *)(intptr_t)ends[1]);
    end(preadv2(ends[0], &part, 1, -1, 0));
}

static void read_all(void *fd) {
    CHECK(read((int)(intptr_t)fd, data, sizeof data) > 0);
}

static void files_write_full(void) {
    int ends[2];
    make_pipe(ends);
    CHECK(write(ends[1], data, 65536) == 65536);
    begin();
    later(SOON, read_all, (void *)(intptr_t)ends[0]);
    end(write(ends[1], "xx", 2));
}

static void *read_slowly(void *fd) {
    static char other[65536];
    for (int i = 0; i < 2; i++) {
        usleep(SOON * 500);
        CHECK(read((int)(intptr_t)fd, other, sizeof other) > 0);
    }
    return NULL;
}

static void files_write_much(void) {
    int ends[2];
    pthread_t thread;
    make_pipe(ends);
    begin();
    CHECK(!pthread_create(&thread, NULL, read_slowly, (void *)(intptr_t)ends[0]));
    end(write(ends[1], data, 3 * 65536));
}

static void files_broken(void) {
    int ends[2];
    signal(SIGPIPE, SIG_IGN);
    make_pipe(ends);
    CHECK(write(ends[1], data, 65536) == 65536);
    begin();
    later(SOON, close_it, (void *)(intptr_t)ends[0]);
    end(write(ends[1], "xx", 2));
}

static void add_to_counter(void *fd) {
    eventfd_write((int)(intptr_t)fd, 3);
}

static void files_eventfd(void) {
    eventfd_t value = 0;
    int fd = eventfd(0, 0);
    begin();
    later(SOON, add_to_counter, (void *)(intptr_t)fd);
    end(eventfd_read(fd, &value));
    note("%lu", (unsigned long)value);
}

static void files_splice(void) {
    int ends[2], others[2];
    make_pipe(ends);
    make_pipe(others);
    begin();
    later(SOON, write_byte, (void *)(intptr_t)ends[1]);
    end(splice(ends[0], NULL, others[1], NULL, 10, 0));
}

static void files_tee(void) {
    int ends[2], others[2];
    make_pipe(ends);
    make_pipe(others);
    begin();
    later(SOON, write_byte, (void *)(intptr_t)ends[1]);
    end(tee(ends[0], others[1], 10, 0));
}

static void files_fgets(void) {
    int ends[2];
    make_pipe(ends);
    begin();
    if (fork() == 0) {
        usleep(SOON * 1000);
        CHECK(write(ends[1], "line\n", 5) == 5);
        _exit(0);
    }
    FILE *file = fdopen(ends[0], "r");
    end(fgets(data, sizeof data, file) != NULL);
    note("%.4s", data);
}

static void named_pipe(char *name) {
    char path[] = "/tmp/waits.XXXXXX";
    CHECK(mkdtemp(path));
    snprintf(name, 64, "%s/pipe", path);
    CHECK(!mkfifo(name, 0600));
}

static void remove_pipe(char *name) {
    unlink(name);
    *strrchr(name, '/') = 0;
    rmdir(name);
}

static void files_open_read(void) {
    char name[64];
    named_pipe(name);
    begin();
    if (fork() == 0) {
        usleep(SOON * 1000);
        close(open(name, O_WRONLY));
        _exit(0);
    }
    end(open(name, O_RDONLY) >= 0);
    remove_pipe(name);
}

static void files_open_write(void) {
    char name[64];
    named_pipe(name);
    begin();
    if (fork() == 0) {
        usleep(SOON * 1000);
        close(open(name, O_RDONLY));
        _exit(0);
    }
    end(open(name, O_WRONLY) >= 0);
    remove_pipe(name);
}

/* ---- terminals ---- */

static int terminal(int least, int tenths, int *other) {
    struct termios settings;
    int fd;
    CHECK(!openpty(other, &fd, NULL, NULL, NULL));
    tcgetattr(fd, &settings);
    cfmakeraw(&settings);
    settings.c_cc[VMIN] = (cc_t)least;
    settings.c_cc[VTIME] = (cc_t)tenths;
    tcsetattr(fd, TCSANOW, &settings);
    return fd;
}

static void files_terminal(void) {
    int other, fd = terminal(1, 0, &other);
    begin();
    later(SOON, write_byte, (void *)(intptr_t)other);
    end(read(fd, data, 10));
}

static void files_terminal_epoll(void) {
    struct epoll_event event = {.events = EPOLLIN};
    int other, fd = terminal(1, 0, &other), epoll = epoll_create1(0);
    CHECK(!epoll_ctl(epoll, EPOLL_CTL_ADD, fd, &event));
    begin();
    later(SOON, write_byte, (void *)(intptr_t)other);
    end(epoll_wait(epoll, &event, 1, 2 * SOON));
}

static void files_terminal_line(void) {
    int other, fd;
    CHECK(!openpty(&other, &fd, NULL, NULL, NULL));
    begin();
    later(SOON, write_byte, (void *)(intptr_t)other);
    struct pollfd polled = {fd, POLLIN, 0};
    end(poll(&polled, 1, 2 * SOON));
}

/* The read times out, because no byte arrives within a tenth of a second. */
static void files_terminal_timeout(void) {
    int other, fd = terminal(0, 1, &other);
    begin();
    end(read(fd, data, 10));
}

static void files_terminal_timeout_byte(void) {
    int other, fd = terminal(0, 10, &other);
    begin();
    later(SOON, write_byte, (void *)(intptr_t)other);
    end(read(fd, data, 10));
}

/* The read ends a tenth of a second after the last byte. */
static void files_terminal_between(void) {
    int other, fd = terminal(5, 1, &other);
    begin();
    later(SOON, write_byte, (void *)(intptr_t)other);
    end(read(fd, data, 10));
}

/* ---- locks ---- */

static int file_twice(int *again) {
    char path[] = "/tmp/waits.XXXXXX";
    int fd = mkstemp(path);
    *again = open(path, O_RDWR);
    unlink(path);
    return fd;
}

static void files_flock(void) {
    int again, fd = file_twice(&again);
    flock(fd, LOCK_EX);
    begin();
    later(SOON, close_it, (void *)(intptr_t)fd);
    end(flock(again, LOCK_SH));
}

static void files_flock_child(void) {
    int again, fd = file_twice(&again);
    flock(fd, LOCK_EX);
    begin();
    if (fork() == 0) {
        usleep(SOON * 1000);
        _exit(0);
    }
    close(fd);
    end(flock(again, LOCK_EX));
}

static void files_flock_busy(void) {
    int again, fd = file_twice(&again);
    flock(fd, LOCK_EX);
    begin();
    end(flock(again, LOCK_EX | LOCK_NB));
}

static void lock_in_child(int fd, int ends[2]) {
    make_pipe(ends);
    if (fork() == 0) {
        CHECK(!lockf(fd, F_LOCK, 0));
        write_byte((void *)(intptr_t)ends[1]);
        usleep(SOON * 1000);
        _exit(0);
    }
    CHECK(read(ends[0], data, 1) == 1);
}

static void files_lockf(void) {
    int ends[2], again, fd = file_twice(&again);
    begin();
    lock_in_child(fd, ends);
    end(lockf(again, F_LOCK, 0));
}

static void files_setlkw(void) {
    struct flock lock = {.l_type = F_RDLCK, .l_whence = SEEK_SET};
    int ends[2], again, fd = file_twice(&again);
    begin();
    lock_in_child(fd, ends);
    end(fcntl(again, F_SETLKW, &lock));
}

static void files_ofd_setlkw(void) {
    struct flock lock = {.l_type = F_WRLCK, .l_whence = SEEK_SET};
    int again, fd = file_twice(&again);
    CHECK(!fcntl(fd, F_OFD_SETLK, &lock));
    begin();
    later(SOON, close_it, (void *)(intptr_t)fd);
    end(fcntl(again, F_OFD_SETLKW, &lock));
}

const struct wait files[] = {
    {"files_read", SOON, files_read},
    {"files_read_end", SOON, files_read_end},
    {"files_read_nonblocking", 0, files_read_nonblocking},
    {"files_readv", SOON, files_readv},
    {"files_preadv2", SOON, files_preadv2},
    {"files_write_full", SOON, files_write_full},
    {"files_write_much", SOON, files_write_much},
    {"files_broken", SOON, files_broken},
    {"files_eventfd", SOON, files_eventfd},
    {"files_splice", SOON, files_splice},
    {"files_tee", SOON, files_tee},
    {"files_fgets", SOON, files_fgets},
    {"files_open_read", SOON, files_open_read},
    {"files_open_write", SOON, files_open_write},
    {"files_terminal", SOON, files_terminal},
    {"files_terminal_epoll", SOON, files_terminal_epoll},
    {"files_terminal_line", 2 * SOON, files_terminal_line},
    {"files_terminal_timeout", 100, files_terminal_timeout},
    {"files_terminal_timeout_byte", SOON, files_terminal_timeout_byte},
    {"files_terminal_between", SOON + 100, files_terminal_between},
    {"files_flock", SOON, files_flock},
    {"files_flock_child", SOON, files_flock_child},
    {"files_flock_busy", 0, files_flock_busy},
    {"files_lockf", SOON, files_lockf},
    {"files_setlkw", SOON, files_setlkw},
    {"files_ofd_setlkw", SOON, files_ofd_setlkw},
    {NULL, 0, NULL},
};
