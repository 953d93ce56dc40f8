/* unseen nanosleep | futex | io_uring_enter | spin | sndtimeo | io_uring: waits that the library does not see, or that
 * have their own timeout. The first three make system calls directly, as Go programs do, without the C library. */
#define _GNU_SOURCE
#include <errno.h>
#include <linux/futex.h>
#include <linux/io_uring.h>
#include <stdio.h>
#include <string.h>
#include <sys/socket.h>
#include <sys/syscall.h>
#include <sys/time.h>
#include <time.h>
#include <unistd.h>

/* Makes a system call without the C library. */
static long call(long number, long a, long b, long c, long d) {
    long result;
    register long r10 __asm__("r10") = d;
    register long r8 __asm__("r8") = 0;
    __asm__ volatile("syscall"
                     : "=a"(result)
                     : "a"(number), "D"(a), "S"(b), "d"(c), "r"(r10), "r"(r8)
                     : "rcx", "r11", "memory");
    return result;
}

/* Reads the clock, and sleeps on a word for a second, as Go's scheduler does. */
static int sleep_on_word(void) {
    static int word;
    struct timespec now, second = {1, 0};
    call(SYS_clock_gettime, CLOCK_MONOTONIC, (long)&now, 0, 0);
    return call(SYS_futex, (long)&word, FUTEX_WAIT | FUTEX_PRIVATE_FLAG, 0, (long)&second) == -ETIMEDOUT ? 0 : 1;
}

/* Waits for a completion in a ring that has no requests. */
static int wait_for_ring(void) {
    struct io_uring_params parameters = {0};
    long fd = call(SYS_io_uring_setup, 8, (long)&parameters, 0, 0);
    return fd < 0 ? 77 : (int)call(SYS_io_uring_enter, fd, 0, 1, IORING_ENTER_GETEVENTS);
}

/* Sends into a full socket whose SO_SNDTIMEO is 20 ms, and prints how long the call took. */
static int send_late(void) {
    static char data[65536];
    struct timespec before, now;
    int ends[2];
    socketpair(AF_UNIX, SOCK_STREAM, 0, ends);
    setsockopt(ends[0], SOL_SOCKET, SO_SNDTIMEO, &(struct timeval){0, 20000}, sizeof(struct timeval));
    while (send(ends[0], data, sizeof data, MSG_DONTWAIT) > 0) {
    }
    clock_gettime(CLOCK_MONOTONIC, &before);
    ssize_t sent = send(ends[0], data, sizeof data, 0);
    int error = errno;
    clock_gettime(CLOCK_MONOTONIC, &now);
    printf("%zd %s %ld\n", sent, error == EAGAIN ? "EAGAIN" : strerror(error), (now.tv_nsec - before.tv_nsec) / 1000);
    return 0;
}

int main(int count, char **words) {
    static volatile int never;
    const char *word = count == 2 ? words[1] : "";
    if (!strcmp(word, "nanosleep")) {
        return (int)call(SYS_nanosleep, (long)&(struct timespec){1, 0}, 0, 0, 0);
    }
    if (!strcmp(word, "futex")) {
        return sleep_on_word();
    }
    if (!strcmp(word, "io_uring_enter")) {
        return wait_for_ring();
    }
    if (!strcmp(word, "spin")) {
        while (!never) {
        }
    }
    if (!strcmp(word, "io_uring")) {
        return syscall(SYS_io_uring_setup, 8, NULL) < 0 && errno == ENOSYS ? 0 : 1;
    }
    return strcmp(word, "sndtimeo") ? 2 : send_late();
}
