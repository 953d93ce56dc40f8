/* The bridge of one CAN socket: its start, main loop and end. */
#define _GNU_SOURCE
#include "bridge.h"
#include "j1939_host.h"

#include <errno.h>
#include <fcntl.h>
#include <poll.h>
#include <signal.h>
#include <sys/mman.h>
#include <sys/resource.h>
#include <sys/socket.h>
#include <sys/un.h>
#include <unistd.h>

/* The protocols, indexed by their numbers in linux/can.h. */
static const struct protocol *const protocols[CAN_NPROTO] = {
    [CAN_RAW] = &raw_protocol,
    [CAN_BCM] = &bcm_protocol,
    [CAN_J1939] = &j1939_protocol,
    [CAN_ISOTP] = &isotp_protocol,
};
const struct protocol *protocol;
struct wire_memory *memory;
const char *refusal = "";

int refused(int error, const char *why) {
    refusal = why;
    return error;
}

bool protocol_is_busy(void) {
    return protocol->is_busy && protocol->is_busy();
}

/* Detaches the bridge from the program's output, session and directory, so that no process waits for the bridge. */
static void leave_program(void) {
    sigset_t none;
    struct rlimit limit;
    int null = open("/dev/null", O_RDWR);
    for (int fd = 0; fd < PROGRAM; fd++) {
        if (null >= 0) {
            dup2(null, fd);
        } else {
            close(fd);
        }
    }
    if (null > WIRE_MEMORY) {
        close(null);
    }
    /* The program's limit on file descriptors should not apply to the bridge. */
    if (!getrlimit(RLIMIT_NOFILE, &limit)) {
        limit.rlim_cur = limit.rlim_max;
        setrlimit(RLIMIT_NOFILE, &limit);
    }
    setsid();
    if (chdir("/")) {
        /* If this fails, the program's directory stays in use. */
    }
    for (int number = 1; number < NSIG; number++) {
        signal(number, SIG_DFL);
    }
    signal(SIGPIPE, SIG_IGN);
    sigemptyset(&none);
    sigprocmask(SIG_SETMASK, &none, NULL);
}

static int64_t sooner(int64_t one, int64_t other) {
    return one < 0 ? other : other < 0 ? one : MIN(one, other);
}

/* While this function runs, items may arrive together with the verdict on a frame that is sent here. So the loop
 * repeats until order_due has queried the sessions about these items. */
static int64_t do_due(void) {
    int64_t due;
    do {
        due = sooner(order_due(), protocol->due());
        due = sooner(due, room_due());
    } while (order_has_news());
    return sooner(due, outbox_counts_due());
}

/* Returns whether an accepted message has not been sent yet. Frames that wait for room are dropped after PATIENCE
 * seconds. */
static bool is_busy(uint64_t closed) {
    return protocol_is_busy() || (room_has_unasked() && clock_now() - closed < PATIENCE * SECOND);
}

/* Returns whether a signal has interrupted a close that waits. The message is then abandoned, as in the kernel. */
static bool close_is_over(void) {
    struct pollfd polled = {close_waiter_fd(), POLLIN, 0};
    return polled.fd >= 0 && poll(&polled, 1, 0) > 0;
}

/* Serves the socket until it is closed and all accepted messages have been sent. If the server is gone, the socket gets
 * an error and is no longer bound. */
static void serve(void) {
    uint64_t closed = 0;
    for (;;) {
        int64_t due = do_due();
        request_release();
        if (closed && (!is_busy(closed) || close_is_over())) {
            return;
        }
        if (sessions_ended() && sessions_leave()) {
            error_set(ENODEV);
        }
        bool takes_requests =
            !closed && room_takes_requests() && (!protocol->takes_requests || protocol->takes_requests());
        if (wait_for_input(due, takes_requests) && !request_serve()) {
            closed = clock_now();
        }
    }
}

/* Finds the protocol for the digit in the socket's name. Returns false if there is no such protocol. */
static bool find_protocol(char digit) {
    protocol = digit >= '0' && digit < '0' + CAN_NPROTO ? protocols[digit - '0'] : NULL;
    return protocol;
}

int main(void) {
    struct sockaddr_un name;
    socklen_t length = sizeof name;
    if (host_is_asked()) {
        leave_program();
        return host_run();
    }
    if (keeper_is_asked_for()) {
        leave_program();
        keeper_run();
        return 0;
    }
    if (getpeername(PROGRAM, (struct sockaddr *)&name, &length) ||
        length <= offsetof(struct sockaddr_un, sun_path) + sizeof WIRE_NAME ||
        !find_protocol(name.sun_path[sizeof WIRE_NAME])) {
        static const char text[] =
            "canbusd-bridge: this is started by programs under canbusd-run, see canbusd-run(1)\n";
        return write(STDERR_FILENO, text, sizeof text - 1) < 0 ? 1 : 125;
    }
    memory = mmap(NULL, sizeof *memory, PROT_READ | PROT_WRITE, MAP_SHARED, WIRE_MEMORY, 0);
    if (memory == MAP_FAILED) {
        return 125;
    }
    leave_program();
    if (protocol->open) {
        protocol->open();
    }
    serve();
    sessions_leave();
    memory->is_over = 1;
    return 0;
}
