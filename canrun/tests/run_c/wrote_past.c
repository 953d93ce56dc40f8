/* Writes that do not use the socket functions. Each write sends exactly its frame, or is refused as the kernel would
 * refuse it. If the library does not see a write, a refusal is reported as the socket's error, after a line on standard
 * error. */
#include "check.h"
#include <fcntl.h>
#include <linux/can/isotp.h>
#include <sys/sendfile.h>
#include <sys/syscall.h>
#include <sys/uio.h>

static int writer, reader;
/* Whether the sockets are the kernel's own sockets, which refuse a write at once. */
static bool is_kernel;

static int error_of(int fd) {
    int error = -1;
    socklen_t length = sizeof error;
    CHECK(getsockopt(fd, SOL_SOCKET, SO_ERROR, &error, &length) == 0);
    return error;
}

static ssize_t by_pwritev2(int fd, const void *data, size_t length) {
    return pwritev2(fd, &(struct iovec){(void *)data, length}, 1, -1, 0);
}

static ssize_t by_system_call(int fd, const void *data, size_t length) {
    return syscall(SYS_write, fd, data, length);
}

static ssize_t by_number_of_sendto(int fd, const void *data, size_t length) {
    return syscall(SYS_sendto, fd, data, length, 0, NULL, 0);
}

/* Writes by splice from a pipe. A refused frame stays in the pipe. */
static ssize_t by_splice(int fd, const void *data, size_t length) {
    int ends[2], left = 0;
    CHECK(pipe(ends) == 0 && write(ends[1], data, length) == (ssize_t)length);
    ssize_t done = splice(ends[0], NULL, fd, NULL, length, 0);
    int error = errno;
    CHECK(ioctl(ends[0], FIONREAD, &left) == 0 && left == (done < 0 ? (int)length : 0));
    CHECK(close(ends[0]) == 0 && close(ends[1]) == 0);
    errno = error;
    return done;
}

static ssize_t by_sendfile(int fd, const void *data, size_t length) {
    FILE *file = tmpfile();
    CHECK(file && fwrite(data, 1, length, file) == length && fflush(file) == 0);
    off_t from = 0;
    ssize_t done = sendfile(fd, fileno(file), &from, length);
    int error = errno;
    CHECK(from == (done < 0 ? 0 : done) && fclose(file) == 0);
    errno = error;
    return done;
}

static ssize_t by_stream(int fd, const void *data, size_t length) {
    FILE *file = fdopen(dup(fd), "w");
    CHECK(file && fwrite(data, 1, length, file) == length);
    int result = fflush(file), error = errno;
    CHECK(!!ferror(file) == !!result);
    fclose(file);
    errno = error;
    return result ? -1 : (ssize_t)length;
}

/* Makes the system call without the C library. */
static ssize_t by_instruction(int fd, const void *data, size_t length) {
    ssize_t result;
#ifdef __x86_64__
    asm volatile("syscall"
                 : "=a"(result)
                 : "0"((long)SYS_write), "D"((long)fd), "S"(data), "d"(length)
                 : "rcx", "r11", "memory");
#else
    result = write(fd, data, length);
#endif
    return result;
}

static ssize_t (*const ways[])(int fd, const void *data, size_t length) = {
    by_pwritev2, by_system_call, by_number_of_sendto, by_splice, by_sendfile, by_stream,
};
#define WAYS (sizeof ways / sizeof *ways)

static void frames_are_sent(void) {
    for (unsigned i = 0; i < 10 * WAYS; i++) {
        struct can_frame frame = frame_of(0x123, i);
        CHECK(ways[i % WAYS](writer, &frame, sizeof frame) == sizeof frame);
        get(reader, 0x123, i);
    }
    CHECK(!comes(reader, QUIET));
}

static void others_are_refused(void) {
    struct canfd_frame frame = {.can_id = 0x123, .len = 8};
    int unbound = socket(PF_CAN, SOCK_RAW, CAN_RAW);
    for (unsigned i = 0; i < WAYS; i++) {
        FAILS(ways[i](writer, &frame, 15), EINVAL);
        FAILS(ways[i](writer, &frame, 17), EINVAL);
        FAILS(ways[i](writer, &frame, 72), EINVAL); /* CAN_RAW_FD_FRAMES is off. */
        FAILS(ways[i](unbound, &frame, 16), ENXIO);
    }
    frame.len = 9;
    FAILS(by_pwritev2(writer, &frame, 16), EINVAL);
    FAILS(pwritev2(writer, &(struct iovec){&frame, 16}, 1, -1, 0x4000), EOPNOTSUPP);
    FAILS(pwritev2(writer, &(struct iovec){&frame, 16}, 1, 0, 0), ESPIPE);
    FAILS(pwritev2(writer, &(struct iovec){&frame, 16}, 1, -2, 0), EINVAL);
    CHECK(!comes(reader, QUIET) && close(unbound) == 0);
}

/* Writes that the library does not see. The Unix socket under the CAN socket accepts any bytes, so the refusal comes a
 * little later. */
static void unseen(void) {
    struct can_frame frame = frame_of(0x123, 7);
    char data[72];
    CHECK(by_instruction(writer, &frame, sizeof frame) == sizeof frame);
    get(reader, 0x123, 7);
    CHECK(error_of(writer) == 0);
    if (is_kernel) {
        return;
    }
    CHECK(by_instruction(writer, &frame, 15) == 15 && comes(writer, PATIENCE));
    FAILS(read(writer, data, sizeof data), EINVAL);
    FAILS(recv(writer, data, sizeof data, MSG_DONTWAIT), EAGAIN);
    CHECK(by_instruction(writer, &frame, 15) == 15 && comes(writer, PATIENCE));
    CHECK(error_of(writer) == EINVAL && error_of(writer) == 0);
    send_numbered(writer, 0x123, 8);
    get(reader, 0x123, 8);
}

/* Writes that the library does not see, on CAN_ISOTP and CAN_BCM sockets. */
static void other_protocols(void) {
    struct sockaddr_can address = address_of("can0");
    int manager = socket(PF_CAN, SOCK_DGRAM, CAN_BCM), isotp = socket(PF_CAN, SOCK_DGRAM, CAN_ISOTP);
    CHECK(connect(manager, (struct sockaddr *)&address, sizeof address) == 0);
    address.can_addr.tp.tx_id = 0x321;
    address.can_addr.tp.rx_id = 0x322;
    CHECK(bind(isotp, (struct sockaddr *)&address, sizeof address) == 0);
    CHECK(by_instruction(isotp, "hello", 5) == 5);
    struct can_frame frame = got(reader);
    CHECK(frame.can_id == 0x321 && frame.can_dlc == 6 && !memcmp(frame.data, "\5hello", 6));
    CHECK(by_pwritev2(isotp, "again", 5) == 5);
    frame = got(reader);
    CHECK(frame.can_id == 0x321 && !memcmp(frame.data, "\5again", 6));
    CHECK(is_kernel ||
          (by_instruction(manager, "short", 5) == 5 && comes(manager, PATIENCE) && error_of(manager) == EINVAL));
    FAILS(by_splice(manager, "short", 5), EINVAL);
    CHECK(close(manager) == 0 && close(isotp) == 0);
}

int main(void) {
    writer = bound("can0");
    reader = bound("can1");
    is_kernel = by_instruction(writer, "", 1) == -EINVAL;
    CHECK(is_kernel || (comes(writer, PATIENCE) && error_of(writer) == EINVAL));
    frames_are_sent();
    others_are_refused();
    unseen();
    other_protocols();
    return 0;
}
