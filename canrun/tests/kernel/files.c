/* File and pipe calls on CAN sockets. The socket a writes or reads, and b is at the other end of the bus. */
#include "probe.h"
#include <sys/sendfile.h>
#include <sys/syscall.h>

static struct iovec *part(void *data, size_t length) {
    static struct iovec one;
    one = (struct iovec){data, length};
    return &one;
}
static char room[200];

#define READS(name, ...) CASE(name, a = raw("can1"), b = raw("can0"), with_fd(a), with_fd(b), __VA_ARGS__)
READS(preadv2_16, PUT(b, 0x123), until(a, POLLIN), DO(preadv2(a, part(room, 16), 1, -1, 0)))
READS(preadv2_100, PUT(b, 0x123), until(a, POLLIN), DO(preadv2(a, part(room, 100), 1, -1, 0)))
READS(preadv2_fd, put_fd(b, FD(0x123, 0, 1)), until(a, POLLIN), DO(preadv2(a, part(room, 200), 1, -1, 0)))
READS(preadv2_8, PUT(b, 0x123), until(a, POLLIN), DO(preadv2(a, part(room, 8), 1, -1, 0)), glance(a))
READS(preadv2_0, PUT(b, 0x123), until(a, POLLIN), DO(preadv2(a, part(room, 0), 1, -1, 0)), look(a))
READS(preadv2_offset, DO(preadv2(a, part(room, 16), 1, 0, 0)), DO(preadv2(a, part(room, 16), 1, -2, 0)))
READS(preadv2_flags, DO(preadv2(a, part(room, 16), 1, -1, 0x4000)))
READS(pread, DO(pread(a, room, 16, 0)), DO(preadv(a, part(room, 16), 1, 0)))
READS(pwrite, DO(pwrite(a, room, 16, 0)), DO(pwritev(a, part(room, 16), 1, 0)))
READS(read_0, PUT(b, 0x123), until(a, POLLIN), DO(read(a, room, 0)), DO(recv(a, room, 0, 0)), glance(a))
READS(read_by_number, PUT(b, 0x123), until(a, POLLIN), DO(syscall(SYS_read, a, room, 100)))
READS(readv_none, DO(readv(a, part(room, 16), 0)))

/* Makes a pipe; c and d are its ends. */
static void pipes(void) {
    int ends[2];
    OPEN(pipe(ends));
    c = ends[0];
    d = ends[1];
    fcntl(c, F_SETFL, O_NONBLOCK);
}
READS(splice_16, pipes(), PUT(b, 0x123), until(a, POLLIN), DO(splice(a, NULL, d, NULL, 16, 0)),
      DO(read(c, room, sizeof room)))
READS(splice_100, pipes(), PUT(b, 0x123), until(a, POLLIN), DO(splice(a, NULL, d, NULL, 100, 0)),
      DO(read(c, room, sizeof room)))
READS(splice_fd, pipes(), put_fd(b, FD(0x123, 0, 1)), until(a, POLLIN), DO(splice(a, NULL, d, NULL, 4096, 0)),
      DO(read(c, room, sizeof room)))
READS(splice_8, pipes(), PUT(b, 0x123), PUT(b, 0x124), until(a, POLLIN), DO(splice(a, NULL, d, NULL, 8, 0)), look(a))
READS(splice_0, pipes(), DO(splice(a, NULL, d, NULL, 0, 0)))
READS(splice_offset, pipes(), DO(splice(a, &(off64_t){0}, d, NULL, 16, 0)))
READS(splice_to_socket, DO(splice(a, NULL, b, NULL, 16, 0)))
READS(splices, pipes(), DO(write(d, FRAME(0x123, 1), 16)), DO(splice(c, NULL, b, NULL, 16, 0)), look(a))
READS(splices_fd, pipes(), DO(write(d, FD(0x123, 0, 1), 72)), DO(splice(c, NULL, b, NULL, 72, 0)), look(a))
READS(splices_more, pipes(), DO(write(d, FRAME(0x123, 1), 16)), DO(splice(c, NULL, b, NULL, 100, 0)), look(a))
READS(splices_15, pipes(), DO(write(d, FRAME(0x123, 1), 15)), DO(splice(c, NULL, b, NULL, 15, 0)),
      DO(read(c, room, sizeof room)))
READS(splices_32, pipes(), DO(write(d, (struct can_frame[2]){0}, 32)), DO(splice(c, NULL, b, NULL, 32, 0)))
READS(splices_none, pipes(), DO(splice(c, NULL, b, NULL, 16, SPLICE_F_NONBLOCK)))
CASE(splices_unbound, a = socket(PF_CAN, SOCK_RAW, CAN_RAW), pipes(), DO(write(d, FRAME(0x123, 1), 16)),
     DO(splice(c, NULL, a, NULL, 16, 0)))

/* Makes a file that contains this frame; c is its descriptor. */
static void file_of(const void *data, size_t length) {
    char path[] = "/tmp/probe-XXXXXX";
    OPEN(c = mkstemp(path));
    unlink(path);
    DO(write(c, data, length));
    lseek(c, 0, SEEK_SET);
}
READS(sendfile_16, file_of(FRAME(0x123, 1), 16), DO(sendfile(b, c, NULL, 16)), look(a), DO(lseek(c, 0, SEEK_CUR)))
READS(sendfile_offset, file_of(FD(0x123, 0, 1), 72), DO(sendfile(b, c, &(off_t){0}, 72)), look(a),
      DO(lseek(c, 0, SEEK_CUR)))
READS(sendfile_past, file_of(FRAME(0x123, 1), 16), DO(sendfile(b, c, &(off_t){16}, 16)))
READS(sendfile_15, file_of(FRAME(0x123, 1), 15), DO(sendfile(b, c, NULL, 15)), DO(lseek(c, 0, SEEK_CUR)))
READS(sendfile_none, file_of("", 0), DO(sendfile(b, c, NULL, 0)))
READS(sendfile_from, file_of("", 0), DO(sendfile(c, a, NULL, 16)))

READS(pwritev2_16, DO(pwritev2(b, part(FRAME(0x123, 1), 16), 1, -1, 0)), look(a))
READS(pwritev2_flags, DO(pwritev2(b, part(FRAME(0x123, 1), 16), 1, -1, RWF_DSYNC)), look(a),
      DO(pwritev2(b, part(FRAME(0x123, 1), 16), 1, -1, 0x4000)))
READS(pwritev2_15, DO(pwritev2(b, part(FRAME(0x123, 1), 15), 1, -1, 0)))
READS(pwritev2_offset, DO(pwritev2(b, part(FRAME(0x123, 1), 16), 1, 0, 0)))
READS(write_by_number, DO(syscall(SYS_write, b, FRAME(0x123, 1), 16)), look(a),
      DO(syscall(SYS_write, b, FRAME(0x123, 1), 15)))

/* Uses a stdio stream: prints the results of fread and fwrite, and whether the stream has an error. */
static void streams(int fd, const char *mode, size_t length) {
    FILE *file = fdopen(fd, mode);
    if (!file) {
        result(-1);
        return;
    }
    bool is_read = *mode == 'r' && !mode[1];
    DO(is_read ? fread(room, 1, length, file) : fwrite(room, 1, length, file));
    DO(is_read ? 0 : fflush(file));
    say(":%d%d%d", !!ferror(file), !!feof(file), fileno(file) == fd);
}
READS(stream_reads, PUT(b, 0x123), until(a, POLLIN), streams(a, "r", 16))
READS(stream_reads_fd, put_fd(b, FD(0x123, 0, 1)), until(a, POLLIN), streams(a, "r", 72))
READS(stream_writes, memcpy(room, FRAME(0x123, 1), 16), streams(b, "w", 16), look(a))
READS(stream_writes_15, streams(b, "w", 15))
READS(stream_both, memcpy(room, FRAME(0x123, 1), 16), streams(b, "r+", 16), look(a))
READS(stream_of_no_mode, streams(b, "x", 16))
READS(stream_closes, DO(fclose(fdopen(b, "w"))), DO(write(b, room, 16)))

CASE(bcm_preadv2, a = bcm("can0"), b = raw("can1"),
     TELL(a, NONE, .opcode = RX_SETUP, .flags = RX_FILTER_ID, .can_id = 0x123), PUT(b, 0x123), until(a, POLLIN),
     DO(preadv2(a, part(room, 200), 1, -1, 0)))
CASE(isotp_preadv2, a = tp(RX, TX, 0), b = raw("can1"), SAYS(b, 3, 1, 2, 3), until(a, POLLIN),
     DO(preadv2(a, part(room, 200), 1, -1, 0)))
CASE(isotp_unbound, a = isotp(), DO(preadv2(a, part(room, 200), 1, -1, 0)), DO(syscall(SYS_read, a, room, 10)))
