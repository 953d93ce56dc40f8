/* Reads that bypass the library's receive functions get the frame and nothing else, with buffers of any size: splice,
 * preadv2, stdio, direct system calls and io_uring. */
#include "check.h"
#include <linux/io_uring.h>
#include <sys/mman.h>
#include <sys/syscall.h>
#include <sys/uio.h>

static int writer, reader;

static struct canfd_frame fd_frame(unsigned number) {
    struct canfd_frame frame = {.can_id = 0x123, .len = 64};
    for (int i = 0; i < 64; i++) {
        frame.data[i] = (unsigned char)(number + (unsigned)i);
    }
    return frame;
}

/* Checks that a read with this function and buffer size returns a whole classic frame and a whole FD frame. */
static void is_whole(ssize_t (*get)(char *room, size_t length), size_t room) {
    char data[300];
    static unsigned number;
    struct can_frame frame = frame_of(0x123, ++number);
    struct canfd_frame longer = fd_frame(++number);
    longer.flags = CANFD_FDF;
    CHECK(write(writer, &frame, sizeof frame) == sizeof frame &&
          write(writer, &longer, sizeof longer) == sizeof longer);
    memset(data, 0x55, sizeof data);
    CHECK(comes(reader, PATIENCE));
    CHECK(get(data, room) == (ssize_t)(room < sizeof frame ? room : sizeof frame));
    CHECK(!memcmp(data, &frame, room < sizeof frame ? room : sizeof frame));
    CHECK(comes(reader, PATIENCE));
    CHECK(get(data, room) == (ssize_t)(room < sizeof longer ? room : sizeof longer));
    CHECK(!memcmp(data, &longer, room < sizeof longer ? room : sizeof longer));
    CHECK(!comes(reader, 0));
}

static ssize_t by_preadv2(char *room, size_t length) {
    return preadv2(reader, &(struct iovec){room, length}, 1, -1, 0);
}

static ssize_t by_splice(char *room, size_t length) {
    int ends[2];
    CHECK(pipe(ends) == 0);
    ssize_t moved = splice(reader, NULL, ends[1], NULL, length, 0);
    CHECK(moved < 0 || read(ends[0], room, (size_t)moved) == moved);
    CHECK(close(ends[0]) == 0 && close(ends[1]) == 0);
    return moved;
}

static ssize_t by_system_call(char *room, size_t length) {
    return syscall(SYS_read, reader, room, length);
}

/* Makes the system call without the C library. */
static ssize_t by_instruction(char *room, size_t length) {
#ifdef __x86_64__
    ssize_t result;
    asm volatile("syscall"
                 : "=a"(result)
                 : "0"((long)SYS_read), "D"((long)reader), "S"(room), "d"(length)
                 : "rcx", "r11", "memory");
    return result;
#else
    return by_system_call(room, length);
#endif
}

static ssize_t by_stdio(char *room, size_t length) {
    static FILE *file;
    if (!file) {
        int copy = dup(reader);
        CHECK(copy >= 0 && (file = fdopen(copy, "r")) && fileno(file) == copy);
    }
    return (ssize_t)fread(room, 1, length, file);
}

/* A minimal io_uring, with one request at a time. */
static struct {
    int fd;
    unsigned *tail, *mask, *array, *head_of_ends, *mask_of_ends;
    struct io_uring_sqe *requests;
    struct io_uring_cqe *ends;
} uring;

static bool start_uring(void) {
    struct io_uring_params params = {0};
    uring.fd = (int)syscall(SYS_io_uring_setup, 4, &params);
    if (uring.fd < 0) {
        return false;
    }
    size_t size = params.cq_off.cqes + params.cq_entries * sizeof *uring.ends;
    char *ring = mmap(NULL, size, PROT_READ | PROT_WRITE, MAP_SHARED, uring.fd, IORING_OFF_SQ_RING);
    uring.requests = mmap(NULL, params.sq_entries * sizeof *uring.requests, PROT_READ | PROT_WRITE, MAP_SHARED,
                          uring.fd, IORING_OFF_SQES);
    CHECK(ring != MAP_FAILED && (void *)uring.requests != MAP_FAILED);
    uring.tail = (unsigned *)(void *)(ring + params.sq_off.tail);
    uring.mask = (unsigned *)(void *)(ring + params.sq_off.ring_mask);
    uring.array = (unsigned *)(void *)(ring + params.sq_off.array);
    uring.head_of_ends = (unsigned *)(void *)(ring + params.cq_off.head);
    uring.mask_of_ends = (unsigned *)(void *)(ring + params.cq_off.ring_mask);
    uring.ends = (struct io_uring_cqe *)(void *)(ring + params.cq_off.cqes);
    return true;
}

static ssize_t by_uring(char *room, size_t length) {
    unsigned at = *uring.tail & *uring.mask;
    uring.requests[at] = (struct io_uring_sqe){
        .opcode = IORING_OP_READ, .fd = reader, .addr = (unsigned long)room, .len = (unsigned)length, .off = -1ul};
    uring.array[at] = at;
    __atomic_store_n(uring.tail, *uring.tail + 1, __ATOMIC_RELEASE);
    CHECK(syscall(SYS_io_uring_enter, uring.fd, 1, 1, IORING_ENTER_GETEVENTS, NULL, 0) == 1);
    ssize_t result = uring.ends[*uring.head_of_ends & *uring.mask_of_ends].res;
    __atomic_store_n(uring.head_of_ends, *uring.head_of_ends + 1, __ATOMIC_RELEASE);
    return result;
}

/* Each frame is returned with its own flags and address, even if the reads of earlier frames bypassed the library. */
static void notes_are_right(void) {
    struct sockaddr_can from;
    char data[72];
    set(reader, CAN_RAW_RECV_OWN_MSGS, 1);
    for (unsigned i = 0; i < 300; i++) {
        struct can_frame frame;
        socklen_t length = sizeof from;
        int own = i % 3 == 0;
        /* The bridge may still be sending the last of several identical frames. After a frame that bypassed the
         * library, this call waits for the bridge. */
        send_numbered(own ? reader : writer, 0x200, i < 7 ? i : i / 7);
        CHECK(comes(reader, PATIENCE));
        if (i % 2) {
            CHECK(by_instruction(data, sizeof data) == sizeof frame);
            continue;
        }
        struct iovec part = {&frame, sizeof frame};
        struct msghdr message = {.msg_iov = &part, .msg_iovlen = 1, .msg_name = &from, .msg_namelen = length};
        CHECK(recvmsg(reader, &message, 0) == sizeof frame && from.can_family == AF_CAN);
        CHECK(from.can_ifindex == (int)if_nametoindex("can1"));
        CHECK((message.msg_flags & MSG_CONFIRM) == (own ? MSG_CONFIRM : 0));
    }
}

/* Streams on descriptors other than sockets work as before. */
static void other_streams(void) {
    char *text = NULL;
    size_t size;
    FILE *memory = open_memstream(&text, &size), *file = tmpfile(), *copy = fdopen(dup(fileno(file)), "w+");
    FAILS(fileno(memory), EBADF);
    CHECK(fprintf(memory, "text") == 4 && fclose(memory) == 0 && !strcmp(text, "text"));
    CHECK(copy && fwrite("text", 1, 4, copy) == 4 && fclose(copy) == 0);
    CHECK(fseek(file, 0, SEEK_END) == 0 && ftell(file) == 4 && fclose(file) == 0);
    free(text);
}

int main(void) {
    static const size_t rooms[] = {16, 72, 100, 40, 8, 17, 300};
    writer = bound("can0");
    reader = bound("can1");
    set(writer, CAN_RAW_FD_FRAMES, 1);
    set(reader, CAN_RAW_FD_FRAMES, 1);
    bool has_uring = start_uring();
    for (size_t i = 0; i < sizeof rooms / sizeof *rooms; i++) {
        is_whole(by_preadv2, rooms[i]);
        is_whole(by_splice, rooms[i]);
        is_whole(by_system_call, rooms[i]);
        is_whole(by_instruction, rooms[i]);
        if (has_uring) {
            is_whole(by_uring, rooms[i]);
        }
    }
    notes_are_right();
    other_streams();
    for (unsigned i = 0; i < 100; i++) {
        char data[16];
        struct can_frame frame = frame_of(0x123, i);
        send_numbered(writer, 0x123, i);
        CHECK(by_stdio(data, sizeof data) == sizeof data && !memcmp(data, &frame, sizeof data));
    }
    return 0;
}
