/* The kernel's behaviour in unusual calls: invalid types, flags, addresses and pointers, and messages of the broadcast
 * manager. */
#include "check.h"
#include <linux/can/isotp.h>
#include <linux/sockios.h>
#include <sys/mman.h>

/* Memory that is not accessible, and a null pointer that is hidden from the compiler. */
static char *nowhere, *volatile null;

static void types(void) {
    FAILS(socket(PF_CAN, 77, CAN_RAW), EINVAL);
    FAILS(socket(PF_CAN, SOCK_RAW | 0x100, CAN_RAW), EINVAL);
    FAILS(socket(PF_CAN, SOCK_STREAM, CAN_RAW), EPROTOTYPE);
    FAILS(socket(PF_CAN, SOCK_STREAM, CAN_ISOTP), EPROTOTYPE);
    int fd = socket(PF_CAN, SOCK_RAW, CAN_RAW);
    FAILS(accept4(fd, NULL, NULL, 0x7000), EINVAL);
    FAILS(accept4(fd, NULL, NULL, SOCK_CLOEXEC), EOPNOTSUPP);
    struct ucred peer;
    socklen_t length = sizeof peer;
    CHECK(getsockopt(fd, SOL_SOCKET, SO_PEERCRED, &peer, &length) == 0 && length == sizeof peer);
    CHECK(peer.pid == 0 && peer.uid == (uid_t)-1 && peer.gid == (gid_t)-1);
    CHECK(setsockopt(fd, SOL_SOCKET, SO_BINDTODEVICE, "can0", 5) == 0);
    FAILS(setsockopt(fd, SOL_SOCKET, SO_BINDTODEVICE, "can7", 5), ENODEV);
    CHECK(close(fd) == 0);
}

static void addresses(void) {
    int fd = bound("can0"), reader = bound("can1");
    struct {
        struct sockaddr_can can;
        char more[200];
    } to = {.can = address_of("can0")};
    struct can_frame frame = frame_of(0x123, 1);
    const struct sockaddr *address = (struct sockaddr *)&to;
    CHECK(sendto(fd, &frame, sizeof frame, 0, address, 128) == sizeof frame);
    get(reader, 0x123, 1);
    FAILS(sendto(fd, &frame, sizeof frame, 0, address, 129), EINVAL);
    FAILS(sendto(fd, &frame, sizeof frame, 0, address, -1), EINVAL);
    FAILS(bind(fd, address, 129), EINVAL);
    FAILS(bind(fd, address, -1), EINVAL);
    to.can.can_ifindex = -1;
    FAILS(sendto(fd, &frame, sizeof frame, 0, address, sizeof to.can), ENXIO);
    FAILS(bind(fd, address, sizeof to.can), ENODEV);
    send_numbered(fd, 0x123, 2);
    get(reader, 0x123, 2);
    CHECK(close(fd) == 0 && close(reader) == 0);
}

/* A frame that is written and read in more pieces than it has bytes. */
static void pieces(void) {
    int fd = bound("can0"), reader = bound("can1");
    struct can_frame frame = frame_of(0x123, 7), back = {0};
    static struct iovec parts[1025];
    for (size_t i = 0; i < sizeof frame; i++) {
        parts[i * 60] = (struct iovec){(char *)&frame + i, 1};
    }
    CHECK(writev(fd, parts, 1024) == sizeof frame);
    FAILS(writev(fd, parts, 1025), EINVAL);
    CHECK(comes(reader, PATIENCE));
    for (size_t i = 0; i < sizeof frame; i++) {
        parts[i * 60].iov_base = (char *)&back + i;
    }
    CHECK(readv(reader, parts, 1024) == sizeof frame && number_of(&back) == 7);
    CHECK(close(fd) == 0 && close(reader) == 0);
}

static void pointers_of_writes(int fd) {
    struct msghdr message = {.msg_iov = (struct iovec *)nowhere, .msg_iovlen = 1};
    struct can_frame frame = frame_of(0x123, 1);
    FAILS(write(fd, nowhere, sizeof frame), EFAULT);
    FAILS(write(fd, null, sizeof frame), EFAULT);
    FAILS(send(fd, nowhere, sizeof frame, 0), EFAULT);
    FAILS(sendto(fd, &frame, sizeof frame, 0, (struct sockaddr *)nowhere, sizeof(struct sockaddr_can)), EFAULT);
    FAILS(sendmsg(fd, (struct msghdr *)nowhere, 0), EFAULT);
    FAILS(sendmsg(fd, &message, 0), EFAULT);
    FAILS(writev(fd, (struct iovec *)nowhere, 1), EFAULT);
    FAILS(bind(fd, (struct sockaddr *)nowhere, sizeof(struct sockaddr_can)), EFAULT);
    FAILS(setsockopt(fd, SOL_CAN_RAW, CAN_RAW_FILTER, nowhere, sizeof(struct can_filter)), EFAULT);
    FAILS(setsockopt(fd, SOL_CAN_RAW, CAN_RAW_LOOPBACK, nowhere, sizeof(int)), EFAULT);
}

static void pointers_of_reads(int fd, int writer) {
    struct can_frame frame;
    socklen_t length = 16;
    for (unsigned i = 0; i < 4; i++) {
        send_numbered(writer, 0x123, i);
    }
    CHECK(comes(fd, PATIENCE));
    FAILS(read(fd, nowhere, sizeof frame), EFAULT);
    FAILS(recv(fd, null, sizeof frame, 0), EFAULT);
    FAILS(recvmsg(fd, (struct msghdr *)nowhere, 0), EFAULT);
    FAILS(readv(fd, (struct iovec *)nowhere, 1), EFAULT);
    /* Frames whose data could not be copied are lost. */
    get(fd, 0x123, 2);
    FAILS(recvfrom(fd, &frame, sizeof frame, 0, (struct sockaddr *)nowhere, &length), EFAULT);
    FAILS(getsockname(fd, (struct sockaddr *)nowhere, &length), EFAULT);
    FAILS(getsockname(fd, (struct sockaddr *)&frame, (socklen_t *)nowhere), EFAULT);
    FAILS(getsockopt(fd, SOL_CAN_RAW, CAN_RAW_LOOPBACK, nowhere, &length), EFAULT);
    FAILS(getsockopt(fd, SOL_CAN_RAW, CAN_RAW_LOOPBACK, &frame, (socklen_t *)nowhere), EFAULT);
    FAILS(ioctl(fd, SIOCGIFINDEX, nowhere), EFAULT);
    FAILS(ioctl(fd, SIOCGSTAMP, nowhere), EFAULT);
}

static void pointers(void) {
    int fd = bound("can1"), writer = bound("can0");
    pointers_of_writes(writer);
    pointers_of_reads(fd, writer);
    send_numbered(writer, 0x123, 9);
    get(fd, 0x123, 9);
    CHECK(close(fd) == 0 && close(writer) == 0);
}

/* Checks which argument is tested first if several are wrong, and what happens if there is nothing to do. */
static void order_of_arguments(void) {
    int fd = bound("can1"), writer = bound("can0"), one = 1;
    struct can_frame frame;
    struct sockaddr_can from;
    socklen_t length = (socklen_t)-1;
    struct mmsghdr message = {.msg_hdr = {.msg_iov = &(struct iovec){&frame, sizeof frame}, .msg_iovlen = 1}};
    FAILS(recvfrom(fd, &frame, sizeof frame, MSG_DONTWAIT, (struct sockaddr *)&from, NULL), EAGAIN);
    send_numbered(writer, 0x123, 1);
    CHECK(comes(fd, PATIENCE));
    FAILS(recvfrom(fd, &frame, sizeof frame, 0, (struct sockaddr *)&from, &length), EINVAL);
    FAILS(recv(fd, &frame, sizeof frame, MSG_DONTWAIT), EAGAIN);
    FAILS(recvmmsg(fd, &message, 1, MSG_DONTWAIT, &(struct timespec){0, -1}), EINVAL);
    FAILS(recvmmsg(fd, &message, 1, MSG_DONTWAIT, &(struct timespec){0, 1000000000}), EINVAL);
    FAILS(recvmmsg(fd, &message, 1, MSG_DONTWAIT, (struct timespec *)nowhere), EFAULT);
    CHECK(writev(writer, (struct iovec *)null, 0) == 0);
    FAILS(setsockopt(fd, SOL_CAN_RAW, 99, nowhere, sizeof one), ENOPROTOOPT);
    length = sizeof from;
    FAILS(getsockopt(fd, SOL_SOCKET, SO_PEERNAME, &from, &length), ENOTCONN);
    FAILS(getsockopt(fd, SOL_SOCKET, SO_PEEK_OFF, &from, &length), EOPNOTSUPP);
    FAILS(setsockopt(fd, SOL_SOCKET, SO_PEEK_OFF, &one, sizeof one), EOPNOTSUPP);
    FAILS(ioctl(fd, SIOCATMARK, &one), ENOTTY);
    one = 1;
    CHECK(setsockopt(fd, SOL_CAN_RAW, 7, &one, sizeof one) == 0); /* CAN_RAW_XL_FRAMES also turns FD frames on. */
    one = 0;
    CHECK(getsockopt(fd, SOL_CAN_RAW, CAN_RAW_FD_FRAMES, &one, &length) == 0 && one == 1);
    CHECK(close(fd) == 0 && close(writer) == 0);
}

/* A filter for 11-bit identifiers ignores the other bits (see can_rcv_list_find in net/can/af_can.c). */
static void filters(void) {
    int fd = bound("can1"), writer = bound("can0");
    struct can_filter filter = {0x12345123, 0xDFFFFFFF};
    CHECK(setsockopt(fd, SOL_CAN_RAW, CAN_RAW_FILTER, &filter, sizeof filter) == 0);
    send_numbered(writer, 0x123 | CAN_EFF_FLAG, 1);
    send_numbered(writer, 0x124, 2);
    send_numbered(writer, 0x123, 3);
    get(fd, 0x123, 3);
    filter = (struct can_filter){0x12345123 | CAN_INV_FILTER, 0xDFFFFFFF};
    CHECK(setsockopt(fd, SOL_CAN_RAW, CAN_RAW_FILTER, &filter, sizeof filter) == 0);
    send_numbered(writer, 0x123, 4);
    send_numbered(writer, 0x124, 5);
    get(fd, 0x124, 5);
    CHECK(close(fd) == 0 && close(writer) == 0);
}

/* Error message frames that a program writes are accepted. */
static void errors(void) {
    int fd = bound("can0"), reader = bound("can1");
    struct can_frame frame = {.can_id = CAN_ERR_FLAG | CAN_ERR_BUSERROR, .can_dlc = CAN_ERR_DLC};
    CHECK(write(fd, &frame, sizeof frame) == sizeof frame);
    send_numbered(fd, 0x123, 1);
    get(reader, 0x123, 1);
    CHECK(close(fd) == 0 && close(reader) == 0);
}

struct head { /* Like struct bcm_msg_head, but without the frames at its end. */
    uint32_t opcode, flags, count;
    struct bcm_timeval ival1, ival2;
    canid_t can_id;
    uint32_t nframes;
};
struct manager {
    struct head head;
    _Alignas(8) struct can_frame frames[2];
};

static int manager(void) {
    struct sockaddr_can address = address_of("can0");
    int fd = socket(PF_CAN, SOCK_DGRAM, CAN_BCM);
    CHECK(fd >= 0 && connect(fd, (struct sockaddr *)&address, sizeof address) == 0);
    FAILS(connect(fd, (struct sockaddr *)&address, sizeof address), EISCONN);
    return fd;
}

#define ONE (sizeof(struct head) + sizeof(struct can_frame))

static void times(void) {
    int fd = manager();
    static const struct bcm_timeval odd[] = {{-1, 0}, {0, -1}, {0, 1000000}, {400 * 24 * 60 * 60 + 1, 0}};
    for (size_t i = 0; i < sizeof odd / sizeof *odd; i++) {
        struct manager sent = {{TX_SETUP, SETTIMER | STARTTIMER, 0, {0, 0}, odd[i], 0x123, 1}, {{.can_id = 0x123}}};
        FAILS(write(fd, &sent, ONE), EINVAL);
        sent.head.opcode = RX_SETUP;
        FAILS(write(fd, &sent, ONE), EINVAL);
    }
    struct manager shown,
        sent = {{TX_SETUP, SETTIMER | STARTTIMER, 7, {0, 0}, {100, 0}, 0x123, 1}, {{.can_id = 0x123}}};
    CHECK(write(fd, &sent, ONE) == ONE);
    CHECK(write(fd, &(struct head){.opcode = TX_READ, .can_id = 0x123}, sizeof sent.head) == sizeof sent.head);
    CHECK(comes(fd, PATIENCE) && read(fd, &shown, sizeof shown) == ONE);
    CHECK(shown.head.opcode == TX_STATUS && shown.head.flags == (SETTIMER | STARTTIMER | TX_ANNOUNCE));
    CHECK(shown.head.count == 6 && shown.head.ival2.tv_sec == 100);
    sent.head = (struct head){RX_SETUP, SETTIMER, 7, {0, 0}, {0, 0}, 0x123, 1};
    CHECK(write(fd, &sent, ONE) == ONE);
    CHECK(write(fd, &(struct head){.opcode = RX_READ, .can_id = 0x123}, sizeof sent.head) == sizeof sent.head);
    CHECK(comes(fd, PATIENCE) && read(fd, &shown, sizeof shown) == ONE);
    CHECK(shown.head.opcode == RX_STATUS && shown.head.count == 0);
    /* RX_FILTER_ID requires no frame, whatever the value of nframes is. */
    sent.head = (struct head){RX_SETUP, RX_FILTER_ID, 0, {0, 0}, {0, 0}, 0x124, 1};
    CHECK(write(fd, &sent, sizeof sent.head) == sizeof sent.head);
    CHECK(close(fd) == 0);
}

/* The broadcast manager compares 8 bytes, even if the frame is shorter. */
static void lengths(void) {
    int fd = manager(), writer = bound("can1");
    struct manager got, sent = {{RX_SETUP, 0, 0, {0, 0}, {0, 0}, 0x321, 1}, {{.can_id = 0x321}}};
    struct can_frame frame = {.can_id = 0x321, .can_dlc = 8, .data = {1, 2, 3, 4, 5, 6, 7, 8}};
    memset(sent.frames[0].data, 0xFF, 8);
    CHECK(write(fd, &sent, ONE) == ONE);
    CHECK(write(writer, &frame, sizeof frame) == sizeof frame);
    CHECK(comes(fd, PATIENCE) && read(fd, &got, sizeof got) == ONE && got.frames[0].can_dlc == 8);
    frame = (struct can_frame){.can_id = 0x321, .can_dlc = 2, .data = {1, 2}};
    CHECK(write(writer, &frame, sizeof frame) == sizeof frame);
    CHECK(comes(fd, PATIENCE) && read(fd, &got, sizeof got) == ONE && got.frames[0].can_dlc == 2);
    frame.can_dlc = 3; /* The same 8 bytes. */
    CHECK(write(writer, &frame, sizeof frame) == sizeof frame);
    CHECK(!comes(fd, QUIET));
    CHECK(close(fd) == 0 && close(writer) == 0);
}

/* Checks that each remote frame is answered. */
static void replies(void) {
    int fd = manager(), writer = bound("can1");
    struct manager sent = {{RX_SETUP, RX_RTR_FRAME, 0, {0, 0}, {0, 0}, 0x222 | CAN_RTR_FLAG, 1},
                           {{.can_id = 0x222, .can_dlc = 4, .data = {1}}}};
    struct can_frame frame = {.can_id = 0x222 | CAN_RTR_FLAG};
    CHECK(write(fd, &sent, ONE) == ONE);
    for (int i = 0; i < 100; i++) {
        CHECK(write(writer, &frame, sizeof frame) == sizeof frame);
    }
    for (int i = 0; i < 100; i++) {
        get(writer, 0x222, 1);
    }
    CHECK(!comes(writer, QUIET));
    CHECK(close(fd) == 0 && close(writer) == 0);
}

int main(void) {
    nowhere = mmap(NULL, 65536, PROT_NONE, MAP_PRIVATE | MAP_ANONYMOUS, -1, 0);
    CHECK(nowhere != MAP_FAILED);
    types();
    addresses();
    pieces();
    pointers();
    order_of_arguments();
    filters();
    errors();
    times();
    lengths();
    replies();
    return 0;
}
